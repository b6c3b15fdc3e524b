// One line for each lot: all agree on every sum, or the program stops; then their times, and the ratio to the faster one of the two in Rust.
use crate::exported;
use crate::inputs::Lot;
use crate::plain;
use crate::timing;
use std::hint::black_box;

pub fn heading(title: &str) {
    println!("\n{title}");
    println!("{:<14}{:>11}{:>14}{:>16}{:>8}{:>11}", "times in ms", "proved", "Rust, branch", "Rust, no branch", "ratio", "of middles");
}

// A lot, and memory for each of the three.
struct Trial<'a> {
    lot: &'a Lot,
    words: Vec<u32>,
    branch: Vec<u64>,
    no_branch: Vec<u64>,
}

pub fn line(name: &str, lot: &Lot) {
    let mut trial = Trial { lot, words: vec![7; 2 * lot.sums()], branch: vec![7; lot.sums()], no_branch: vec![7; lot.sums()] };
    trial.fill_words();
    trial.fill_with_branch();
    trial.fill_without_branch();
    agree(&trial.words, &trial.branch);
    agree(&trial.words, &trial.no_branch);
    let [proved, branch, no_branch] = timing::in_turn(&mut trial, [Trial::fill_words, Trial::fill_with_branch, Trial::fill_without_branch]);
    println!(
        "{name:<14}{:>11.3}{:>14.3}{:>16.3}{:>8.2}{:>11.2}",
        1e3 * proved.least,
        1e3 * branch.least,
        1e3 * no_branch.least,
        proved.least / branch.least.min(no_branch.least),
        proved.middle / branch.middle.min(no_branch.middle)
    );
}

impl Trial<'_> {
    fn fill_words(&mut self) {
        let filled = exported::fill_tables(black_box(&mut self.words), self.lot.pieces, self.lot.bidders, black_box(&self.lot.rows));
        assert_eq!(filled, 2 * self.lot.sums() as i64);
    }

    fn fill_with_branch(&mut self) {
        plain::fill_with_branch(black_box(&mut self.branch), self.lot.pieces, self.lot.bidders, black_box(&self.lot.rows));
    }

    fn fill_without_branch(&mut self) {
        plain::fill_without_branch(black_box(&mut self.no_branch), self.lot.pieces, self.lot.bidders, black_box(&self.lot.rows));
    }
}

fn agree(words: &[u32], sums: &[u64]) {
    let proved = words.chunks_exact(2).map(|w| u64::from(w[0]) | u64::from(w[1]) << 32);
    assert!(proved.eq(sums.iter().copied()), "the two do not agree on every sum");
}

// Bad input is refused, and leaves every word as it was.
pub fn refusals_are_told() {
    let out_of_range = -(2 << 32);
    let too_few_words = -(3 << 32);
    refused(33 << 17, 17, 32, 32 * 32, out_of_range);
    refused(34 << 17, 16, 33, 33 * 32, out_of_range);
    refused(33 << 17, 16, 32, 32 * 32 - 1, out_of_range);
    refused((33 << 17) - 1, 16, 32, 32 * 32, too_few_words);
    refused(0, u32::MAX, u32::MAX, 0, out_of_range);
}

fn refused(words: usize, pieces: u32, bidders: u32, rows: usize, code: i64) {
    let mut tables = vec![7; words];
    assert_eq!(exported::fill_tables(&mut tables, pieces, bidders, &vec![1; rows]), code);
    assert!(tables.iter().all(|word| *word == 7), "a refusal changed a word");
}
