// The same algorithm in Rust, with sums of 64 bits: for each bidder from the last one on a table made of the next one's.
// In two ways, since neither is the faster one on all lots: a sum is stored if it is more, with a branch, or the larger one always, without.
use crate::inputs::ROW;

#[inline(never)]
pub fn fill_with_branch(tables: &mut [u64], pieces: u32, bidders: u32, rows: &[u32]) {
    fill_tables(tables, pieces, bidders, rows, offer_with_branch);
}

#[inline(never)]
pub fn fill_without_branch(tables: &mut [u64], pieces: u32, bidders: u32, rows: &[u32]) {
    fill_tables(tables, pieces, bidders, rows, offer_without_branch);
}

fn fill_tables(tables: &mut [u64], pieces: u32, bidders: u32, rows: &[u32], offer: impl Fn(&mut [u64], &[u64], u64, usize)) {
    let sets = 1usize << pieces;
    let last = bidders as usize * sets;
    tables[last..last + sets].fill(0);
    for bidder in (0..bidders as usize).rev() {
        let (this, next) = tables[bidder * sets..(bidder + 2) * sets].split_at_mut(sets);
        this.copy_from_slice(next);
        let row = &rows[bidder * ROW..(bidder + 1) * ROW];
        let bids = row.chunks_exact(2).take_while(|bid| bid[0] != 0).count();
        for bid in row[..2 * bids].chunks_exact(2).rev() {
            offer(this, next, u64::from(bid[0]), bid[1] as usize & 0xffff);
        }
    }
}

// Over the sets that hold the bid's pieces. Written out twice: with the store in a function of its own the loop was measured a tenth slower.
fn offer_with_branch(this: &mut [u64], next: &[u64], price: u64, on: usize) {
    let next = &next[..this.len()];
    let mut set = on;
    while set < this.len() {
        let offered = price + next[set & !on];
        if offered > this[set] {
            this[set] = offered;
        }
        set = (set + 1) | on;
    }
}

fn offer_without_branch(this: &mut [u64], next: &[u64], price: u64, on: usize) {
    let next = &next[..this.len()];
    let mut set = on;
    while set < this.len() {
        this[set] = this[set].max(price + next[set & !on]);
        set = (set + 1) | on;
    }
}
