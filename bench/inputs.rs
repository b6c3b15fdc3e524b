// Lots made by chance from a fixed seed: the same in every run.
use crate::Sizes;

pub const ROW: usize = 32;

// The bids of a lot as words: for each bidder sixteen times price and set, and a price of 0 behind the last bid.
pub struct Lot {
    pub pieces: u32,
    pub bidders: u32,
    pub rows: Vec<u32>,
}

impl Lot {
    pub fn new(pieces: u32, bidders: u32, bids: usize, sizes: Sizes, seed: u64) -> Lot {
        let mut chance = Chance(0x9e37_79b9_7f4a_7c15 ^ seed);
        let mut rows = vec![0; ROW * bidders as usize];
        for row in rows.chunks_exact_mut(ROW) {
            for bid in row.chunks_exact_mut(2).take(bids) {
                let size = sizes.low + chance.below(sizes.high - sizes.low + 1);
                bid[0] = 1 + chance.below(1_000_000_000);
                bid[1] = chance.set(pieces, size.min(pieces));
            }
        }
        Lot { pieces, bidders, rows }
    }

    // How many sums all tables have together: one table for each bidder, and one behind the last.
    pub fn sums(&self) -> usize {
        (self.bidders as usize + 1) << self.pieces
    }
}

// Numbers by xorshift.
struct Chance(u64);

impl Chance {
    fn below(&mut self, bound: u32) -> u32 {
        self.0 ^= self.0 << 13;
        self.0 ^= self.0 >> 7;
        self.0 ^= self.0 << 17;
        ((self.0 >> 32) % u64::from(bound)) as u32
    }

    // So many of the pieces, all sets of that size alike often.
    fn set(&mut self, pieces: u32, size: u32) -> u32 {
        let mut set = 0u32;
        while set.count_ones() < size {
            set |= 1 << self.below(pieces);
        }
        set
    }
}
