// Measures the proved solver's tables against the same algorithm in Rust, side by side, and sees that they agree on every sum.
mod exported;
mod inputs;
mod plain;
mod report;
mod timing;

use inputs::Lot;

const SMALL: Sizes = Sizes { low: 1, high: 5 };
const LARGE: Sizes = Sizes { low: 4, high: 12 };

// How many pieces a bid's set may have: all sizes alike often.
#[derive(Clone, Copy)]
struct Sizes {
    low: u32,
    high: u32,
}

fn main() {
    report::refusals_are_told();
    report::heading("Full size: 16 pieces, 32 bidders, 16 bids each");
    report::line("mean size 3", &Lot::new(16, 32, 16, SMALL, 1));
    report::line("mean size 8", &Lot::new(16, 32, 16, LARGE, 2));
    report::heading("By pieces: 32 bidders, 16 bids each, mean size 3");
    for pieces in [8, 10, 12, 14, 16] {
        report::line(&format!("{pieces} pieces"), &Lot::new(pieces, 32, 16, SMALL, 3));
    }
    report::heading("By bidders: 16 pieces, 16 bids each, mean size 3");
    for bidders in [4, 8, 16, 32] {
        report::line(&format!("{bidders} bidders"), &Lot::new(16, bidders, 16, SMALL, 4));
    }
    report::heading("By bids: 16 pieces, 32 bidders, mean size 3");
    for bids in [2, 4, 8, 16] {
        report::line(&format!("{bids} bids each"), &Lot::new(16, 32, bids, SMALL, 5));
    }
}
