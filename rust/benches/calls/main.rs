//! Time and stack of the calls, side by side with the original, of calls over kept places beside the plain ones, and of measures beside the calls that write
//! the text, as Markdown tables. `tools/bench.sh` runs it; docs/BENCHMARKS.md has the figures of one run.
//!
//! A number as argument is the most bytes of a generated stream: with 0 there are the shipped streams only.
#[path = "../../tests/original/asked.rs"]
mod asked;
#[path = "../../tests/common/mod.rs"]
mod common;
#[path = "../../tests/original/error.rs"]
mod error;
mod generated;
mod measured;
#[path = "../../tests/original/pdb_stand_in.rs"]
#[allow(dead_code)]
mod pdb_stand_in;
mod placed;
#[path = "../../tests/original/range_collections_stand_in.rs"]
mod range_collections_stand_in;
mod side_by_side;
mod stack;
mod table;
mod texts;
mod timing;
#[path = "../../tests/original/type_formatter.rs"]
#[allow(dead_code, unreachable_patterns, clippy::all)]
#[rustfmt::skip]
mod type_formatter;

extern crate self as bitflags;
extern crate self as pdb;
extern crate self as range_collections;
pub use pdb_stand_in::*;
pub use range_collections_stand_in::{range_set, RangeSet, RangeSet2};

use std::env;

// The last is the longest stream that is not refused.
const SIZES: [usize; 8] = [4096, 16_384, 65_536, 262_144, 1_048_576, 2_097_152, 4_194_304, 16_777_216];

fn main() {
    if let Ok(row) = env::var(stack::STACK_OF) {
        return stack::after(&row);
    }
    let mut rows: Vec<_> = common::real_streams().iter().flat_map(side_by_side::compared).collect();
    side_by_side::print("Shipped streams, in microseconds", &rows);
    let most = env::args().find_map(|argument| argument.parse().ok()).unwrap_or(usize::MAX);
    let sizes = SIZES.into_iter().filter(|size| *size <= most);
    let generated: Vec<_> = sizes.clone().flat_map(|size| side_by_side::compared(&generated::streams(size))).collect();
    side_by_side::print("Generated streams, in microseconds", &generated);
    side_by_side::print_growth(&generated);
    rows.extend(generated);
    side_by_side::print_like_for_like("Like for like: ratios of other ways to call", &rows);
    side_by_side::print_targets(&rows);
    let all: Vec<_> = common::real_streams().into_iter().chain(sizes.map(generated::streams)).collect();
    placed::print_single(&all);
    placed::print_check(&all);
    placed::print_openings(most);
    measured::print(&all);
    texts::print();
    stack::print();
}
