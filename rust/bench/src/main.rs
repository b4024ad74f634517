//! Benchmarks: the product against ordinary Rust on the same input, as ratios in one run.
#![forbid(unsafe_code)]

mod check;
mod house;
mod judge;
mod lend;
mod numbers;
mod ordinary;
mod pack;
mod parse;
mod records;
mod sentence;
mod table;
mod timing;

fn main() {
    judge::run();
    check::run();
    pack::run();
    parse::run();
}
