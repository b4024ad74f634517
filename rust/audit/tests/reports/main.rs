//! Reports on example tables, random tables and the vectors' tables, and the program that writes them.
//!
//! `tables` has the tables and `found` what the second program says of them; each other module is a
//! group of tests.

mod astray;
mod counts;
mod found;
mod page;
mod program;
mod refused;
mod tables;
mod unsound;
mod vectors;
