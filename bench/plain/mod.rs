// What the plain Rust programs share: the tables, read without any test; kept lists and floors; the rules; texts. Nothing here is
// proved, and nothing of the planner is used. It is what the planner's speed is held against.
#![allow(dead_code)]
pub mod floors;
pub mod lists;
pub mod report;
pub mod rules;
pub mod tables;
pub mod weights;
