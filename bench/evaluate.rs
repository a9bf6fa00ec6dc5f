// A plain Rust program that prints the same report as `mss evaluate`, and with the word `json` as `mss evaluate json`: the
// yardstick of their speed.
//
// It reads the tables of the current folder without testing them, holds the cycle against the rules, computes the same
// kept lists with the same form of convolution (supports only, four outputs at a time), and prints the same bytes.
// Nothing in it is proved.
mod plain;
use plain::{report, rules, tables};
use std::io::Write as _;

fn main() {
    let tables = tables::read_tables();
    let options = tables::read_cycle(&tables);
    let rule = rules::dead(&tables, &options);
    if rule != 0 {
        println!("cycle refused: rule {rule}");
        std::process::exit(3);
    }
    let report = report::report(&tables, &options);
    let is_json = std::env::args().nth(1).as_deref() == Some("json");
    let text = if is_json { report::report_json(&tables, &report) } else { report::report_text(&tables, &options, &report) };
    std::io::stdout().write_all(text.as_bytes()).unwrap();
}
