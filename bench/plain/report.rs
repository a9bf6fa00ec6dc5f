// The report of a cycle, as text and as JSON.
use super::lists::{Lists, Peak, UNIT, all_lists, first_reaching, rest, value_of};
use super::tables::Tables;
use std::fmt::Write as _;

pub struct Figures {
    mean: (u64, u64),
    // level, low, high
    pairs: Vec<(u64, usize, usize)>,
    // patients, and the chances of exactly and of at most so many
    points: Vec<(usize, u64, u64, u64, u64)>,
}

pub struct Report {
    pub peak: Peak,
    // by ward and day: census, admissions, discharges
    wards: Vec<Vec<[Figures; 3]>>,
}

const QUANTITIES: [&str; 3] = ["census", "admissions", "discharges"];
const PLACES: u128 = 1_000_000_000_000;
// of a mean
const MILLIONTHS: u64 = 1_000_000;

fn figures(tables: &Tables, value: &[u64]) -> Figures {
    let rest = rest(value);
    let moment: u128 = value.iter().enumerate().map(|(x, kept)| x as u128 * *kept as u128).sum();
    let most = moment + rest as u128 * (value.len() as u128 - 1);
    let unit = UNIT as u128;
    let (from, to) = (first_reaching(value, rest, 1000), first_reaching(value, 0, 999_000));
    let mut total: u64 = value[..from].iter().sum();
    let mut points = vec![];
    for x in from..=to {
        total += value[x];
        points.push((x, value[x], value[x] + rest, total, total + rest));
    }
    Figures {
        mean: ((moment * MILLIONTHS as u128 / unit) as u64, (most * MILLIONTHS as u128).div_ceil(unit) as u64),
        pairs: tables.levels.iter().map(|v| (*v, first_reaching(value, rest, *v), first_reaching(value, 0, *v))).collect(),
        points,
    }
}

// The peak is gathered while the figures are made.
pub fn report(tables: &Tables, options: &[u8]) -> Report {
    let lists = all_lists(tables);
    let (mut peak, mut value, mut scratch) = (Peak::default(), vec![], vec![]);
    let mut wards = vec![];
    for ward in 1..=tables.wards.len() {
        let mut days = vec![];
        for day in 1..=tables.days {
            let mut of = |lists: &Lists, counts: bool| {
                value_of(tables, lists, ward, day, options, &mut value, &mut scratch);
                if counts && tables.watched[ward] {
                    peak.take(tables, &value, ward, day);
                }
                figures(tables, &value)
            };
            days.push([of(&lists.census, true), of(&lists.admissions, false), of(&lists.discharges, false)]);
        }
        wards.push(days);
    }
    Report { peak, wards }
}

fn decimal(text: &mut String, value: u64, up: bool) {
    let scaled = value as u128 * PLACES;
    let n = if up { scaled.div_ceil(UNIT as u128) } else { scaled / UNIT as u128 };
    write!(text, "{}.{:012}", n / PLACES, n % PLACES).unwrap();
}

fn mean(text: &mut String, value: u64) {
    write!(text, "{}.{:06}", value / MILLIONTHS, value % MILLIONTHS).unwrap();
}

fn figures_text(text: &mut String, day: usize, name: &str, f: &Figures) {
    write!(text, "day {day} {name} mean ").unwrap();
    mean(text, f.mean.0);
    text.push(' ');
    mean(text, f.mean.1);
    text.push('\n');
    for (level, low, high) in &f.pairs {
        writeln!(text, "day {day} {name} level {level} pair {low} {high}").unwrap();
    }
    for (x, low, high, total, most) in &f.points {
        write!(text, "day {day} {name} point {x} exactly ").unwrap();
        decimal(text, *low, false);
        text.push(' ');
        decimal(text, *high, true);
        text.push_str(" at most ");
        decimal(text, *total, false);
        text.push(' ');
        decimal(text, *most, true);
        text.push('\n');
    }
}

pub fn report_text(tables: &Tables, options: &[u8], report: &Report) -> String {
    let blocks = options.iter().filter(|j| **j != 0).count();
    let mut text = String::from("mss evaluate 1\n");
    writeln!(text, "days {} rooms {} specialties {} wards {} blocks {blocks}", tables.days, tables.rooms.len(), tables.specialties.len(), tables.wards.len()).unwrap();
    let Peak { low, high, ward, day } = report.peak;
    writeln!(text, "level {} peak {low} {high} ward {ward} day {day}", tables.level).unwrap();
    for (at, days) in report.wards.iter().enumerate() {
        writeln!(text, "ward {} {}", at + 1, String::from_utf8_lossy(&tables.wards[at])).unwrap();
        for (day, figures) in days.iter().enumerate() {
            for (name, f) in QUANTITIES.iter().zip(figures) {
                figures_text(&mut text, day + 1, name, f);
            }
        }
    }
    text
}

fn figures_json(text: &mut String, f: &Figures) {
    text.push_str("{\"mean\":[\"");
    mean(text, f.mean.0);
    text.push_str("\",\"");
    mean(text, f.mean.1);
    text.push_str("\"],\"pairs\":[");
    for (at, (level, low, high)) in f.pairs.iter().enumerate() {
        write!(text, "{}{{\"high\":{high},\"level\":{level},\"low\":{low}}}", if at == 0 { "" } else { "," }).unwrap();
    }
    text.push_str("],\"points\":[");
    for (at, (x, low, high, total, most)) in f.points.iter().enumerate() {
        text.push_str(if at == 0 { "{\"exactly\":[\"" } else { ",{\"exactly\":[\"" });
        decimal(text, *low, false);
        text.push_str("\",\"");
        decimal(text, *high, true);
        text.push_str("\"],\"most\":[\"");
        decimal(text, *total, false);
        text.push_str("\",\"");
        decimal(text, *most, true);
        write!(text, "\"],\"patients\":{x}}}").unwrap();
    }
    text.push_str("]}");
}

pub fn report_json(tables: &Tables, report: &Report) -> String {
    let Peak { low, high, ward, day } = report.peak;
    let mut text = format!("{{\"days\":{},\"level\":{},\"peak\":{{\"day\":{day},\"high\":{high},\"low\":{low},\"ward\":{ward}}},\"version\":1,\"wards\":[", tables.days, tables.level);
    for (at, days) in report.wards.iter().enumerate() {
        text.push_str(if at == 0 { "{\"days\":[" } else { ",{\"days\":[" });
        for (day, [census, admissions, discharges]) in days.iter().enumerate() {
            text.push_str(if day == 0 { "{" } else { ",{" });
            for (at, (name, f)) in [("admissions", admissions), ("census", census), ("discharges", discharges)].iter().enumerate() {
                write!(text, "{}\"{name}\":", if at == 0 { "" } else { "," }).unwrap();
                figures_json(&mut text, f);
            }
            text.push('}');
        }
        let name = String::from_utf8_lossy(&tables.wards[at]).replace('\\', "\\\\").replace('"', "\\\"");
        write!(text, "],\"name\":\"{name}\"}}").unwrap();
    }
    text.push_str("]}\n");
    text
}
