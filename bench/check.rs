// A plain Rust program that does what `mss check` does, and with the word `alike` what `mss check alike` does: the
// yardstick of its speed. It reads the settings and tables of the current folder without testing them, reads
// certificate.txt with its first fault, walks over its lines with the same full lists, and in version 2 with the same floors, made
// anew for each line that has a number, and says the same text with the same status.
mod plain;
use plain::floors::{Floors, forced};
use plain::lists::{self, Lists, UNIT, first_reaching};
use plain::rules::{dead, dead_alike};
use plain::tables::{Tables, read_tables};

const LIMIT: usize = 67_108_864;
const KINDS: [&str; 6] = ["TooLong", "Version", "Head", "Line", "NoEnd", "After"];
const REASONS: [&str; 9] = ["Header", "BranchFull", "DeadWrong", "FullShort", "Place", "BoundLow", "Ended", "Spare", "LowerWrong"];

#[derive(Clone, Copy)]
enum Line {
    Branch { _turn: u32 },
    Dead { rule: u32 },
    Full { _turn: u32, number: u32, ward: u32, day: u32 },
    Closed { _turn: u32, number: u32, ward: u32, day: u32 },
    Open { number: u32, ward: u32, day: u32 },
}

enum End {
    Lower(u32),
    None,
}

struct Certificate {
    version: u32,
    head: (u32, u32, u32),
    tree: Vec<Line>,
    end: End,
}

// A line and the number of its kind.
type Fault = (usize, usize);

// The number after a space at the front, and what follows it.
fn field(bytes: &[u8]) -> Option<(u32, &[u8])> {
    let rest = bytes.strip_prefix(b" ")?;
    let count = rest.iter().take_while(|c| c.is_ascii_digit()).count();
    let (digits, rest) = rest.split_at(count);
    if count == 0 || count > 9 || count > 1 && digits[0] == b'0' {
        return None;
    }
    Some((digits.iter().fold(0, |n, c| n * 10 + u32::from(c - b'0')), rest))
}

fn numbers<const N: usize>(mut rest: &[u8]) -> Option<[u32; N]> {
    let mut found = [0; N];
    for number in &mut found {
        (*number, rest) = field(rest)?;
    }
    rest.is_empty().then_some(found)
}

fn first_line(bytes: &[u8]) -> Option<(&[u8], &[u8])> {
    let end = bytes.iter().position(|c| *c == b'\n')?;
    Some((&bytes[..end], &bytes[end + 1..]))
}

fn head_of(line: &[u8]) -> Option<(u32, u32, u32)> {
    let (slots, rest) = field(line.strip_prefix(b"slots")?)?;
    let (options, rest) = field(rest.strip_prefix(b" options")?)?;
    let [level] = numbers::<1>(rest.strip_prefix(b" level")?)?;
    Some((slots, options, level))
}

enum Row {
    Tree(Line),
    Last(End),
}

fn row_of(line: &[u8]) -> Option<Row> {
    let row = if let Some(rest) = line.strip_prefix(b"branch") {
        let [turn] = numbers(rest)?;
        Row::Tree(Line::Branch { _turn: turn })
    } else if let Some(rest) = line.strip_prefix(b"dead") {
        let [rule] = numbers(rest)?;
        Row::Tree(Line::Dead { rule })
    } else if let Some(rest) = line.strip_prefix(b"full") {
        let [turn, number, ward, day] = numbers(rest)?;
        Row::Tree(Line::Full { _turn: turn, number, ward, day })
    } else if let Some(rest) = line.strip_prefix(b"closed") {
        let [turn, number, ward, day] = numbers(rest)?;
        Row::Tree(Line::Closed { _turn: turn, number, ward, day })
    } else if let Some(rest) = line.strip_prefix(b"open") {
        let [number, ward, day] = numbers(rest)?;
        Row::Tree(Line::Open { number, ward, day })
    } else if let Some(rest) = line.strip_prefix(b"lower") {
        let [number] = numbers(rest)?;
        Row::Last(End::Lower(number))
    } else if line == b"none" {
        Row::Last(End::None)
    } else {
        return None;
    };
    Some(row)
}

fn read(bytes: &[u8]) -> Result<Certificate, Fault> {
    let versions = [(1, b"mss certificate 1\n"), (2, b"mss certificate 2\n")];
    let (version, rest) = versions.iter().find_map(|(version, line)| Some((*version, bytes.strip_prefix(&line[..])?))).ok_or((1, 2))?;
    let (line, mut rest) = first_line(rest).ok_or((2, 3))?;
    let head = head_of(line).ok_or((2, 3))?;
    let mut tree = vec![];
    while let Some((line, others)) = first_line(rest) {
        match row_of(line) {
            Some(Row::Tree(line)) => tree.push(line),
            Some(Row::Last(end)) if others.is_empty() => return Ok(Certificate { version, head, tree, end }),
            Some(Row::Last(_)) => return Err((tree.len() + 4, 6)),
            None => return Err((tree.len() + 3, 4)),
        }
        rest = others;
    }
    Err((tree.len() + 3, 5))
}

struct Walk<'a> {
    tables: &'a Tables,
    lists: Lists,
    dead: fn(&Tables, &[u8]) -> u8,
    floors: Option<Floors>,
    prefix: Vec<u8>,
    value: Vec<u64>,
    raised: Vec<u64>,
    scratch: Vec<u64>,
}

impl Walk<'_> {
    // The beds of the ward that are always taken, and the low number of the full list of the prefix, in version 2 with its
    // floors.
    fn low(&mut self, ward: u32, day: u32) -> u32 {
        let Walk { tables, lists, floors, prefix, value, raised, scratch, .. } = self;
        value.clear();
        value.push(UNIT);
        for (slot, option) in prefix.iter().enumerate() {
            if let Some(part) = lists::part(tables, lists, ward as usize, day as usize, slot, *option) {
                lists::push_full(value, part, raised, scratch);
            }
        }
        if let Some(floors) = floors {
            floors.push(tables, lists, prefix, &forced(tables, prefix), ward as usize, day as usize, value, raised, scratch);
        }
        (tables.allow[ward as usize] + first_reaching(value, 0, tables.level)) as u32
    }

    fn number_fault(&mut self, number: u32, ward: u32, day: u32) -> Option<usize> {
        let t = self.tables;
        if ward == 0 || ward as usize > t.wards.len() || !t.watched[ward as usize] || day == 0 || day as usize > t.days {
            return Some(5);
        }
        (self.low(ward, day) < number).then_some(6)
    }

    // The reason for which a line fails at the prefix, if it does.
    fn line_fault(&mut self, line: Line) -> Option<usize> {
        let slots = self.tables.slots();
        match line {
            Line::Branch { .. } => (self.prefix.len() >= slots).then_some(2),
            Line::Dead { rule } => {
                let broken = (self.dead)(self.tables, &self.prefix);
                (broken == 0 || u32::from(broken) != rule).then_some(3)
            }
            Line::Full { number, ward, day, .. } => {
                if self.prefix.len() != slots || (self.dead)(self.tables, &self.prefix) != 0 {
                    return Some(4);
                }
                self.number_fault(number, ward, day)
            }
            Line::Closed { number, ward, day, .. } | Line::Open { number, ward, day } => self.number_fault(number, ward, day),
        }
    }

    // Goes on to the next prefix that this one doesn't begin; whether there is none.
    fn ends(&mut self) -> bool {
        while let Some(last) = self.prefix.pop() {
            if (last as usize) < self.tables.specialties.len() {
                self.prefix.push(last + 1);
                return false;
            }
        }
        true
    }
}

fn verdict(tables: &Tables, dead: fn(&Tables, &[u8]) -> u8, certificate: &Certificate) -> Result<Option<u32>, Fault> {
    let (slots, options, level) = certificate.head;
    if slots as usize != tables.slots() || options as usize != tables.specialties.len() + 1 || u64::from(level) != tables.level {
        return Err((2, 1));
    }
    let lists = lists::steady_lists(tables);
    let floors = (certificate.version == 2).then(Floors::default);
    let mut walk = Walk { tables, lists, dead, floors, prefix: vec![], value: vec![], raised: vec![], scratch: vec![] };
    let (mut complete, mut least) = (false, None::<u32>);
    for (at, line) in certificate.tree.iter().enumerate() {
        if complete {
            return Err((at + 3, 8));
        }
        if let Some(reason) = walk.line_fault(*line) {
            return Err((at + 3, reason));
        }
        match line {
            Line::Branch { .. } => walk.prefix.push(0),
            Line::Dead { .. } => complete = walk.ends(),
            Line::Full { number, .. } | Line::Closed { number, .. } | Line::Open { number, .. } => {
                least = Some(least.map_or(*number, |it| it.min(*number)));
                complete = walk.ends();
            }
        }
    }
    let last = certificate.tree.len() + 3;
    if !complete {
        return Err((last, 7));
    }
    match (&certificate.end, least) {
        (End::Lower(number), Some(least)) if *number == least => Ok(Some(least)),
        (End::None, None) => Ok(None),
        _ => Err((last, 9)),
    }
}

fn main() {
    let is_alike = std::env::args().nth(1).is_some_and(|word| word == "alike");
    let tables = read_tables();
    let bytes = std::fs::read("certificate.txt").unwrap();
    let certificate = if bytes.len() > LIMIT { Err((0, 1)) } else { read(&bytes) };
    let (status, text) = match certificate {
        Err((line, kind)) => (4, format!("certificate refused: line {line} kind {kind} {}", KINDS[kind - 1])),
        Ok(certificate) => match verdict(&tables, if is_alike { dead_alike } else { dead }, &certificate) {
            Ok(Some(lower)) => (0, format!("certificate accepted: every legal cycle peaks at least at {lower}")),
            Ok(None) => (0, "certificate accepted: no legal cycle".to_string()),
            Err((line, reason)) => (4, format!("certificate refused: line {line} reason {reason} {}", REASONS[reason - 1])),
        },
    };
    println!("{text}");
    std::process::exit(status);
}
