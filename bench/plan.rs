// A plain Rust program that does what `mss plan` does: the yardstick of its speed. It reads the settings and tables of the
// current folder without testing them, makes the same search with the same full lists, the same form of convolution, 16
// carried prefixes, floors and a heap, writes planned.csv and certificate.txt, and says the same text with the same status.
//
// The word `alike` stands for `mss plan alike`. Other words change the bounds, and nothing else: `empty` makes each bound
// from the empty prefix, and `orphans` each from the longest carried prefix, where the children of a prefix go on from its
// lists, and from the low numbers of its idle child on all wards but that of their last option; `unfloored` bounds without
// floors, and writes version 1. On standard error it says the microseconds of the search alone, how many bounds it made, how
// often they called the convolution, and how often the last options of all bounded prefixes alone would call it, below which
// no carried lists can go.
mod plain;
use plain::floors::{Floors, forced, forced_of};
use plain::lists::{self, CALLS, Lists, UNIT, first_reaching, peak_of, push_full};
use plain::report::{report, report_text};
use plain::rules::{dead, dead_alike};
use plain::tables::{Tables, cycle_text, read_tables};
use std::cmp::Reverse;
use std::collections::BinaryHeap;
use std::fmt::Write as _;
use std::io::Write as _;
use std::time::Instant;

const PLACES: usize = 16;

// 960 blocks of up to 16 patients
const ROOM: usize = 15_361;

#[derive(Clone, Copy)]
enum Line {
    Branch { turn: u32 },
    Dead { rule: u32 },
    Full { turn: u32, bound: Bound },
    Closed { turn: u32, bound: Bound },
    Open { bound: Bound },
}

#[derive(Clone, Copy, PartialEq, Eq, PartialOrd, Ord)]
struct Bound {
    number: u32,
    ward: u32,
    day: u32,
}

impl Bound {
    fn none() -> Bound {
        Bound { number: 0, ward: 0, day: 0 }
    }

    // One more place, in order.
    fn take(&mut self, number: u32, (ward, day): (usize, usize)) {
        if self.ward == 0 || self.number < number {
            *self = Bound { number, ward: ward as u32, day: day as u32 };
        }
    }
}

struct Carried {
    prefix: Vec<u8>,
    lists: Vec<Vec<u64>>,
}

impl Carried {
    // The empty prefix, with room for so many options and numbers.
    fn make(slots: usize, spots: usize, room: usize) -> Carried {
        let list = || {
            let mut list = vec![0; room];
            list[0] = UNIT;
            list.truncate(1);
            list
        };
        Carried { prefix: Vec::with_capacity(slots), lists: (0..spots).map(|_| list()).collect() }
    }
}

#[derive(PartialEq)]
enum How {
    Carried,
    Orphans,
    Empty,
}

struct Bounder<'a> {
    tables: &'a Tables,
    lists: Lists,
    spots: Vec<(usize, usize)>,
    // the most recently used first
    carried: Vec<Carried>,
    working: Carried,
    how: How,
    dead: fn(&Tables, &[u8]) -> u8,
    floors: Option<Floors>,
    value: Vec<u64>,
    raised: Vec<u64>,
    scratch: Vec<u64>,
    // the low numbers of the idle child, and the blocks that it forces
    lows: Vec<u32>,
    idle_forced: Vec<u32>,
    bounds: u64,
    calls: u64,
    least: u64,
}

// How often the convolution was called.
fn calls() -> u64 {
    CALLS.with(|calls| calls.get())
}

impl<'a> Bounder<'a> {
    fn make(tables: &'a Tables, how: How, dead: fn(&Tables, &[u8]) -> u8, floors: Option<Floors>) -> Bounder<'a> {
        let watched = (1..=tables.wards.len()).filter(|ward| tables.watched[*ward]);
        let spots: Vec<_> = watched.flat_map(|ward| (1..=tables.days).map(move |day| (ward, day))).collect();
        let lists = lists::steady_lists(tables);
        let longest = lists.iter().flatten().map(Vec::len).max().unwrap_or(1);
        let room = ROOM.min(1 + tables.slots() * (longest - 1));
        let make = || Carried::make(tables.slots(), spots.len(), room);
        let (carried, working) = ((0..PLACES).map(|_| make()).collect(), make());
        let value = || Vec::with_capacity(ROOM);
        Bounder { tables, lists, carried, working, spots, how, dead, floors, value: value(), raised: value(), scratch: value(), lows: vec![], idle_forced: vec![], bounds: 0, calls: 0, least: 0 }
    }

    fn longest(&self, prefix: &[u8]) -> usize {
        self.carried.iter().filter(|it| prefix.starts_with(&it.prefix)).map(|it| it.prefix.len()).max().unwrap_or(0)
    }

    // Fills the working place from the front one, or from nothing.
    fn fill(&mut self, prefix: &[u8], from_front: bool) {
        let Bounder { tables, lists, spots, carried, working, value, raised, scratch, .. } = self;
        let start = if from_front { carried[0].prefix.len() } else { 0 };
        for (at, (ward, day)) in spots.iter().enumerate() {
            value.clear();
            if from_front {
                value.extend_from_slice(&carried[0].lists[at]);
            } else {
                value.push(UNIT);
            }
            for slot in start..prefix.len() {
                if let Some(part) = lists::part(tables, lists, *ward, *day, slot, prefix[slot]) {
                    push_full(value, part, raised, scratch);
                }
            }
            working.lists[at].clear();
            working.lists[at].extend_from_slice(value);
        }
        working.prefix.clear();
        working.prefix.extend_from_slice(prefix);
    }

    // Brings the prefix and its lists to the front place.
    fn carry(&mut self, prefix: &[u8]) {
        if self.carried[0].prefix == prefix {
            return;
        }
        let len = self.longest(prefix);
        let found = self.carried.iter().position(|it| it.prefix == prefix[..len]);
        if let Some(at) = found {
            self.carried[..=at].rotate_right(1);
            if len == prefix.len() {
                return;
            }
        }
        self.fill(prefix, found.is_some());
        std::mem::swap(&mut self.working, self.carried.last_mut().unwrap());
        self.carried.rotate_right(1);
    }

    // A bound by itself, over the lists of the prefix.
    fn bound(&mut self, prefix: &[u8]) -> Bound {
        if self.how == How::Empty {
            self.fill(prefix, false);
        } else {
            self.carry(prefix);
        }
        let forced = self.forced(prefix);
        let mut bound = Bound::none();
        for at in 0..self.spots.len() {
            let number = self.low(prefix, &forced, at, None);
            bound.take(number, self.spots[at]);
        }
        bound
    }

    fn forced(&self, prefix: &[u8]) -> Vec<u32> {
        if self.floors.is_some() { forced(self.tables, prefix) } else { vec![] }
    }

    // The beds that are taken at a place at least: those that always are, and the low number of a carried list with the list
    // that an option adds to it and its floors.
    fn low(&mut self, prefix: &[u8], forced: &[u32], at: usize, part: Option<(usize, u8)>) -> u32 {
        let Bounder { tables, lists, spots, carried, working, how, floors, value, raised, scratch, .. } = self;
        let held = if *how == How::Empty { &working.lists } else { &carried[0].lists };
        let (ward, day) = spots[at];
        value.clear();
        value.extend_from_slice(&held[at]);
        if let Some(part) = part.and_then(|(slot, option)| lists::part(tables, lists, ward, day, slot, option)) {
            push_full(value, part, raised, scratch);
        }
        if let Some(floors) = floors {
            floors.push(tables, lists, prefix, forced, ward, day, value, raised, scratch);
        }
        (tables.allow[ward] + first_reaching(value, 0, tables.level)) as u32
    }

    // The low numbers of the child whose last slot is idle, which has the lists of its parent, and what it forces.
    fn take_idle_child(&mut self, parent: &[u8]) {
        let before = calls();
        self.carry(parent);
        let idle = child_of(parent, 0);
        let forced = self.forced(&idle);
        self.lows.clear();
        for at in 0..self.spots.len() {
            let number = self.low(&idle, &forced, at, None);
            self.lows.push(number);
        }
        self.idle_forced = forced;
        self.calls += calls() - before;
    }

    // The blocks that a child forces: those of its idle sibling, but for the specialty of its last option.
    fn child_forced(&mut self, child: &[u8], option: u8) -> Vec<u32> {
        let mut forced = std::mem::take(&mut self.idle_forced);
        if option > 0 && self.floors.is_some() {
            forced[option as usize - 1] = forced_of(self.tables, child, option as usize - 1);
        }
        forced
    }

    // The bound of a child, where its idle sibling is known.
    fn child_bound(&mut self, child: &[u8]) -> Bound {
        let (parent, option) = (&child[..child.len() - 1], child[child.len() - 1]);
        self.carry(parent);
        let ward = if option == 0 { 0 } else { self.tables.ward_of[option as usize] };
        let kept = self.idle_forced.get((option as usize).wrapping_sub(1)).copied();
        let mut forced = self.child_forced(child, option);
        let mut bound = Bound::none();
        for at in 0..self.spots.len() {
            let number = if self.spots[at].0 == ward { self.low(child, &forced, at, Some((parent.len(), option))) } else { self.lows[at] };
            bound.take(number, self.spots[at]);
        }
        if let Some(kept) = kept {
            forced[option as usize - 1] = kept;
        }
        self.idle_forced = forced;
        bound
    }

    fn line(&mut self, prefix: &[u8]) -> Line {
        let rule = (self.dead)(self.tables, prefix);
        if rule != 0 {
            return Line::Dead { rule: u32::from(rule) };
        }
        self.least += prefix.last().map_or(0, |option| self.calls_for(prefix.len() - 1, *option));
        let before = calls();
        let bound = if self.how == How::Carried && !prefix.is_empty() { self.child_bound(prefix) } else { self.bound(prefix) };
        self.bounds += 1;
        self.calls += calls() - before;
        Line::Open { bound }
    }

    // At how many places patients of an option may be there.
    fn calls_for(&self, slot: usize, option: u8) -> u64 {
        let part = |(ward, day): &(usize, usize)| lists::part(self.tables, &self.lists, *ward, *day, slot, option);
        self.spots.iter().filter(|spot| part(spot).is_some_and(|part| part.len() > 1)).count() as u64
    }
}

// Compared in the order of the fields.
#[derive(PartialEq, Eq, PartialOrd, Ord)]
struct Waiting {
    number: u32,
    left: usize,
    options: Vec<u8>,
    bound: Bound,
    node: usize,
}

struct Node {
    next: u32,
    line: Line,
}

struct Search {
    nodes: Vec<Node>,
    queue: BinaryHeap<Reverse<Waiting>>,
    best: Option<(u32, Vec<u8>)>,
    turns: u32,
}

fn child_of(prefix: &[u8], option: u8) -> Vec<u8> {
    let mut child = Vec::with_capacity(prefix.len() + 1);
    child.extend_from_slice(prefix);
    child.push(option);
    child
}

impl Search {
    fn start(bounder: &mut Bounder) -> Search {
        let line = bounder.line(&[]);
        let mut queue = BinaryHeap::new();
        if let Line::Open { bound } = line {
            queue.push(Reverse(Waiting { number: bound.number, left: bounder.tables.slots(), options: vec![], bound, node: 0 }));
        }
        Search { nodes: vec![Node { next: 0, line }], queue, best: None, turns: 0 }
    }

    fn turn(&mut self, bounder: &mut Bounder, value: &mut Vec<u64>, scratch: &mut Vec<u64>) {
        let Some(Reverse(taken)) = self.queue.pop() else { return };
        self.turns += 1;
        let turn = self.turns;
        if self.best.as_ref().is_some_and(|best| best.0 <= taken.number) {
            self.nodes[taken.node].line = Line::Closed { turn, bound: taken.bound };
        } else if taken.left == 0 {
            let upper = peak_of(bounder.tables, &bounder.lists, &taken.options, value, scratch).high as u32;
            if self.best.as_ref().is_none_or(|best| upper < best.0) {
                self.best = Some((upper, taken.options));
            }
            self.nodes[taken.node].line = Line::Full { turn, bound: taken.bound };
        } else {
            self.branch(bounder, taken);
        }
    }

    fn branch(&mut self, bounder: &mut Bounder, taken: Waiting) {
        let (first, after) = (self.nodes.len(), self.nodes[taken.node].next);
        let count = bounder.tables.specialties.len() + 1;
        if bounder.how == How::Carried {
            bounder.take_idle_child(&taken.options);
        }
        for option in 0..count {
            let options = child_of(&taken.options, option as u8);
            let line = bounder.line(&options);
            let node = self.nodes.len();
            self.nodes.push(Node { next: if option + 1 == count { after } else { node as u32 + 1 }, line });
            if let Line::Open { bound } = line {
                self.queue.push(Reverse(Waiting { number: bound.number, left: taken.left - 1, options, bound, node }));
            }
        }
        self.nodes[taken.node] = Node { next: first as u32, line: Line::Branch { turn: self.turns } };
    }

    // The text of the certificate, and its lower number.
    fn certificate(&self, tables: &Tables, version: u32) -> (String, Option<u32>) {
        let (mut text, mut least, mut at) = (String::new(), None::<u32>, 0);
        writeln!(text, "mss certificate {version}\nslots {} options {} level {}", tables.slots(), tables.specialties.len() + 1, tables.level).unwrap();
        for _ in 0..self.nodes.len() {
            let node = &self.nodes[at];
            let counted = match node.line {
                Line::Branch { turn } => {
                    writeln!(text, "branch {turn}").unwrap();
                    None
                }
                Line::Dead { rule } => {
                    writeln!(text, "dead {rule}").unwrap();
                    None
                }
                Line::Full { turn, bound } => {
                    writeln!(text, "full {turn} {} {} {}", bound.number, bound.ward, bound.day).unwrap();
                    Some(bound.number)
                }
                Line::Closed { turn, bound } => {
                    writeln!(text, "closed {turn} {} {} {}", bound.number, bound.ward, bound.day).unwrap();
                    Some(bound.number)
                }
                Line::Open { bound } => {
                    writeln!(text, "open {} {} {}", bound.number, bound.ward, bound.day).unwrap();
                    Some(bound.number)
                }
            };
            least = least.into_iter().chain(counted).min();
            at = node.next as usize;
        }
        match least {
            Some(number) => writeln!(text, "lower {number}").unwrap(),
            None => text.push_str("none\n"),
        }
        (text, least)
    }
}

fn shown(number: Option<u32>) -> String {
    number.map_or("none".to_string(), |number| number.to_string())
}

fn main() {
    let words: Vec<String> = std::env::args().skip(1).collect();
    let has = |word: &str| words.iter().any(|it| it == word);
    let how = if has("empty") { How::Empty } else if has("orphans") { How::Orphans } else { How::Carried };
    let tables = read_tables();
    let floors = (!has("unfloored")).then(Floors::default);
    let version = if floors.is_some() { 2 } else { 1 };
    let mut bounder = Bounder::make(&tables, how, if has("alike") { dead_alike } else { dead }, floors);
    let begun = Instant::now();
    let mut search = Search::start(&mut bounder);
    let (mut value, mut scratch) = (vec![], vec![]);
    while search.turns < tables.budget && !search.queue.is_empty() {
        search.turn(&mut bounder, &mut value, &mut scratch);
    }
    let taken = begun.elapsed().as_micros();
    let (certificate, lower) = search.certificate(&tables, version);
    let (spent, upper) = (!search.queue.is_empty(), search.best.as_ref().map(|best| best.0));
    let (word, status) = match (spent, upper) {
        (true, Some(_)) => ("spent", 6),
        (true, None) => ("spent", 7),
        (false, None) => ("none", 5),
        (false, Some(_)) => ("done", 0),
    };
    let mut text = format!("plan {word}\nupper {}\nlower {}\nturns {}\n", shown(upper), shown(lower), search.turns);
    if let Some((_, options)) = &search.best {
        text += &report_text(&tables, options, &report(&tables, options));
    }
    let planned = search.best.as_ref().map_or(vec![], |best| cycle_text(&tables, &best.1));
    std::fs::write("planned.csv", planned).unwrap();
    std::fs::write("certificate.txt", certificate).unwrap();
    std::io::stdout().write_all(text.as_bytes()).unwrap();
    eprintln!("search {taken} bounds {} calls {} least {}", bounder.bounds, bounder.calls, bounder.least);
    std::process::exit(status);
}
