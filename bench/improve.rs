// A plain Rust program that does what `mss_improve` does: the yardstick of its speed. It reads the settings and tables of the
// current folder without testing them, draws the same candidates from the same number, judges each on the same kept lists
// with the same form of convolution, writes improved.csv, and says the same text but for the lower number, with the same
// status.
//
// improve cycle NUMBER TRIES [once] | improve new NUMBER TRIES [once]: for each list it goes through all slots of the cycle;
// with the word `once` through those of the ward, which it finds once for a candidate, as the planner does.
mod plain;
use plain::lists::{LEVELS, Lists, Peak, UNIT, part, peak_of, push, steady_lists, value_of};
use plain::report::{report, report_text};
use plain::rules::{could_take, dead};
use plain::tables::{Tables, cycle_text, read_cycle, read_tables};
use std::io::Write as _;

const DIVES: u32 = 1000;

struct Draws(u64);

impl Draws {
    fn below(&mut self, limit: u32) -> u32 {
        self.0 = self.0.wrapping_mul(6364136223846793005).wrapping_add(1442695040888963407);
        ((self.0 >> 33) % u64::from(limit)) as u32
    }
}

fn missing(tables: &Tables, prefix: &[u8], j: usize) -> u32 {
    let got: u32 = prefix.iter().enumerate().filter(|it| *it.1 as usize == j + 1).map(|it| tables.minutes[it.0]).sum();
    tables.low[j].saturating_sub(got)
}

// How much an option is wanted: what its specialty misses, as a share of what it could still get.
fn want(tables: &Tables, prefix: &[u8], option: u8) -> u64 {
    if option == 0 {
        return 0;
    }
    let j = option as usize - 1;
    let open: u32 = (prefix.len()..tables.slots()).filter(|slot| could_take(tables, *slot, j)).map(|slot| tables.minutes[slot]).sum();
    u64::from(missing(tables, prefix, j)) * 1000 / u64::from(open.max(1))
}

fn choose(tables: &Tables, draws: &mut Draws, options: &mut [u8], slot: usize) -> Option<u8> {
    let (mut chosen, mut most, mut ties) = (None, 0, 0);
    for option in 0..=tables.specialties.len() as u8 {
        options[slot] = option;
        if dead(tables, &options[..slot + 1]) != 0 {
            continue;
        }
        let want = want(tables, &options[..slot], option);
        if ties == 0 || want > most {
            (most, ties) = (want, 0);
        }
        if want == most {
            ties += 1;
            if draws.below(ties) == 0 {
                chosen = Some(option);
            }
        }
    }
    chosen
}

fn dive(tables: &Tables, draws: &mut Draws, options: &mut [u8]) -> bool {
    for slot in 0..tables.slots() {
        let Some(option) = choose(tables, draws, options, slot) else { return false };
        options[slot] = option;
    }
    dead(tables, options) == 0
}

fn first_cycle(tables: &Tables, number: u64) -> Option<Vec<u8>> {
    let (mut draws, mut options) = (Draws(number), vec![0; tables.slots()]);
    (0..DIVES).any(|_| dive(tables, &mut draws, &mut options)).then_some(options)
}

// A cycle, and what each ward and all together lack of the level at a wanted peak.
#[derive(Default)]
struct Measured {
    options: Vec<u8>,
    lacks: Vec<u64>,
    lack: u64,
}

struct Search<'a> {
    tables: &'a Tables,
    lists: Lists,
    value: Vec<u64>,
    scratch: Vec<u64>,
    is_once: bool,
    own: Vec<usize>,
    current: Measured,
    candidate: Measured,
    best: Vec<u8>,
    peak: Peak,
}

fn lies_on(tables: &Tables, ward: usize, option: u8) -> bool {
    option != 0 && tables.ward_of[option as usize] == ward
}

fn differ_on(tables: &Tables, ward: usize, a: &[u8], b: &[u8]) -> bool {
    a.iter().zip(b).any(|(x, y)| x != y && (lies_on(tables, ward, *x) || lies_on(tables, ward, *y)))
}

// What the chance of at most so many patients lacks of the level; all of it where nothing is left for patients.
fn lack_of(level: u64, value: &[u64], left: Option<usize>) -> u64 {
    let goal = (level as u128 * UNIT as u128).div_ceil(LEVELS as u128) as u64;
    let total: u64 = left.map_or(0, |left| value[..=left.min(value.len() - 1)].iter().sum());
    goal.saturating_sub(total).div_ceil(1 << 20)
}

impl<'a> Search<'a> {
    fn begin(tables: &'a Tables, start: &[u8], is_once: bool) -> Search<'a> {
        let (lists, mut value, mut scratch) = (steady_lists(tables), vec![], vec![]);
        let peak = peak_of(tables, &lists, start, &mut value, &mut scratch);
        let measured = || Measured { options: start.to_vec(), lacks: vec![0; tables.wards.len()], lack: 0 };
        let mut search = Search { tables, lists, value, scratch, is_once, own: vec![], current: measured(), candidate: measured(), best: start.to_vec(), peak };
        search.measure();
        search
    }

    fn ward_lack(&mut self, options: &[u8], ward: usize, target: usize, most: u64) -> u64 {
        let mut lack = 0;
        if !self.tables.watched[ward] {
            return lack;
        }
        if self.is_once {
            let tables = self.tables;
            self.own.clear();
            self.own.extend((0..options.len()).filter(|slot| lies_on(tables, ward, options[*slot])));
        }
        for day in 1..=self.tables.days {
            if lack > most {
                return lack;
            }
            if self.is_once {
                self.value_of_own(options, ward, day);
            } else {
                value_of(self.tables, &self.lists, ward, day, options, &mut self.value, &mut self.scratch);
            }
            lack += lack_of(self.tables.level, &self.value, target.checked_sub(self.tables.allow[ward]));
        }
        lack
    }

    // The list of a ward and day by the slots of the ward.
    fn value_of_own(&mut self, options: &[u8], ward: usize, day: usize) {
        self.value.clear();
        self.value.push(UNIT);
        for slot in &self.own {
            if let Some(part) = part(self.tables, &self.lists, ward, day, *slot, options[*slot]) {
                push(&mut self.value, part, &mut self.scratch);
            }
        }
    }

    // Measures the present cycle against a lower peak.
    fn measure(&mut self) {
        let (target, mut current) = (self.peak.high.saturating_sub(1), std::mem::take(&mut self.current));
        for ward in 1..=self.tables.wards.len() {
            current.lacks[ward - 1] = self.ward_lack(&current.options, ward, target, u64::MAX);
        }
        current.lack = current.lacks.iter().sum();
        self.current = current;
    }

    // Whether the candidate lacks no more than the present cycle; then it is measured too.
    fn lacks_no_more(&mut self) -> bool {
        let (target, mut candidate) = (self.peak.high.saturating_sub(1), std::mem::take(&mut self.candidate));
        let (mut whole, mut is_no_more) = (0, true);
        for ward in 1..=self.tables.wards.len() {
            let most = self.current.lack - whole;
            let lack = if differ_on(self.tables, ward, &candidate.options, &self.current.options) {
                self.ward_lack(&candidate.options, ward, target, most)
            } else {
                self.current.lacks[ward - 1]
            };
            if lack > most {
                is_no_more = false;
                break;
            }
            candidate.lacks[ward - 1] = lack;
            whole += lack;
        }
        candidate.lack = whole;
        self.candidate = candidate;
        is_no_more
    }

    fn change(&mut self, draws: &mut Draws) {
        let options = &mut self.candidate.options;
        let slots = self.tables.slots() as u32;
        for _ in 0..draws.below(4).max(1) {
            let slot = draws.below(slots) as usize;
            if draws.below(4) == 0 {
                options[slot] = draws.below(self.tables.specialties.len() as u32 + 1) as u8;
            } else {
                options.swap(slot, draws.below(slots) as usize);
            }
        }
    }

    fn turn(&mut self, draws: &mut Draws) -> bool {
        if self.peak.high == 0 {
            return false;
        }
        self.candidate.options.copy_from_slice(&self.current.options);
        self.change(draws);
        if self.candidate.options == self.current.options || dead(self.tables, &self.candidate.options) != 0 || !self.lacks_no_more() {
            return false;
        }
        std::mem::swap(&mut self.current, &mut self.candidate);
        if self.current.lack == 0 {
            self.best.copy_from_slice(&self.current.options);
            self.peak = peak_of(self.tables, &self.lists, &self.best, &mut self.value, &mut self.scratch);
            self.measure();
        }
        true
    }
}

fn end(status: i32, text: &str) -> ! {
    std::io::stdout().write_all(text.as_bytes()).unwrap();
    std::process::exit(status)
}

fn main() {
    let words: Vec<String> = std::env::args().skip(1).collect();
    let (number, tries): (u64, u32) = (words[1].parse().unwrap(), words[2].parse().unwrap());
    let tables = read_tables();
    let start = if words[0] == "new" {
        first_cycle(&tables, number).unwrap_or_else(|| end(7, "no first cycle found in 1000 dives\n"))
    } else {
        let cycle = read_cycle(&tables);
        let rule = dead(&tables, &cycle);
        if rule != 0 {
            end(3, &format!("cycle refused: rule {rule}\n"));
        }
        cycle
    };
    let mut search = Search::begin(&tables, &start, words.len() > 3);
    let (first, mut draws, mut accepted) = (search.peak, Draws(number), 0);
    for _ in 0..tries {
        accepted += u32::from(search.turn(&mut draws));
    }
    std::fs::write("improved.csv", cycle_text(&tables, &search.best)).unwrap();
    let head = format!("mss improve 1\ntries {tries} accepted {accepted}\nstart peak {} {}\nupper {}\n", first.low, first.high, search.peak.high);
    end(0, &(head + &report_text(&tables, &search.best, &report(&tables, &search.best))));
}
