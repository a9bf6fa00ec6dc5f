// Kept lists: convolution by the numbers that aren't 0, four at a time; thinning; steady lists; censuses.
use super::tables::Tables;
use std::cell::Cell;

pub const UNIT: u64 = 1 << 60;
// the levels that the whole has
pub const LEVELS: u64 = 1_000_000;

thread_local! {
    // how often `convolve` was called
    pub static CALLS: Cell<u64> = const { Cell::new(0) };
}

fn support(a: &[u64]) -> (usize, usize) {
    let first = a.iter().position(|x| *x != 0).unwrap_or(a.len());
    let last = a.iter().rposition(|x| *x != 0).map_or(first, |i| i + 1);
    (first, last)
}

fn entry(a: &[u64], b: &[u64], i: usize) -> u64 {
    let first = if i < b.len() { 0 } else { i - (b.len() - 1) };
    let last = if i < a.len() { i + 1 } else { a.len() };
    let mut total: u128 = 0;
    for k in first..last {
        total += a[k] as u128 * b[i - k] as u128;
    }
    (total >> 60) as u64
}

pub fn convolve(a: &[u64], b: &[u64], out: &mut [u64]) {
    CALLS.with(|calls| calls.set(calls.get() + 1));
    if b.len() == 1 && b[0] == UNIT {
        out.copy_from_slice(a);
        return;
    }
    out.fill(0);
    let ((a_first, a_last), (b_first, b_last)) = (support(a), support(b));
    let (a, b) = (&a[a_first..a_last], &b[b_first..b_last]);
    if a.is_empty() || b.is_empty() {
        return;
    }
    let out = &mut out[a_first + b_first..][..a.len() + b.len() - 1];
    let mut i = 0;
    while i < out.len() {
        if b.len() <= i + 1 && i + 4 <= a.len() {
            let mut t = [0u128; 4];
            for k in i + 1 - b.len()..i + 1 {
                let y = b[i - k] as u128;
                t[0] += a[k] as u128 * y;
                t[1] += a[k + 1] as u128 * y;
                t[2] += a[k + 2] as u128 * y;
                t[3] += a[k + 3] as u128 * y;
            }
            for r in 0..4 {
                out[i + r] = (t[r] >> 60) as u64;
            }
            i += 4;
        } else {
            out[i] = entry(a, b, i);
            i += 1;
        }
    }
}

// Lists that lie below their distributions: a push leaves the convolution.
pub fn push(value: &mut Vec<u64>, part: &[u64], scratch: &mut Vec<u64>) {
    scratch.clear();
    scratch.resize(value.len() + part.len() - 1, 0);
    convolve(value, part, scratch);
    std::mem::swap(value, scratch);
}

pub fn rest(list: &[u64]) -> u64 {
    UNIT - list.iter().sum::<u64>()
}

// Full lists: a push puts the rest of the part and of the convolution on outcome 0. So a part of one number changes nothing.
pub fn push_full(value: &mut Vec<u64>, part: &[u64], raised: &mut Vec<u64>, scratch: &mut Vec<u64>) {
    if part.len() == 1 {
        return;
    }
    raised.clear();
    raised.extend_from_slice(part);
    raised[0] += rest(raised);
    push(value, raised, scratch);
    value[0] += rest(value);
}

fn thinned(parts: u64, kept: &[u64], stay: u64) -> Vec<u64> {
    let mut rows = vec![vec![UNIT]];
    for k in 1..kept.len() {
        let before = &rows[k - 1];
        let at = |x: usize| before.get(x).copied().unwrap_or(0) as u128;
        rows.push((0..=k).map(|x| {
            let here = if x == 0 { 0 } else { stay as u128 * at(x - 1) };
            ((here + (parts - stay) as u128 * at(x)) / parts as u128) as u64
        }).collect());
    }
    (0..kept.len()).map(|x| {
        let total: u128 = (x..kept.len()).map(|k| kept[k] as u128 * rows[k][x] as u128).sum();
        (total >> 60) as u64
    }).collect()
}

// The lists of a block by age.
fn ages_of(tables: &Tables, j: usize) -> Vec<Vec<u64>> {
    let parts = tables.parts;
    let mut ages = vec![tables.patients[j].iter().map(|c| (*c as u128 * UNIT as u128 / parts as u128) as u64).collect::<Vec<_>>()];
    for n in 1..tables.stays[j].len() {
        let next = thinned(parts, &ages[n - 1], parts - tables.stays[j][n - 1]);
        ages.push(next);
    }
    ages
}

// The lists of the offsets: the ages of each, joined.
fn by_offset(days: usize, ages: &[Vec<u64>], scratch: &mut Vec<u64>) -> Vec<Vec<u64>> {
    (0..days).map(|offset| {
        let mut value = vec![UNIT];
        for age in (offset..ages.len()).step_by(days) {
            push(&mut value, &ages[age], scratch);
        }
        value
    }).collect()
}

// The lists of each option by offset; nothing at option 0.
pub type Lists = Vec<Vec<Vec<u64>>>;

pub struct Quantities {
    pub census: Lists,
    pub admissions: Lists,
    pub discharges: Lists,
}

pub fn steady_lists(tables: &Tables) -> Lists {
    let mut scratch = vec![];
    let of_block = |j| by_offset(tables.days, &ages_of(tables, j), &mut scratch);
    std::iter::once(vec![]).chain((0..tables.specialties.len()).map(of_block)).collect()
}

pub fn all_lists(tables: &Tables) -> Quantities {
    let (mut census, mut admissions, mut discharges, mut scratch) = (vec![vec![]], vec![vec![]], vec![vec![]], vec![]);
    for j in 0..tables.specialties.len() {
        let ages = ages_of(tables, j);
        let leaving: Vec<_> = ages.iter().zip(&tables.stays[j]).map(|(kept, chance)| thinned(tables.parts, kept, *chance)).collect();
        census.push(by_offset(tables.days, &ages, &mut scratch));
        admissions.push(vec![ages[0].clone()]);
        discharges.push(by_offset(tables.days, &leaving, &mut scratch));
    }
    Quantities { census, admissions, discharges }
}

// The list that a slot with an option adds on a ward and day, if it adds one.
pub fn part<'a>(tables: &Tables, lists: &'a Lists, ward: usize, day: usize, slot: usize, option: u8) -> Option<&'a Vec<u64>> {
    if option == 0 || tables.ward_of[option as usize] != ward {
        return None;
    }
    lists[option as usize].get((day + tables.days - tables.day_of(slot)) % tables.days)
}

// The list of a ward and day.
pub fn value_of(tables: &Tables, lists: &Lists, ward: usize, day: usize, options: &[u8], value: &mut Vec<u64>, scratch: &mut Vec<u64>) {
    value.clear();
    value.push(UNIT);
    for (slot, option) in options.iter().enumerate() {
        if let Some(part) = part(tables, lists, ward, day, slot, *option) {
            push(value, part, scratch);
        }
    }
}

pub fn first_reaching(list: &[u64], start: u64, level: u64) -> usize {
    let goal = (level as u128 * UNIT as u128).div_ceil(LEVELS as u128) as u64;
    let mut total = start;
    for (x, kept) in list.iter().enumerate() {
        total += kept;
        if total >= goal {
            return x;
        }
    }
    list.len()
}

#[derive(Clone, Copy, Default)]
pub struct Peak {
    pub low: usize,
    pub high: usize,
    pub ward: usize,
    pub day: usize,
}

impl Peak {
    // One more place, in order, with the beds of the ward that are always taken.
    pub fn take(&mut self, tables: &Tables, value: &[u64], ward: usize, day: usize) {
        let allow = tables.allow[ward];
        let (low, high) = (allow + first_reaching(value, rest(value), tables.level), allow + first_reaching(value, 0, tables.level));
        self.low = self.low.max(low);
        if self.ward == 0 || high > self.high {
            (self.high, self.ward, self.day) = (high, ward, day);
        }
    }
}

// The peak of a cycle.
pub fn peak_of(tables: &Tables, lists: &Lists, options: &[u8], value: &mut Vec<u64>, scratch: &mut Vec<u64>) -> Peak {
    let mut peak = Peak::default();
    for ward in (1..=tables.wards.len()).filter(|it| tables.watched[*it]) {
        for day in 1..=tables.days {
            value_of(tables, lists, ward, day, options, value, scratch);
            peak.take(tables, value, ward, day);
        }
    }
    peak
}
