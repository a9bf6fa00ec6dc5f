// Weights: what blocks weigh, and whether prices show a number. The prices of a certificate are bounded by nine digits.
use super::lists::{Lists, UNIT, rest};
use super::rules::could_take;
use super::tables::Tables;

const MOST_WEIGHT: u32 = 131_072;

pub struct Weights {
    pub number: u32,
    pub power: u32,
    pub reach: u32,
    pub places: Vec<u32>,
    pub blocks: Vec<u32>,
    pub slots: Vec<u32>,
    pub kinds: Vec<u32>,
}

fn step_up(value: u64) -> u64 {
    ((u128::from(value) * 4095 + 4095) / 4096) as u64
}

fn step_down(value: u64) -> u64 {
    (u128::from(value) * 4095 / 4096) as u64
}

fn power_up(power: u32) -> u64 {
    (0..power).fold(UNIT, |value, _| step_up(value))
}

fn is_below(value: u64, level: u64) -> bool {
    u128::from(value) * 1_000_000 < u128::from(level) * u128::from(UNIT)
}

// The least power of the base that is below the level.
pub fn least_reach(level: u64) -> Option<u32> {
    let mut value = UNIT;
    for power in 0..=MOST_WEIGHT {
        if is_below(value, level) {
            return Some(power);
        }
        value = step_up(value);
    }
    None
}

fn exponent(mean: u64) -> u32 {
    let (mut value, mut weight) = (UNIT, 0);
    for _ in 0..MOST_WEIGHT {
        let next = step_down(value);
        if next < mean {
            return weight;
        }
        value = next;
        weight += 1;
    }
    weight
}

fn mean(list: &[u64], z: u64) -> u64 {
    let unit = u128::from(UNIT);
    let (mut total, mut power) = (0, UNIT);
    for number in list {
        total += u128::from(*number) * u128::from(power);
        power = ((u128::from(power) * u128::from(z) + (unit - 1)) / unit) as u64;
    }
    ((total + u128::from(rest(list)) * unit + (unit - 1)) / unit) as u64
}

// What blocks weigh, by specialty and offset.
pub fn weight_rows(lists: &Lists, power: u32) -> Vec<Vec<u32>> {
    let z = power_up(power);
    lists[1..].iter().map(|of_block| of_block.iter().map(|list| exponent(mean(list, z))).collect()).collect()
}

pub fn open_slots(t: &Tables, day: usize) -> u32 {
    (0..t.slots()).filter(|slot| t.day_of(*slot) == day && t.minutes[*slot] > 0).count() as u32
}

pub fn most_blocks(t: &Tables, day: usize, j: usize) -> u32 {
    let slots = (0..t.slots()).filter(|slot| t.day_of(*slot) == day && t.minutes[*slot] > 0 && could_take(t, *slot, j)).count() as u32;
    t.daily[j].min(slots)
}

pub fn needed_blocks(t: &Tables, j: usize) -> u32 {
    let longest = (0..t.slots()).filter(|slot| could_take(t, *slot, j)).map(|slot| t.minutes[slot]).max().unwrap_or(0);
    if longest == 0 { 0 } else { t.low[j].div_ceil(longest) }
}

fn at(list: &[u32], place: usize) -> u128 {
    list.get(place).map_or(0, |number| u128::from(*number))
}

fn place_price(t: &Tables, w: &Weights, ward: usize, day: usize) -> u128 {
    if t.watched[ward] { at(&w.places, (ward - 1) * t.days + day - 1) } else { 0 }
}

fn ward_price(t: &Tables, w: &Weights, ward: usize) -> u128 {
    (1..=t.days).map(|day| place_price(t, w, ward, day)).sum()
}

// The load from which on a ward peaks at the number, with its allowance beside the patients: 0 where that alone does.
fn ward_load(t: &Tables, w: &Weights, ward: usize) -> u128 {
    let patients = (w.number - 1).checked_sub(t.allow[ward] as u32);
    patients.map_or(0, |patients| u128::from(w.power) * u128::from(patients) + u128::from(w.reach))
}

fn worth(t: &Tables, w: &Weights) -> u128 {
    (0..t.specialties.len()).map(|j| at(&w.blocks, j) * u128::from(needed_blocks(t, j))).sum()
}

fn gain(t: &Tables, rows: &[Vec<u32>], w: &Weights, day: usize, j: usize) -> u128 {
    let (ward, kinds) = (t.ward_of[j + 1], t.units.len());
    let mut cost = at(&w.slots, day - 1);
    for place in 0..t.days {
        cost += place_price(t, w, ward, place + 1) * u128::from(rows[j][(place + 1 + t.days - day) % t.days]);
    }
    for kind in 0..kinds {
        cost += at(&w.kinds, (day - 1) * kinds + kind) * u128::from(t.needs[j * kinds + kind]);
    }
    at(&w.blocks, j).saturating_sub(cost)
}

fn spent(t: &Tables, rows: &[Vec<u32>], w: &Weights) -> u128 {
    let (days, kinds) = (1..=t.days, t.units.len());
    let slots: u128 = days.clone().map(|day| at(&w.slots, day - 1) * u128::from(open_slots(t, day))).sum();
    let of_kind = |kind: usize| days.clone().map(|day| at(&w.kinds, (day - 1) * kinds + kind)).sum::<u128>() * u128::from(t.units[kind]);
    let gains = |j: usize| days.clone().map(|day| gain(t, rows, w, day, j) * u128::from(most_blocks(t, day, j))).sum::<u128>();
    slots + (0..kinds).map(of_kind).sum::<u128>() + (0..t.specialties.len()).map(gains).sum::<u128>()
}

// Whether the prices show the number, where the powers are within their limits.
pub fn pays(t: &Tables, rows: &[Vec<u32>], w: &Weights) -> bool {
    let wards = 1..=t.wards.len();
    let places: u128 = wards.clone().map(|ward| ward_price(t, w, ward)).sum();
    let loads: u128 = wards.map(|ward| ward_price(t, w, ward) * ward_load(t, w, ward)).sum();
    loads + spent(t, rows, w) < worth(t, w) + places
}

// Whether a certificate shows its number.
pub fn check(t: &Tables, lists: &Lists, w: &Weights) -> bool {
    let is_fit = w.number > 0 && w.power <= MOST_WEIGHT && w.reach <= MOST_WEIGHT && is_below(power_up(w.reach), t.level);
    is_fit && pays(t, &weight_rows(lists, w.power), w)
}

pub fn write_weights(w: &Weights) -> String {
    let mut text = format!("mss weights 1\nnumber {} power {} reach {}\n", w.number, w.power, w.reach);
    for (word, list) in [("places", &w.places), ("blocks", &w.blocks), ("slots", &w.slots), ("kinds", &w.kinds)] {
        text += word;
        for number in list {
            text += &format!(" {number}");
        }
        text.push('\n');
    }
    text
}

// The certificate of a text, which isn't tested.
pub fn read_weights(text: &str) -> Weights {
    let lines: Vec<Vec<&str>> = text.lines().map(|line| line.split(' ').collect()).collect();
    let number = |word: &str| word.parse().unwrap();
    let list = |line: &Vec<&str>| line[1..].iter().map(|word| number(word)).collect();
    Weights {
        number: number(lines[1][1]),
        power: number(lines[1][3]),
        reach: number(lines[1][5]),
        places: list(&lines[2]),
        blocks: list(&lines[3]),
        slots: list(&lines[4]),
        kinds: list(&lines[5]),
    }
}
