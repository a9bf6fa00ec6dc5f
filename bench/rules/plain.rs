// The same questions as program.txt asks, of a plain Rust body of the same form, with the same words. With the word `none`
// it only tests the options, as both do before they ask: what that takes belongs to neither body.
#[path = "../plain/mod.rs"]
mod plain;
use plain::{rules::{dead, dead_alike}, tables::Tables};

const DAYS: usize = 14;
const ROOMS: usize = 12;
const SPECIALTIES: usize = 12;
const KINDS: usize = 3;

fn next(word: u64) -> u64 {
    word.wrapping_mul(6364136223846793005).wrapping_add(1442695040888963407)
}

fn below(word: u64, limit: u64) -> usize {
    ((word >> 33) % limit) as usize
}

fn either(seed: u64, count: usize, one: u32, other: u32) -> Vec<u32> {
    let mut word = seed;
    (0..count).map(|_| {
        word = next(word);
        if below(word, 2) == 0 { one } else { other }
    }).collect()
}

fn tables(seed: u64, apart: bool, uneven: bool) -> Tables {
    let mut word = seed;
    let mut minutes = vec![];
    for day in 0..DAYS {
        for room in 0..ROOMS {
            word = next(word);
            minutes.push(if day % 7 >= 5 { 0 } else if uneven { 420 + 5 * room as u32 } else { 420 + 60 * below(word, 2) as u32 });
        }
    }
    let first = below(next(seed), 4);
    Tables {
        days: DAYS,
        parts: 1_000_000,
        rooms: vec![vec![]; ROOMS],
        minutes,
        wards: vec![vec![]],
        specialties: vec![vec![]; SPECIALTIES],
        ward_of: vec![1; SPECIALTIES + 1],
        daily: either(seed, SPECIALTIES, 1, 2),
        low: vec![4200; SPECIALTIES],
        high: either(seed, SPECIALTIES, 4800, 6240),
        patients: vec![],
        stays: vec![],
        units: either(seed, KINDS, 3, 4),
        needs: (0..SPECIALTIES * KINDS).map(|at| u32::from((at / KINDS + first) % 4 == at % KINDS)).collect(),
        unsuited: (0..SPECIALTIES * ROOMS).map(|at| apart && at / ROOMS == at % ROOMS).collect(),
        barred: vec![false; SPECIALTIES * DAYS],
        fixed: vec![0; DAYS * ROOMS],
        level: 900_000,
        levels: vec![500_000],
        watched: vec![false, true],
        allow: vec![0, 0],
        budget: 1000,
    }
}

#[inline(never)]
fn rule(tables: &Tables, prefix: &[u8], dead: fn(&Tables, &[u8]) -> u8) -> u64 {
    if prefix.len() > tables.slots() || !prefix.iter().all(|option| *option as usize <= SPECIALTIES) {
        return 100;
    }
    u64::from(dead(tables, prefix))
}

fn main() {
    let words: Vec<String> = std::env::args().skip(1).collect();
    let seed = words[0].bytes().fold(0u64, |seed, byte| seed.wrapping_mul(10).wrapping_add(u64::from(byte)));
    let has = |word: &str| words.iter().any(|it| it == word);
    let (apart, uneven, rising) = (has("apart"), has("uneven"), has("rising"));
    let dead = if has("none") { |_: &Tables, _: &[u8]| 0 } else if has("alike") { dead_alike } else { dead };
    let tables = tables(seed, apart, uneven);
    let mut all = 0u64;
    for _ in 0..100 {
        let (mut sum, mut word, mut prefix) = (0u64, seed, vec![]);
        for slot in 0..DAYS * ROOMS {
            if slot % ROOMS == 0 {
                word = next(word);
            }
            for option in 0..=SPECIALTIES as u8 {
                prefix.push(option);
                sum = sum.wrapping_mul(3).wrapping_add(rule(&tables, &prefix, dead));
                prefix.pop();
            }
            let taken = if rising { slot % ROOMS + 1 } else if apart || uneven { 12 - slot % ROOMS } else { (slot + below(word, 12)) % 12 + 1 };
            prefix.push(if (slot / ROOMS) % 7 < 5 { taken as u8 } else { 0 });
        }
        all = all.wrapping_add(sum);
    }
    println!("{all}");
}
