// Floors: what the blocks that a prefix forces add at least to the list of a ward and day.
use super::lists::{Lists, UNIT, push_full, rest};
use super::rules::could_take;
use super::tables::Tables;

// The most numbers of a list with its floors.
const MOST: usize = 15_361;

// How many blocks of a specialty, from 0 on, a prefix forces, where it gave it so many minutes.
fn forced_from(t: &Tables, prefix: &[u8], j: usize, got: u32) -> u32 {
    let longer = |longest, slot| if t.minutes[slot] > longest && could_take(t, slot, j) { t.minutes[slot] } else { longest };
    match t.low[j].saturating_sub(got) {
        0 => 0,
        missing => match (prefix.len()..t.slots()).fold(0, longer) {
            0 => 0,
            minutes => missing.div_ceil(minutes),
        },
    }
}

// The same of one specialty alone.
pub fn forced_of(t: &Tables, prefix: &[u8], j: usize) -> u32 {
    let given = prefix.iter().enumerate().filter(|(_, option)| **option as usize == j + 1);
    forced_from(t, prefix, j, given.map(|(slot, _)| t.minutes[slot]).sum())
}

// The same of each specialty.
pub fn forced(t: &Tables, prefix: &[u8]) -> Vec<u32> {
    let mut got = vec![0; t.specialties.len() + 1];
    for (slot, option) in prefix.iter().enumerate() {
        got[*option as usize] += t.minutes[slot];
    }
    (0..t.specialties.len()).map(|j| forced_from(t, prefix, j, got[j + 1])).collect()
}

#[derive(Default)]
pub struct Floors {
    sums: Vec<u64>,
    floor: Vec<u64>,
}

impl Floors {
    // Makes the floor that of one block of a specialty, from 0 on, at a day: at each outcome the greatest cumulative number
    // among its lists on the days on which it could still take a slot.
    fn set(&mut self, t: &Tables, lists: &Lists, prefix: &[u8], j: usize, day: usize) {
        let Floors { sums, floor } = self;
        let rooms = t.rooms.len();
        let open = |q: &usize| (q * rooms..(q + 1) * rooms).any(|slot| slot >= prefix.len() && could_take(t, slot, j));
        let list_from = |q: usize| &lists[j + 1][(day + t.days - (q + 1)) % t.days];
        // the list of no patients is the least
        if (prefix.len() / rooms..t.days).any(|q| list_from(q).len() == 1 && open(&q)) {
            floor.clear();
            floor.push(UNIT);
            return;
        }
        sums.clear();
        let mut first = true;
        for q in (0..t.days).filter(open) {
            let list = list_from(q);
            if first {
                sums.resize(list.len(), 0);
                first = false;
            }
            sums.truncate(list.len());
            let mut total = rest(list);
            for (sum, kept) in sums.iter_mut().zip(list) {
                total += kept;
                *sum = total.max(*sum);
            }
        }
        floor.clear();
        let mut before = 0;
        for sum in sums {
            floor.push(*sum - before);
            before = *sum;
        }
        if floor.is_empty() {
            floor.push(UNIT);
        }
    }

    // Pushes the floors of a prefix that forces these blocks onto its list.
    pub fn push(&mut self, t: &Tables, lists: &Lists, prefix: &[u8], forced: &[u32], ward: usize, day: usize, value: &mut Vec<u64>, raised: &mut Vec<u64>, scratch: &mut Vec<u64>) {
        let mut left = t.slots() - prefix.len();
        for j in (0..forced.len()).filter(|j| t.ward_of[j + 1] == ward && forced[*j] > 0) {
            if left == 0 {
                return;
            }
            self.set(t, lists, prefix, j, day);
            for _ in 0..forced[j] {
                if left == 0 || value.len() + self.floor.len() > MOST + 1 {
                    return;
                }
                push_full(value, &self.floor, raised, scratch);
                left -= 1;
            }
        }
    }
}
