// The rules of legal cycles: the least rule that a prefix breaks, or 0.
use super::tables::Tables;

// The nine rules of canonical cycles: 9 where of two alike slots the earlier one has the greater option.
pub fn dead_alike(t: &Tables, prefix: &[u8]) -> u8 {
    match dead(t, prefix) {
        0 if breaks_order(t, prefix) => 9,
        rule => rule,
    }
}

fn breaks_order(t: &Tables, prefix: &[u8]) -> bool {
    let rooms = t.rooms.len();
    let numbers = suit_numbers(t);
    let mut room = 0;
    for later in 0..prefix.len() {
        if (later - room..later).any(|earlier| is_falling(t, &numbers, prefix, earlier, later, room)) {
            return true;
        }
        room = if room + 1 == rooms { 0 } else { room + 1 };
    }
    false
}

// A number for each room, which rooms share that suit the same specialties.
fn suit_numbers(t: &Tables) -> [u32; 16] {
    let rooms = t.rooms.len();
    let mut numbers = [0; 16];
    for room in 0..rooms {
        numbers[room] = (0..t.specialties.len()).fold(0, |number, j| number * 2 + u32::from(!t.unsuited[j * rooms + room]));
    }
    numbers
}

// Whether two slots of one day are alike, in their minutes, their fixed option or none, and what their rooms suit, and the
// later one has the lesser option. What tells most pairs apart is asked first.
fn is_falling(t: &Tables, numbers: &[u32; 16], prefix: &[u8], earlier: usize, later: usize, room: usize) -> bool {
    t.minutes[earlier] == t.minutes[later]
        && prefix[later] < prefix[earlier]
        && numbers[earlier + room - later] == numbers[room]
        && t.fixed[earlier] == t.fixed[later]
}

pub fn dead(t: &Tables, prefix: &[u8]) -> u8 {
    let (rooms, count, kinds) = (t.rooms.len(), t.specialties.len(), t.units.len());
    let (mut misplaced, mut unsuited, mut barred) = (false, false, false);
    let mut got = [0u32; 25];
    for (slot, &option) in prefix.iter().enumerate() {
        let o = option as usize;
        misplaced |= t.minutes[slot] == 0 && o != 0 || t.fixed[slot] != 0 && t.fixed[slot] != o as u32 + 1;
        unsuited |= o > 0 && t.unsuited[(o - 1) * rooms + slot % rooms];
        barred |= o > 0 && t.barred[(o - 1) * t.days + slot / rooms];
        got[o] += t.minutes[slot];
    }
    if misplaced {
        return 1;
    }
    if unsuited {
        return 2;
    }
    if barred {
        return 3;
    }
    for of_day in prefix.chunks(rooms) {
        for kind in 0..kinds {
            let taken: u32 = of_day.iter().map(|&o| if o == 0 { 0 } else { t.needs[(o as usize - 1) * kinds + kind] }).sum();
            if taken > t.units[kind] {
                return 4;
            }
        }
    }
    for of_day in prefix.chunks(rooms) {
        let mut blocks = [0u32; 25];
        for &o in of_day {
            blocks[o as usize] += 1;
        }
        if (0..count).any(|j| blocks[j + 1] > t.daily[j]) {
            return 5;
        }
    }
    if (0..count).any(|j| got[j + 1] > t.high[j]) {
        return 6;
    }
    for j in 0..count {
        let missing = t.low[j].saturating_sub(got[j + 1]);
        let (mut minutes, mut slot) = (0, prefix.len());
        while minutes < missing && slot < t.slots() {
            if could_take(t, slot, j) {
                minutes += t.minutes[slot];
            }
            slot += 1;
        }
        if minutes < missing {
            return 7;
        }
    }
    let missing: u32 = (0..count).map(|j| t.low[j].saturating_sub(got[j + 1])).sum();
    let (mut minutes, mut slot) = (0, prefix.len());
    while minutes < missing && slot < t.slots() {
        minutes += t.minutes[slot];
        slot += 1;
    }
    if minutes < missing { 8 } else { 0 }
}

// Whether a specialty, from 0 on, could take a slot.
pub fn could_take(t: &Tables, slot: usize, j: usize) -> bool {
    let rooms = t.rooms.len();
    !t.unsuited[j * rooms + slot % rooms] && !t.barred[j * t.days + slot / rooms] && (t.fixed[slot] == 0 || t.fixed[slot] as usize == j + 2)
}
