// The ten tables and cycle.csv of the current folder.
use std::collections::HashMap;

pub struct Tables {
    pub days: usize,
    // of the chances
    pub parts: u64,
    pub rooms: Vec<Vec<u8>>,
    pub minutes: Vec<u32>,
    pub wards: Vec<Vec<u8>>,
    pub specialties: Vec<Vec<u8>>,
    // by option; 0 for idle
    pub ward_of: Vec<usize>,
    // by specialty, from 0 on
    pub daily: Vec<u32>,
    pub low: Vec<u32>,
    pub high: Vec<u32>,
    pub patients: Vec<Vec<u64>>,
    pub stays: Vec<Vec<u64>>,
    pub units: Vec<u32>,
    pub needs: Vec<u32>,
    pub unsuited: Vec<bool>,
    pub barred: Vec<bool>,
    // by slot: 0 for free, else 1 plus the option
    pub fixed: Vec<u32>,
    pub level: u64,
    pub levels: Vec<u64>,
    // by ward; nothing at 0
    pub watched: Vec<bool>,
    pub allow: Vec<usize>,
    pub budget: u32,
}

impl Tables {
    pub fn slots(&self) -> usize {
        self.days * self.rooms.len()
    }

    pub fn day_of(&self, slot: usize) -> usize {
        slot / self.rooms.len() + 1
    }
}

// Names by number, from 1, in the order in which they were first seen.
#[derive(Default)]
struct Numbered {
    names: Vec<Vec<u8>>,
    places: HashMap<Vec<u8>, usize>,
}

impl Numbered {
    fn number(&mut self, name: &[u8]) -> usize {
        let Numbered { names, places } = self;
        *places.entry(name.to_vec()).or_insert_with(|| {
            names.push(name.to_vec());
            names.len()
        })
    }
}

pub fn records(name: &str) -> Vec<Vec<Vec<u8>>> {
    let bytes = std::fs::read(name).unwrap();
    let text = bytes.strip_prefix(b"\xef\xbb\xbf").unwrap_or(&bytes);
    let (mut rows, mut row, mut field, mut quoted, mut i) = (vec![], vec![], vec![], false, 0);
    while i < text.len() {
        let c = text[i];
        if quoted {
            if c == b'"' {
                if text.get(i + 1) == Some(&b'"') {
                    field.push(c);
                    i += 1;
                } else {
                    quoted = false;
                }
            } else {
                field.push(c);
            }
        } else if c == b'"' && field.is_empty() {
            quoted = true;
        } else if c == b',' {
            row.push(std::mem::take(&mut field));
        } else if c == b'\n' || c == b'\r' {
            if !row.is_empty() || !field.is_empty() {
                row.push(std::mem::take(&mut field));
                rows.push(std::mem::take(&mut row));
            }
        } else {
            field.push(c);
        }
        i += 1;
    }
    if !row.is_empty() || !field.is_empty() {
        row.push(field);
        rows.push(row);
    }
    rows.split_off(1)
}

pub fn number(field: &[u8]) -> u64 {
    field.iter().fold(0, |n, c| n * 10 + u64::from(c - b'0'))
}

// The values of a list of the settings, which may be names in quotes.
fn list_of(text: &str) -> Vec<String> {
    let inner = text.trim_matches(['[', ']']);
    let (mut values, mut value, mut quoted, mut escaped) = (vec![], String::new(), false, false);
    for c in inner.chars() {
        match c {
            _ if escaped => {
                value.push(c);
                escaped = false;
            }
            '\\' if quoted => escaped = true,
            '"' => quoted = !quoted,
            ',' if !quoted => values.push(std::mem::take(&mut value)),
            ' ' if !quoted => {}
            _ => value.push(c),
        }
    }
    if !value.is_empty() {
        values.push(value);
    }
    values
}

pub fn read_tables() -> Tables {
    let settings = std::fs::read_to_string("settings.toml").unwrap();
    let found = |key: &str| {
        settings.lines().find_map(|l| l.strip_prefix(key)?.trim_start().strip_prefix('=')).map(|value| value.trim().to_string())
    };
    let value = |key: &str| found(key).unwrap();
    let days: usize = value("days").parse().unwrap();
    let (mut rooms, mut wards, mut specialties, mut kinds) = (Numbered::default(), Numbered::default(), Numbered::default(), Numbered::default());

    let mut opened = vec![];
    for row in records("rooms.csv") {
        opened.push((rooms.number(&row[0]) - 1, number(&row[1]) as usize - 1, number(&row[2]) as u32));
    }
    let mut minutes = vec![0; days * rooms.names.len()];
    for (room, day, of_slot) in opened {
        minutes[day * rooms.names.len() + room] = of_slot;
    }
    let (mut ward_of, mut daily, mut low, mut high) = (vec![0], vec![], vec![], vec![]);
    for row in records("specialties.csv") {
        specialties.number(&row[0]);
        ward_of.push(wards.number(&row[1]));
        daily.push(number(&row[2]) as u32);
        low.push(number(&row[3]) as u32);
        high.push(number(&row[4]) as u32);
    }
    let count = specialties.names.len();
    let mut patients: Vec<Vec<u64>> = vec![vec![]; count];
    for row in records("patients.csv") {
        let (counts, k) = (&mut patients[specialties.places[&row[0]] - 1], number(&row[1]) as usize);
        counts.resize(counts.len().max(k + 1), 0);
        counts[k] = number(&row[2]);
    }
    let mut stays = vec![vec![]; count];
    for row in records("stays.csv") {
        stays[specialties.places[&row[0]] - 1].push(number(&row[2]));
    }
    let mut units = vec![];
    for row in records("equipment.csv") {
        kinds.number(&row[0]);
        units.push(number(&row[1]) as u32);
    }
    let mut needs = vec![0; count * units.len()];
    for row in records("needs.csv") {
        needs[(specialties.places[&row[0]] - 1) * units.len() + kinds.places[&row[1]] - 1] = number(&row[2]) as u32;
    }
    let mut unsuited = vec![false; count * rooms.names.len()];
    for row in records("unsuited.csv") {
        unsuited[(specialties.places[&row[0]] - 1) * rooms.names.len() + rooms.places[&row[1]] - 1] = true;
    }
    let option = |name: &[u8]| if name == b"-" { 0 } else { specialties.places[name] as u32 };
    let mut fixed = vec![0; minutes.len()];
    for row in records("fixed.csv") {
        fixed[(number(&row[0]) as usize - 1) * rooms.names.len() + rooms.places[&row[1]] - 1] = option(&row[2]) + 1;
    }
    let mut barred = vec![false; count * days];
    for row in records("barred.csv") {
        barred[(specialties.places[&row[0]] - 1) * days + number(&row[1]) as usize - 1] = true;
    }
    let (mut watched, mut allow) = (vec![false; wards.names.len() + 1], vec![0; wards.names.len() + 1]);
    let allowances = found("allow").map_or(vec![], |list| list_of(&list));
    for (at, name) in list_of(&value("watch")).iter().enumerate() {
        let ward = wards.places[name.as_bytes()];
        watched[ward] = true;
        allow[ward] = allowances.get(at).map_or(0, |beds| beds.parse().unwrap());
    }
    Tables {
        days,
        parts: found("parts").map_or(1_000_000, |parts| parts.parse().unwrap()),
        rooms: rooms.names,
        minutes,
        wards: wards.names,
        specialties: specialties.names,
        ward_of,
        daily,
        low,
        high,
        patients,
        stays,
        units,
        needs,
        unsuited,
        barred,
        fixed,
        level: value("level").parse().unwrap(),
        levels: list_of(&value("report")).iter().map(|s| s.parse().unwrap()).collect(),
        watched,
        allow,
        budget: value("budget").parse().unwrap(),
    }
}

// The options of cycle.csv.
pub fn read_cycle(tables: &Tables) -> Vec<u8> {
    let place = |names: &[Vec<u8>], name: &[u8]| names.iter().position(|it| it == name).unwrap();
    let mut options = vec![0; tables.slots()];
    for row in records("cycle.csv") {
        let slot = (number(&row[0]) as usize - 1) * tables.rooms.len() + place(&tables.rooms, &row[1]);
        options[slot] = if row[2] == b"-" { 0 } else { place(&tables.specialties, &row[2]) as u8 + 1 };
    }
    options
}

fn push_field(text: &mut Vec<u8>, name: &[u8]) {
    if name.iter().any(|c| matches!(c, b',' | b'"')) {
        text.push(b'"');
        for c in name {
            if *c == b'"' {
                text.push(b'"');
            }
            text.push(*c);
        }
        text.push(b'"');
    } else {
        text.extend_from_slice(name);
    }
}

// A cycle as a file: a record for each slot that isn't idle.
pub fn cycle_text(tables: &Tables, options: &[u8]) -> Vec<u8> {
    let mut text = b"day,room,specialty\n".to_vec();
    for (slot, option) in options.iter().enumerate().filter(|it| *it.1 != 0) {
        text.extend_from_slice(format!("{},", tables.day_of(slot)).as_bytes());
        push_field(&mut text, &tables.rooms[slot % tables.rooms.len()]);
        text.push(b',');
        push_field(&mut text, &tables.specialties[*option as usize - 1]);
        text.push(b'\n');
    }
    text
}
