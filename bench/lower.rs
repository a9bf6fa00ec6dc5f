// A plain Rust program that finds the weights that `mss_improve` puts, and checks them: the yardstick of their speed. It reads
// the settings and tables of the current folder without testing them, goes the same rounds over the same prices, and writes
// weights.txt on standard output; no bytes where it comes to no number.
//
// lower | lower check
mod plain;
use plain::lists::{Lists, steady_lists};
use plain::tables::{Tables, read_tables};
use plain::weights::{Weights, check, least_reach, most_blocks, needed_blocks, open_slots, pays, read_weights, weight_rows, write_weights};

// What all places cost, and on a finer scale what they mass.
const PLACES: u64 = 1 << 24;
const MASSES: u64 = 1 << 30;
// A price is at most so much in a certificate, but for roundings.
const LARGEST: u64 = 900_000_000;
const MOST_NUMBER: u32 = 16_384;
const FIRST_POWER: u32 = 64;
const POWERS: u32 = 30;
const SHORT_ROUNDS: u64 = 125;
const LONG_ROUNDS: u64 = 2000;

#[derive(Clone)]
struct Prices {
    // by ward and day
    places: Vec<u64>,
    slots: Vec<u64>,
    // by day and kind
    kinds: Vec<u64>,
}

impl Prices {
    fn all(&self) -> impl Iterator<Item = &u64> {
        self.places.iter().chain(&self.slots).chain(&self.kinds)
    }

    fn all_mut(&mut self) -> impl Iterator<Item = &mut u64> {
        self.places.iter_mut().chain(&mut self.slots).chain(&mut self.kinds)
    }
}

struct Finder<'a> {
    tables: &'a Tables,
    // by specialty; by specialty and day; by day
    needed: Vec<u64>,
    most: Vec<u64>,
    open: Vec<u64>,
    prices: Prices,
    sums: Prices,
    // what is used of places, slots and kinds
    uses: Prices,
    masses: Vec<u64>,
    pulls: Vec<u64>,
    // by specialty and day
    costs: Vec<u64>,
    blocks: Vec<u64>,
    // what the beds weigh that are always taken, by ward and day
    beds: Vec<u64>,
}

fn times(price: u64, count: u64) -> u64 {
    price.saturating_mul(count)
}

fn total(list: impl Iterator<Item = u64>) -> u64 {
    list.fold(0, u64::saturating_add)
}

fn spread(row: &[u32]) -> u64 {
    let mean = row.iter().map(|weight| u64::from(*weight)).sum::<u64>() / row.len() as u64;
    row.iter().map(|weight| u64::from(*weight).abs_diff(mean)).sum()
}

impl<'a> Finder<'a> {
    fn make(t: &'a Tables) -> Finder<'a> {
        let (days, wards, count, kinds) = (t.days, t.wards.len(), t.specialties.len(), t.units.len());
        let none = Prices { places: vec![0; wards * days], slots: vec![0; days], kinds: vec![0; days * kinds] };
        Finder {
            tables: t,
            needed: (0..count).map(|j| u64::from(needed_blocks(t, j))).collect(),
            most: (0..count).flat_map(|j| (1..=days).map(move |day| u64::from(most_blocks(t, day, j)))).collect(),
            open: (1..=days).map(|day| u64::from(open_slots(t, day))).collect(),
            prices: none.clone(),
            sums: none.clone(),
            uses: none,
            masses: vec![0; wards * days],
            pulls: vec![0; wards * days],
            costs: vec![0; count * days],
            blocks: vec![0; count * days],
            beds: vec![0; wards * days],
        }
    }

    fn begin(&mut self) {
        for (place, mass) in self.masses.iter_mut().enumerate() {
            *mass = u64::from(self.tables.watched[place / self.tables.days + 1]);
        }
        self.prices.all_mut().chain(self.sums.all_mut()).chain(&mut self.pulls).for_each(|it| *it = 0);
    }

    // Brings the masses to one sum again, and prices the places by them.
    fn share_out(&mut self) {
        let whole = total(self.masses.iter().copied()).max(1);
        for (mass, price) in self.masses.iter_mut().zip(&mut self.prices.places) {
            *mass = times(*mass, MASSES) / whole;
            *price = *mass / (MASSES / PLACES);
        }
    }

    fn place_cost(&self, row: &[u32], j: usize, day: usize) -> u64 {
        let days = self.tables.days;
        let places = &self.prices.places[(self.tables.ward_of[j + 1] - 1) * days..][..days];
        total((day..days).chain(0..day).zip(row).map(|(place, weight)| times(places[place], u64::from(*weight))))
    }

    fn kind_cost(&self, j: usize, day: usize) -> u64 {
        let kinds = self.tables.units.len();
        total((0..kinds).map(|kind| times(self.prices.kinds[day * kinds + kind], u64::from(self.tables.needs[j * kinds + kind]))))
    }

    fn price_blocks(&mut self, rows: &[Vec<u32>]) {
        for (j, row) in rows.iter().enumerate() {
            for day in 0..self.tables.days {
                let cost = self.place_cost(row, j, day).saturating_add(self.prices.slots[day]).saturating_add(self.kind_cost(j, day));
                self.costs[j * self.tables.days + day] = cost;
            }
        }
    }

    // Gives a specialty its needed blocks on the days that are cheapest: the cost of the dearest block, and of all.
    fn deal(&mut self, j: usize) -> (u64, u64) {
        let of_j = j * self.tables.days..(j + 1) * self.tables.days;
        let (mut left, mut dearest, mut worth) = (self.needed[j], 0, 0);
        self.blocks[of_j.clone()].fill(0);
        while left > 0 {
            let free = of_j.clone().filter(|it| self.blocks[*it] == 0 && self.most[*it] > 0);
            let Some(cheapest) = free.min_by_key(|it| self.costs[*it]) else { break };
            let count = left.min(self.most[cheapest]);
            self.blocks[cheapest] = count;
            left -= count;
            dearest = self.costs[cheapest];
            worth = times(dearest, count).saturating_add(worth);
        }
        (dearest, worth)
    }

    // Deals all blocks: what they cost above what slots and kinds are worth.
    fn deal_all(&mut self) -> u64 {
        let units = self.tables.units.iter().cycle();
        let slots = total(self.prices.slots.iter().zip(&self.open).map(|(price, open)| times(*price, *open)));
        let kinds = total(self.prices.kinds.iter().zip(units).map(|(price, units)| times(*price, u64::from(*units))));
        let worth = total((0..self.needed.len()).map(|j| self.deal(j).1));
        worth.saturating_sub(slots).saturating_sub(kinds)
    }

    // Uses what one specialty's blocks of a day take.
    fn use_up(&mut self, row: &[u32], j: usize, day: usize, count: u64) {
        let (days, kinds, ward) = (self.tables.days, self.tables.units.len(), self.tables.ward_of[j + 1]);
        self.uses.slots[day] += count;
        for kind in 0..kinds {
            self.uses.kinds[day * kinds + kind] += count * u64::from(self.tables.needs[j * kinds + kind]);
        }
        if self.tables.watched[ward] {
            for (place, weight) in (day..days).chain(0..day).zip(row) {
                self.uses.places[(ward - 1) * days + place] += count * u64::from(*weight);
            }
        }
    }

    fn use_all(&mut self, rows: &[Vec<u32>]) {
        self.uses.all_mut().for_each(|it| *it = 0);
        for (j, row) in rows.iter().enumerate() {
            for day in 0..self.tables.days {
                self.use_up(row, j, day, self.blocks[j * self.tables.days + day]);
            }
        }
    }

    // Draws masses to where loads are great, by their mean over some rounds.
    fn pull(&mut self, round: u64) {
        let top = self.uses.places.iter().copied().max().unwrap_or(0).max(1);
        let step = (1 << 22) / (round + 8);
        for (place, mass) in self.masses.iter_mut().enumerate() {
            let pull = times(self.uses.places[place], 1 << 16) / top;
            let pull = if round == 1 { pull } else { (3 * self.pulls[place] + pull) / 4 };
            self.pulls[place] = pull;
            *mass = times(*mass, (1 << 16) + step * pull / (1 << 16)) / (1 << 16);
        }
    }

    // Raises the prices of slots and kinds that are used too much, and lowers those of the others.
    fn adjust(&mut self, step: u64) {
        let adjusted = |price: u64, used: u64, there: u64| price.saturating_add(times(step, used) / there.max(1)).saturating_sub(step);
        for (day, price) in self.prices.slots.iter_mut().enumerate() {
            *price = adjusted(*price, self.uses.slots[day], self.open[day]);
        }
        for (at, price) in self.prices.kinds.iter_mut().enumerate() {
            *price = adjusted(*price, self.uses.kinds[at], u64::from(self.tables.units[at % self.tables.units.len()]));
        }
    }

    // Weighs the beds that are always taken, above those of the watched ward with the fewest. Those of a ward don't count
    // where its needed blocks don't come to the reach, since these show nothing above its beds then.
    fn weigh_beds(&mut self, rows: &[Vec<u32>], power: u32, reach: u32) {
        let (t, days) = (self.tables, self.tables.days);
        let fewest = (1..=t.wards.len()).filter(|ward| t.watched[*ward]).map(|ward| t.allow[ward]).min().unwrap_or(0);
        self.deal_all();
        self.use_all(rows);
        for ward in 1..=t.wards.len() {
            let of_ward = (ward - 1) * days..ward * days;
            let is_heavy = total(self.uses.places[of_ward.clone()].iter().copied()) >= u64::from(reach) * days as u64;
            let beds = if is_heavy { t.allow[ward].saturating_sub(fewest) as u64 } else { 0 };
            self.beds[of_ward].fill(u64::from(power) * beds);
        }
    }

    // How far the weights of a needed block are from their mean, all offsets together.
    fn mean_spread(&self, rows: &[Vec<u32>]) -> u64 {
        let whole = total(self.needed.iter().copied()).max(1);
        total(rows.iter().zip(&self.needed).map(|(row, needed)| times(spread(row), *needed))) / whole
    }

    fn round(&mut self, rows: &[Vec<u32>], round: u64, step: u64) {
        self.deal_all();
        for (sum, price) in self.sums.all_mut().zip(self.prices.all()) {
            *sum = sum.saturating_add(times(round, *price));
        }
        self.use_all(rows);
        for (used, beds) in self.uses.places.iter_mut().zip(&self.beds) {
            *used = used.saturating_add(*beds);
        }
        self.pull(round);
        self.adjust(step / (round + 32));
        self.share_out();
        self.price_blocks(rows);
    }

    // Goes so many rounds, and takes the mean of their prices, where a later round counts more. Gives what the needed blocks
    // and the beds that are always taken cost at it above what slots and kinds are worth.
    fn rounds(&mut self, rows: &[Vec<u32>], power: u32, reach: u32, count: u64) -> u64 {
        self.begin();
        self.share_out();
        self.price_blocks(rows);
        self.weigh_beds(rows, power, reach);
        let step = times(self.prices.places.iter().copied().max().unwrap_or(0), 2 * self.mean_spread(rows));
        for round in 1..=count {
            self.round(rows, round, step);
        }
        let whole = count * (count + 1) / 2;
        for (price, sum) in self.prices.all_mut().zip(self.sums.all()) {
            *price = *sum / whole;
        }
        self.price_blocks(rows);
        let beds = total(self.prices.places.iter().zip(&self.beds).map(|(price, beds)| times(*price, *beds)));
        self.deal_all().saturating_add(beds)
    }

    // The price 1 for one day of the first ward with so great an allowance, and no other prices.
    fn price_beds(&mut self, beds: usize) {
        self.prices.all_mut().for_each(|price| *price = 0);
        if let Some(ward) = (1..=self.tables.wards.len()).find(|ward| self.tables.allow[*ward] == beds) {
            self.prices.places[(ward - 1) * self.tables.days] = 1;
        }
    }

    // Brings the prices to nine digits, and gives the best prices of blocks to them.
    fn shorten(&mut self, rows: &[Vec<u32>]) -> Vec<u64> {
        let largest = self.costs.iter().chain(self.prices.all()).copied().max().unwrap_or(0);
        let parts = largest / LARGEST + 1;
        for price in self.prices.all_mut() {
            *price = price.saturating_add(parts / 2) / parts;
        }
        self.price_blocks(rows);
        (0..self.needed.len()).map(|j| self.deal(j).0).collect()
    }
}

fn short(list: &[u64]) -> Vec<u32> {
    list.iter().map(|price| *price.min(&999_999_999) as u32).collect()
}

// The greatest number that the prices show, or 0.
fn greatest(t: &Tables, rows: &[Vec<u32>], weights: &mut Weights) -> u32 {
    let (mut low, mut high) = (0, MOST_NUMBER);
    while low + 1 < high {
        weights.number = (low + high) / 2;
        if pays(t, rows, weights) {
            low = weights.number;
        } else {
            high = weights.number;
        }
    }
    low
}

// The power with which a few rounds come to the greatest number.
fn best_power(finder: &mut Finder, lists: &Lists, reach: u32) -> u32 {
    let (mut most, mut power, mut tried) = (0, 0, FIRST_POWER);
    for _ in 0..POWERS {
        let value = finder.rounds(&weight_rows(lists, tried), tried, reach, SHORT_ROUNDS);
        // the number in thousandths
        let number = (times(value, 1000) / PLACES).saturating_sub(1000 * u64::from(reach)) / u64::from(tried);
        if number > most {
            (most, power) = (number, tried);
        }
        tried = tried * 6 / 5;
    }
    power
}

// The weights of a finder's prices, with the greatest number that they show.
fn weights_of(finder: &mut Finder, rows: &[Vec<u32>], power: u32, reach: u32) -> Weights {
    let blocks = short(&finder.shorten(rows));
    let Prices { places, slots, kinds } = &finder.prices;
    let mut weights = Weights { number: 0, power, reach, places: short(places), blocks, slots: short(slots), kinds: short(kinds) };
    weights.number = greatest(finder.tables, rows, &mut weights);
    weights
}

fn find(t: &Tables) -> Option<Weights> {
    let (lists, mut finder) = (steady_lists(t), Finder::make(t));
    let reach = least_reach(t.level)?;
    let beds = t.allow.iter().copied().max().unwrap_or(0);
    if finder.needed.iter().any(|blocks| *blocks > 0) {
        let power = best_power(&mut finder, &lists, reach);
        let rows = weight_rows(&lists, power);
        finder.rounds(&rows, power, reach, LONG_ROUNDS);
        let weights = weights_of(&mut finder, &rows, power, reach);
        if weights.number as usize >= beds {
            return (weights.number > 0).then_some(weights);
        }
    }
    finder.price_beds(beds);
    let weights = weights_of(&mut finder, &weight_rows(&lists, 0), 0, reach);
    (weights.number > 0).then_some(weights)
}

fn main() {
    let tables = read_tables();
    if std::env::args().nth(1).is_some_and(|word| word == "check") {
        let weights = read_weights(&std::fs::read_to_string("weights.txt").unwrap());
        if check(&tables, &steady_lists(&tables), &weights) {
            println!("weights accepted: every legal cycle peaks at least at {}", weights.number);
        } else {
            println!("weights refused: not shown");
            std::process::exit(4);
        }
    } else if let Some(weights) = find(&tables) {
        print!("{}", write_weights(&weights));
    }
}
