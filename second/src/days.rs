//! Days made at random: order files whose records follow each other as in a day.

use crate::book::{Kind as LineKind, LAST_NUMBER, PLACES};
use crate::day::{Day, Event};
use crate::files::{PRICE_EDGES, QUANTITY_EDGES, Random, account, damage, near};
use crate::record::{MAX_PRICE, RECORD_BYTES, step};

/// The kinds of day.
#[derive(Clone, Copy, Debug, PartialEq, Eq, PartialOrd, Ord)]
pub enum Kind {
    /// A small auction of few prices and equal quantities.
    Ties,
    /// Entries of all sorts around the reference, with everything else in between.
    Mixed,
    /// A mixed or a small day with damage done to it.
    Damaged,
    /// Many lines at many prices, and orders that take many of them.
    Deep,
    /// More entries than the book has places.
    Full,
    /// More entries than there are numbers, after the opening.
    Spent,
    /// More entries than there are numbers, before the opening.
    SpentEarly,
}

impl Kind {
    pub const ALL: [Kind; 7] = [
        Kind::Ties,
        Kind::Mixed,
        Kind::Damaged,
        Kind::Deep,
        Kind::Full,
        Kind::Spent,
        Kind::SpentEarly,
    ];

    pub fn name(self) -> &'static str {
        match self {
            Kind::Ties => "ties",
            Kind::Mixed => "mixed",
            Kind::Damaged => "damaged",
            Kind::Deep => "deep",
            Kind::Full => "full",
            Kind::Spent => "spent",
            Kind::SpentEarly => "spent-early",
        }
    }

    pub fn from_name(name: &str) -> Option<Kind> {
        Kind::ALL.into_iter().find(|kind| kind.name() == name)
    }

    /// How many records a day of this kind has in a comparison.
    pub fn records(self, random: &mut Random) -> u64 {
        match self {
            Kind::Ties => 6 + random.below(12),
            Kind::Mixed => 5 + random.below(116),
            Kind::Damaged => 3 + random.below(58),
            Kind::Deep => 500 + random.below(3_000),
            Kind::Full => PLACES as u64 + 400 + random.below(300),
            Kind::Spent => u64::from(LAST_NUMBER) * 108 / 100,
            Kind::SpentEarly => u64::from(LAST_NUMBER) * 2 + 2_000,
        }
    }
}

/// A day of that many records; a damaged one may end in a part of a record.
pub fn day(kind: Kind, records: u64, seed: u64) -> Vec<u8> {
    let mut maker = Maker::new(Random::new(seed), records as usize);
    match kind {
        Kind::Ties => ties(&mut maker),
        Kind::Mixed => mixed(&mut maker),
        Kind::Damaged => {
            if maker.random.one_in(4) {
                ties(&mut maker);
            } else {
                mixed(&mut maker);
            }
            do_damage(&mut maker.random, &mut maker.file);
        }
        Kind::Deep => deep(&mut maker),
        Kind::Full => full(&mut maker),
        Kind::Spent => spent(&mut maker),
        Kind::SpentEarly => spent_early(&mut maker),
    }
    maker.file
}

/// The fields of an entry that a day's maker chooses.
#[derive(Clone, Copy)]
struct Draft {
    side: u8,
    order_type: u8,
    qualifier: u8,
    price: u32,
    quantity: u32,
    minimum: u32,
}

impl Draft {
    fn plain(side: u8, price: u32, quantity: u32) -> Draft {
        Draft {
            side,
            order_type: b'L',
            qualifier: b'N',
            price,
            quantity,
            minimum: 0,
        }
    }
}

fn record(letter: u8, number: u32) -> [u8; RECORD_BYTES] {
    let mut record = [0; RECORD_BYTES];
    record[0] = letter;
    record[4..8].copy_from_slice(&number.to_be_bytes());
    record
}

/// The price that many steps above or below.
fn steps_from(price: u32, steps: i64) -> u32 {
    (0..steps.abs()).fold(price, |p, _| {
        if steps > 0 {
            (p + step(p)).min(MAX_PRICE)
        } else {
            (p - step(p - 1)).max(1)
        }
    })
}

/// Makes a file, and plays it to know which numbers were given out.
struct Maker {
    random: Random,
    file: Vec<u8>,
    records: usize,
    day: Day,
    reference: u32,
    last_number: u32,
    /// The numbers of the orders that came to rest. Some are gone since.
    rested: Vec<u32>,
}

impl Maker {
    fn new(random: Random, records: usize) -> Maker {
        Maker {
            random,
            file: Vec::new(),
            records,
            day: Day::new(LineKind::Time),
            reference: 1_000,
            last_number: 0,
            rested: Vec::new(),
        }
    }

    /// How many records are still to be made.
    fn left(&self) -> usize {
        self.records - self.file.len() / RECORD_BYTES
    }

    fn put(&mut self, record: [u8; RECORD_BYTES]) {
        if self.left() == 0 {
            return;
        }
        self.file.extend(record);
        if let Ok(Event::Entry(_, answer, _)) = self.day.play(&record) {
            self.last_number = answer.number;
            if answer.resting > 0 {
                self.rested.push(answer.number);
            }
        }
    }

    fn letter(&mut self, letter: u8) {
        self.put(record(letter, 0));
    }

    fn one_letter_of(&mut self, letters: &[u8]) {
        let letter = self.random.pick(letters);
        self.letter(letter);
    }

    fn start(&mut self, references: &[u32]) {
        self.reference = self.random.pick(references);
        self.put(record(b'D', self.reference));
    }

    /// A start that comes too late, now and then at no price.
    fn start_again(&mut self) {
        let reference = self.random.pick(&[1_000, 1_000, 1_005, 1_001, 0]);
        self.put(record(b'D', reference));
    }

    fn entry(&mut self, draft: Draft) {
        let mut record = record(b'E', draft.price);
        record[1..4].copy_from_slice(&[draft.side, draft.order_type, draft.qualifier]);
        record[8..12].copy_from_slice(&draft.quantity.to_be_bytes());
        record[16..20].copy_from_slice(&draft.minimum.to_be_bytes());
        record[20] = self.random.pick(b"ID");
        for byte in &mut record[24..] {
            *byte = 0x21 + self.random.below(0x7E - 0x21 + 1) as u8;
        }
        self.put(record);
    }

    /// Withdraws an order that rested, or one of any number.
    fn withdrawal(&mut self) {
        if self.random.one_in(4) {
            let number = self.random.below(u64::from(self.last_number) + 3) as u32;
            self.put(record(b'W', number));
        } else {
            self.withdraw_rested();
        }
    }

    /// Withdraws an order that rested, where there is one: any of them, or one of the last.
    fn withdraw_rested(&mut self) {
        let count = self.rested.len();
        let among = if self.random.one_in(2) {
            count
        } else {
            count.min(50)
        };
        let number = if count == 0 {
            self.last_number
        } else {
            let place = count - 1 - self.random.below(among as u64) as usize;
            self.rested.swap_remove(place)
        };
        self.put(record(b'W', number));
    }

    fn side(&mut self) -> u8 {
        self.random.pick(b"BS")
    }

    /// A price in the band, up to that many steps from the reference.
    fn price_within(&mut self, steps: u64) -> u32 {
        let steps = self.random.below(2 * steps + 1) as i64 - steps as i64;
        let price = steps_from(self.reference, steps);
        if 10 * price.abs_diff(self.reference) <= self.reference {
            price
        } else {
            self.reference
        }
    }

    /// A price in the band that is worse than the reference for its side, or no better.
    fn passive_price(&mut self, side: u8, steps: u64) -> u32 {
        let price = self.price_within(steps);
        match (side, price < self.reference) {
            (b'B', true) | (b'S', false) => price,
            (b'B', false) => steps_from(self.reference, -1),
            _ => self.reference,
        }
    }

    /// A price at the edge of the band, or one step off it.
    fn edge_price(&mut self) -> u32 {
        let tenth = self.reference / 10;
        let edge = if self.random.one_in(2) {
            self.reference - tenth
        } else {
            self.reference + tenth
        };
        let edge = (edge / step(edge) * step(edge)).clamp(1, MAX_PRICE);
        let steps = self.random.below(3) as i64 - 1;
        steps_from(edge, steps)
    }

    fn quantity(&mut self) -> u32 {
        match self.random.below(12) {
            0 => self.random.pick(&[100_000, 500_000, 999_900, 1_000_000]),
            _ => 100 * (1 + self.random.below(20) as u32),
        }
    }

    /// An order of any sort, most of them near the reference.
    fn any(&mut self, steps: u64) -> Draft {
        let price = match self.random.below(16) {
            0 => self.edge_price(),
            _ => self.price_within(steps),
        };
        let (side, quantity) = (self.side(), self.quantity());
        let mut draft = Draft::plain(side, price, quantity);
        draft.qualifier = self.random.pick(b"NNNNNFII");
        if self.random.one_in(5) {
            (draft.order_type, draft.price) = (b'M', 0);
        } else if draft.qualifier != b'F' && self.random.one_in(5) {
            draft.minimum = 100 * (1 + self.random.below(u64::from(quantity / 100)) as u32);
        }
        draft
    }

    fn enter_any(&mut self, steps: u64) {
        let draft = self.any(steps);
        self.entry(draft);
    }

    fn enter_plain(&mut self, steps: u64) {
        let (side, price) = (self.side(), self.price_within(steps));
        let quantity = self.quantity();
        self.entry(Draft::plain(side, price, quantity));
    }

    fn enter_passive(&mut self, steps: u64) {
        let side = self.side();
        let price = self.passive_price(side, steps);
        let quantity = self.quantity();
        self.entry(Draft::plain(side, price, quantity));
    }
}

/// References on both sides of each change of the step, and at both ends.
const REFERENCES: [u32; 26] = [
    1, 9, 10, 11, 100, 480, 499, 500, 502, 550, 990, 998, 1_000, 1_005, 1_050, 4_995, 5_000, 5_025,
    49_975, 50_000, 50_050, 99_950, 100_000, 100_100, 9_999_900, 10_000_000,
];

/// References with many prices in the band.
const WIDE_REFERENCES: [u32; 6] = [1_000, 5_000, 20_000, 100_000, 2_000_000, 10_000_000];

fn ties(maker: &mut Maker) {
    maker.start(&[1_000, 1_000, 1_005, 1_050, 500, 550, 5_000, 100_000]);
    let quantity = 100 * (1 + maker.random.below(3) as u32);
    let joins = maker.left().saturating_sub(maker.records / 5 + 2);
    let (one, other) = (maker.price_within(5), maker.price_within(5));
    let low = one.min(other);
    let high = one.max(other).max(steps_from(low, 1));
    let mut lines = match maker.random.below(4) {
        0 | 1 => even_lines(&mut maker.random, low, high, joins),
        2 => crossed_lines(&mut maker.random, low, high, joins),
        _ => Vec::new(),
    };
    // With lines as they come, prices of their own; else lines that trade at none of the two prices.
    let prices: Vec<u32> = (0..2 + maker.random.below(3))
        .map(|_| maker.price_within(5))
        .collect();
    let as_they_come = lines.is_empty();
    while lines.len() < joins {
        let side = maker.side();
        let price = match side {
            _ if as_they_come => maker.random.pick(&prices),
            b'B' => steps_from(low, -1),
            _ => steps_from(high, 1),
        };
        lines.push((side, price));
    }
    while !lines.is_empty() {
        let place = maker.random.below(lines.len() as u64) as usize;
        let (side, price) = lines.swap_remove(place);
        let twice = as_they_come && maker.random.one_in(4);
        let quantity = if twice { 2 * quantity } else { quantity };
        maker.entry(Draft::plain(side, price, quantity));
    }
    maker.letter(b'O');
    while maker.left() > 1 {
        let (side, price) = (maker.side(), maker.random.pick(&prices));
        maker.entry(Draft::plain(side, price, quantity));
    }
    maker.letter(b'C');
}

/// Buyers at the high price and sellers at the low one, so that the two prices are even.
fn even_lines(random: &mut Random, low: u32, high: u32, most: usize) -> Vec<(u8, u32)> {
    let half = (most as u64 / 2).max(1);
    let sellers = 1 + random.below(half) as usize;
    let buyers = if random.one_in(2) {
        1 + random.below(half) as usize
    } else {
        sellers
    };
    let mut lines = vec![(b'B', high); buyers];
    lines.extend(vec![(b'S', low); sellers]);
    lines.truncate(most);
    lines
}

/// Buyers and sellers at both prices, so that buyers are in excess at the low one as sellers are at the high one.
fn crossed_lines(random: &mut Random, low: u32, high: u32, most: usize) -> Vec<(u8, u32)> {
    let half = (most as u64 / 2).max(2);
    let better = 1 + random.below(half - 1);
    let worse = 1 + random.below(half - better) as usize;
    let better = better as usize;
    let mut lines = vec![(b'B', high); better];
    lines.extend(vec![(b'S', low); better]);
    lines.extend(vec![(b'B', low); worse]);
    lines.extend(vec![(b'S', high); worse]);
    lines.truncate(most);
    lines
}

fn mixed(maker: &mut Maker) {
    if maker.random.one_in(8) {
        for _ in 0..1 + maker.random.below(3) {
            maker.one_letter_of(b"WOHRC");
        }
        maker.enter_any(3);
    }
    if maker.random.one_in(2) {
        maker.start(&[1_000]);
    } else {
        maker.start(&REFERENCES);
    }
    let steps = 1 + maker.random.below(10);
    let opening_at = maker.records
        - maker.records / 4
        - maker.random.below(1 + maker.records as u64 / 2) as usize;
    while maker.records - maker.left() < opening_at {
        match maker.random.below(40) {
            0..=2 => maker.withdrawal(),
            3..=5 => maker.enter_any(steps),
            6 => maker.one_letter_of(b"HR"),
            7 if maker.random.one_in(3) => maker.start_again(),
            8 => {
                let (side, price) = (maker.side(), maker.edge_price());
                maker.entry(Draft::plain(side, price, 100));
            }
            _ => maker.enter_plain(steps),
        }
    }
    if !maker.random.one_in(12) {
        maker.letter(b'O');
    }
    let last = if maker.random.one_in(3) { 4 } else { 1 };
    while maker.left() > last {
        match maker.random.below(40) {
            0..=4 => maker.withdrawal(),
            5 => maker.letter(b'H'),
            6..=7 => maker.letter(b'R'),
            8 if maker.random.one_in(2) => maker.letter(b'O'),
            9 if maker.random.one_in(4) => maker.start_again(),
            10..=19 => maker.enter_passive(steps),
            _ => maker.enter_any(steps),
        }
    }
    if !maker.random.one_in(4) {
        maker.letter(b'C');
    }
    while maker.left() > 0 {
        match maker.random.below(3) {
            0 => maker.one_letter_of(b"OHRC"),
            1 => maker.withdrawal(),
            _ => maker.enter_any(steps),
        }
    }
}

fn deep(maker: &mut Maker) {
    maker.start(&WIDE_REFERENCES);
    let steps = maker.random.pick(&[2, 8, 20, 60]);
    let huge = maker.random.one_in(4);
    let crossing = maker.random.one_in(2);
    let after = maker.records * 2 / 5;
    while maker.left() > after {
        if maker.random.one_in(50) {
            maker.withdrawal();
            continue;
        }
        let side = maker.side();
        let price = if crossing || maker.random.one_in(8) {
            maker.price_within(steps)
        } else {
            maker.passive_price(side, steps)
        };
        let quantity = if huge { 1_000_000 } else { maker.quantity() };
        maker.entry(Draft::plain(side, price, quantity));
    }
    maker.letter(b'O');
    while maker.left() > 1 {
        match maker.random.below(10) {
            0 => maker.withdrawal(),
            1..=6 => maker.enter_passive(steps),
            _ => {
                let mut draft = maker.any(steps);
                draft.quantity = 100 * (1 + maker.random.below(10_000) as u32);
                draft.minimum = draft.minimum.min(draft.quantity);
                maker.entry(draft);
            }
        }
    }
    maker.letter(b'C');
}

fn full(maker: &mut Maker) {
    maker.start(&WIDE_REFERENCES);
    let steps = maker.random.pick(&[2, 8, 20, 60]);
    let one_side = maker.random.one_in(3).then(|| maker.side());
    let crossing = one_side.is_none() && maker.random.one_in(3);
    let quantity = maker.random.pick(&[100, 100, 300, 1_000_000]);
    let joins = PLACES + 40 + maker.random.below(60) as usize;
    for count in 0..joins.min(maker.records - maker.records / 20) {
        let side = match one_side {
            Some(side) => side,
            None => maker.side(),
        };
        let price = if crossing {
            maker.price_within(steps)
        } else {
            maker.passive_price(side, steps)
        };
        maker.entry(Draft::plain(side, price, quantity));
        if count > PLACES && maker.random.one_in(5) {
            maker.withdrawal();
        }
    }
    maker.letter(b'O');
    // Half of the days with lines on one side have an order that takes them all.
    if let Some(side) = one_side
        && maker.random.one_in(2)
    {
        let other = if side == b'B' { b'S' } else { b'B' };
        let mut draft = Draft::plain(other, 0, 1_000_000);
        draft.order_type = b'M';
        maker.entry(draft);
    }
    while maker.left() > 0 {
        match maker.random.below(20) {
            0 => maker.withdrawal(),
            1..=12 => {
                let side = maker.side();
                let price = maker.passive_price(side, steps);
                maker.entry(Draft::plain(side, price, quantity));
            }
            _ => maker.enter_any(steps),
        }
    }
}

fn spent(maker: &mut Maker) {
    maker.start(&WIDE_REFERENCES);
    for _ in 0..40 {
        let (side, price) = (maker.side(), maker.price_within(3));
        maker.entry(Draft::plain(side, price, 500));
    }
    maker.letter(b'O');
    while maker.left() > 0 {
        let (side, price) = (maker.side(), maker.price_within(3));
        let quantity = 100 * (1 + maker.random.below(8) as u32);
        let mut draft = Draft::plain(side, price, quantity);
        match maker.random.below(200) {
            0..=3 => {
                maker.withdrawal();
                continue;
            }
            4 if maker.random.one_in(20) => {
                maker.letter(b'H');
                maker.letter(b'R');
                continue;
            }
            5..=9 => (draft.order_type, draft.price) = (b'M', 0),
            10..=12 => draft.minimum = 100,
            13..=30 => draft.qualifier = b'F',
            31..=60 => draft.qualifier = b'I',
            // Now and then one that takes all that it can reach, so that the book does not fill.
            61 => (draft.qualifier, draft.quantity) = (b'I', 1_000_000),
            _ => {}
        }
        maker.entry(draft);
    }
}

fn spent_early(maker: &mut Maker) {
    maker.start(&WIDE_REFERENCES);
    for _ in 0..100 {
        let (side, price) = (maker.side(), maker.price_within(8));
        maker.entry(Draft::plain(side, price, 100));
    }
    while maker.left() > 50 {
        maker.enter_plain(8);
        if maker.last_number < LAST_NUMBER {
            maker.withdraw_rested();
        }
    }
    maker.letter(b'O');
    while maker.left() > 0 {
        maker.enter_any(8);
    }
}

/// Spoils fields, overwrites bytes, and cuts the end off.
fn do_damage(random: &mut Random, file: &mut Vec<u8>) {
    for record in file.chunks_exact_mut(RECORD_BYTES) {
        if random.one_in(8) {
            spoil(random, record);
        }
    }
    if file.is_empty() {
        return;
    }
    if random.one_in(2) {
        for _ in 0..1 + random.below(6) {
            damage(random, file);
        }
    }
    if random.one_in(3) {
        let left = file.len() - 1 - random.below(RECORD_BYTES as u64 - 1) as usize;
        file.truncate(left);
    }
}

/// Spoils one field of a record, or makes a mix that is not allowed.
fn spoil(random: &mut Random, record: &mut [u8]) {
    let mut set = |from: usize, n: u32| record[from..from + 4].copy_from_slice(&n.to_be_bytes());
    match random.below(10) {
        0 => set(4, near(random, &PRICE_EDGES)),
        1 => set(8, near(random, &QUANTITY_EDGES)),
        2 => set(16, near(random, &[100, 200, 1_000, 1_000_000, u32::MAX])),
        3 => {
            set(16, 100);
            record[3] = b'F';
        }
        4 => {
            set(4, 0);
            set(16, 100);
            record[2] = b'M';
        }
        5 => record[2] = b'M',
        6 => record[random.below(4) as usize] = random.pick(b"DEWOHRCBSLMNFIX\0"),
        7 => record[12 + random.below(12) as usize] = random.pick(&[1, b'I', 0xFF]),
        8 => record[0] = random.pick(b"DWOXYde\0"),
        _ => record[24..32].copy_from_slice(&account(random)),
    }
}
