//! The records of an order file, and the orders that they carry.

use crate::refusal::Refusal;
use std::fmt;

pub const RECORD_BYTES: usize = 32;

/// The steps, from the highest start down.
const STEPS: [(u32, u32); 6] = [
    (100_000, 100),
    (50_000, 50),
    (5_000, 25),
    (1_000, 5),
    (500, 2),
    (1, 1),
];

pub const MAX_PRICE: u32 = 10_000_000;

/// The step of a number of units; at 0, that of the first row.
pub fn step(units: u32) -> u32 {
    STEPS
        .iter()
        .find(|(start, _)| *start <= units)
        .map_or(1, |(_, step)| *step)
}

/// A price that keeps the price rule, in units of 0.0001.
#[derive(Clone, Copy, Debug, PartialEq, Eq, PartialOrd, Ord)]
pub struct Price(u32);

impl Price {
    pub fn new(units: u32) -> Option<Price> {
        let good = (1..=MAX_PRICE).contains(&units) && units.is_multiple_of(step(units));
        good.then_some(Price(units))
    }

    pub fn units(self) -> u32 {
        self.0
    }

    pub fn distance(self, other: Price) -> u32 {
        self.0.abs_diff(other.0)
    }
}

impl fmt::Display for Price {
    fn fmt(&self, f: &mut fmt::Formatter) -> fmt::Result {
        write!(f, "{}.{:04}", self.0 / 10_000, self.0 % 10_000)
    }
}

#[derive(Clone, Copy, Debug, PartialEq, Eq)]
pub enum Side {
    Buy,
    Sell,
}

impl Side {
    pub fn other(self) -> Side {
        match self {
            Side::Buy => Side::Sell,
            Side::Sell => Side::Buy,
        }
    }
}

#[derive(Clone, Copy, Debug, PartialEq, Eq)]
pub enum Qualifier {
    None,
    FillOrKill,
    ImmediateOrCancel,
}

/// In the order in which capacities precede each other.
#[derive(Clone, Copy, Debug, PartialEq, Eq, PartialOrd, Ord)]
pub enum Capacity {
    Investor,
    Dealer,
}

#[derive(Clone, Copy, Debug, PartialEq, Eq)]
pub struct Order {
    pub side: Side,
    /// None at a market order.
    pub limit: Option<Price>,
    pub qualifier: Qualifier,
    pub quantity: u32,
    /// 0 where there is none.
    pub minimum: u32,
    pub capacity: Capacity,
}

/// A limit order with no qualifier and no minimum.
#[derive(Clone, Copy, Debug, PartialEq, Eq)]
pub struct PlainOrder {
    pub side: Side,
    pub limit: Price,
    pub quantity: u32,
    pub capacity: Capacity,
}

impl Order {
    /// The order as a plain one, where it is one.
    pub fn plain(&self) -> Option<PlainOrder> {
        let limit = self.limit?;
        (self.qualifier == Qualifier::None && self.minimum == 0).then_some(PlainOrder {
            side: self.side,
            limit,
            quantity: self.quantity,
            capacity: self.capacity,
        })
    }
}

/// All but the capacity.
impl fmt::Display for Order {
    fn fmt(&self, f: &mut fmt::Formatter) -> fmt::Result {
        let side = match self.side {
            Side::Buy => "buy",
            Side::Sell => "sell",
        };
        write!(f, "{side} {} at ", self.quantity)?;
        match self.limit {
            Some(limit) => write!(f, "{limit}")?,
            None => f.write_str("market")?,
        }
        f.write_str(match self.qualifier {
            Qualifier::None => "",
            Qualifier::FillOrKill => ", fill-or-kill",
            Qualifier::ImmediateOrCancel => ", immediate-or-cancel",
        })?;
        if self.minimum > 0 {
            write!(f, ", minimum {}", self.minimum)?;
        }
        Ok(())
    }
}

#[derive(Clone, Copy, Debug, PartialEq, Eq)]
pub enum Record {
    Start(Price),
    Entry(Order, [u8; 8]),
    Withdrawal(u32),
    Opening,
    Halt,
    Resumption,
    Closing,
}

impl Record {
    /// Reads a record, or the shorter rest of a file.
    pub fn read(bytes: &[u8]) -> Result<Record, Refusal> {
        let bytes: &[u8; RECORD_BYTES] = bytes.try_into().map_err(|_| Refusal::Tail)?;
        check_bytes(bytes)?;
        Ok(match bytes[0] {
            b'D' => Record::Start(Price::new(number(bytes, 4)).ok_or(Refusal::Price)?),
            b'E' => Record::Entry(order(bytes)?, account(bytes)),
            b'W' => Record::Withdrawal(number(bytes, 4)),
            b'O' => Record::Opening,
            b'H' => Record::Halt,
            b'R' => Record::Resumption,
            _ => Record::Closing,
        })
    }
}

fn number(record: &[u8; RECORD_BYTES], from: usize) -> u32 {
    record[from..from + 4]
        .iter()
        .fold(0, |n, b| n << 8 | u32::from(*b))
}

fn account(record: &[u8; RECORD_BYTES]) -> [u8; 8] {
    std::array::from_fn(|i| record[24 + i])
}

/// What a byte of a record may be, by the record's kind and the byte's place.
fn byte_is_allowed(kind: u8, place: usize, byte: u8) -> bool {
    match (kind, place) {
        (_, 0) => true,
        (b'E', 1) => byte == b'B' || byte == b'S',
        (b'E', 2) => byte == b'L' || byte == b'M',
        (b'E', 3) => byte == b'N' || byte == b'F' || byte == b'I',
        (b'E', 4..=11 | 16..=19) => true,
        (b'E', 20) => byte == b'I' || byte == b'D',
        (b'E', 24..=31) => (0x21..=0x7E).contains(&byte),
        (b'D' | b'W', 4..=7) => true,
        _ => byte == 0,
    }
}

fn check_bytes(record: &[u8; RECORD_BYTES]) -> Result<(), Refusal> {
    let kind = record[0];
    if !b"DEWOHRC".contains(&kind) {
        return Err(Refusal::Kind);
    }
    match (0..RECORD_BYTES).find(|place| !byte_is_allowed(kind, *place, record[*place])) {
        Some(place) => Err(Refusal::Byte(place)),
        None => Ok(()),
    }
}

/// The order of an entry whose bytes have been checked.
fn order(record: &[u8; RECORD_BYTES]) -> Result<Order, Refusal> {
    let market = record[2] == b'M';
    let units = number(record, 4);
    let quantity = number(record, 8);
    let minimum = number(record, 16);
    let limit = match (market, units) {
        (true, 0) => None,
        (true, _) => return Err(Refusal::Price),
        (false, _) => Some(Price::new(units).ok_or(Refusal::Price)?),
    };
    if !quantity.is_multiple_of(100) || !(100..=1_000_000).contains(&quantity) {
        return Err(Refusal::Quantity);
    }
    if !minimum.is_multiple_of(100) || minimum > quantity {
        return Err(Refusal::Minimum);
    }
    let qualifier = match record[3] {
        b'F' => Qualifier::FillOrKill,
        b'I' => Qualifier::ImmediateOrCancel,
        _ => Qualifier::None,
    };
    if minimum > 0 && (market || qualifier == Qualifier::FillOrKill) {
        return Err(Refusal::Mix);
    }
    Ok(Order {
        side: if record[1] == b'B' {
            Side::Buy
        } else {
            Side::Sell
        },
        limit,
        qualifier,
        quantity,
        minimum,
        capacity: if record[20] == b'I' {
            Capacity::Investor
        } else {
            Capacity::Dealer
        },
    })
}
