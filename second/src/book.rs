//! The book of one security, its opening price and its trades.

use crate::record::{Capacity, Order, PlainOrder, Price, Qualifier, Side};
use crate::refusal::Refusal;
use std::cmp::Reverse;
use std::collections::{BTreeMap, HashMap, VecDeque};

/// How many lines a book holds.
pub const PLACES: usize = 4_096;
/// How many trades a tape holds.
pub const TAPE_PLACES: usize = 4_096;
/// How many levels a sheet holds.
pub const SHEET_PLACES: usize = 4_096;
/// The last order number that is given out.
pub const LAST_NUMBER: u32 = 100_000;

/// The two kinds of line.
#[derive(Clone, Copy, Debug, PartialEq, Eq)]
pub enum Kind {
    Time,
    Capacity,
}

#[derive(Clone, Copy, Debug, PartialEq, Eq)]
pub enum Status {
    PreOpen,
    Calling,
    Running,
    Halted,
    Closed,
}

#[derive(Clone, Copy, Debug, PartialEq, Eq)]
pub struct Trade {
    pub buyer: u32,
    pub seller: u32,
    pub price: Price,
    pub quantity: u32,
}

/// The trades, with a fixed number of places.
#[derive(Debug, Default)]
pub struct Tape {
    trades: Vec<Trade>,
}

impl Tape {
    pub fn new() -> Tape {
        Tape::default()
    }

    pub fn free(&self) -> usize {
        TAPE_PLACES.saturating_sub(self.trades.len())
    }

    pub fn into_trades(self) -> Vec<Trade> {
        self.trades
    }
}

/// The answer to an entry.
#[derive(Clone, Copy, Debug, PartialEq, Eq)]
pub struct Answer {
    pub number: u32,
    pub traded: u32,
    pub resting: u32,
    pub lapsed: u32,
}

/// A level of the auction sheet.
#[derive(Clone, Copy, Debug, PartialEq, Eq)]
pub struct Level {
    pub price: Price,
    pub demand: u64,
    pub supply: u64,
}

impl Level {
    pub fn volume(&self) -> u64 {
        self.demand.min(self.supply)
    }

    pub fn imbalance(&self) -> i64 {
        // A full book has fewer than 2^33 shares.
        self.demand as i64 - self.supply as i64
    }
}

/// The answer to an opening.
#[derive(Clone, Copy, Debug, PartialEq, Eq)]
pub struct Opening {
    pub price: Price,
    pub volume: u64,
    /// The first of the five tests that left one price; none where nothing trades.
    pub test: Option<u32>,
}

/// The answer to a closing.
#[derive(Clone, Copy, Debug, PartialEq, Eq)]
pub struct Closing {
    pub price: Price,
    pub lapsed: u64,
}

#[derive(Debug)]
struct Line {
    number: u32,
    left: u32,
}

/// Where a queue stands on its side: the lower place precedes.
#[derive(Clone, Copy, Debug, PartialEq, Eq, PartialOrd, Ord)]
struct Place {
    /// The price, negative for buyers, so that the better one is the lower.
    rank: i64,
    /// The same for all lines of kind time.
    capacity: Capacity,
}

/// The lines of one place, the lowest number first.
#[derive(Debug)]
struct Queue {
    price: Price,
    lines: VecDeque<Line>,
}

/// The lines of one side. No queue is empty.
#[derive(Debug, Default)]
struct Lines {
    queues: BTreeMap<Place, Queue>,
    count: usize,
}

impl Lines {
    /// Adds a line with a number above all others.
    fn add(&mut self, place: Place, price: Price, line: Line) {
        let queue = self.queues.entry(place).or_insert_with(|| Queue {
            price,
            lines: VecDeque::new(),
        });
        queue.lines.push_back(line);
        self.count += 1;
    }

    fn remove(&mut self, place: Place, number: u32) -> Option<Line> {
        let queue = self.queues.get_mut(&place)?;
        let index = queue.lines.binary_search_by_key(&number, |l| l.number);
        let line = queue.lines.remove(index.ok()?)?;
        if queue.lines.is_empty() {
            self.queues.remove(&place);
        }
        self.count -= 1;
        Some(line)
    }

    fn first(&self) -> Option<(Price, &Line)> {
        let queue = self.queues.first_key_value()?.1;
        Some((queue.price, queue.lines.front()?))
    }

    /// Takes shares off the first line, and answers its number if it then leaves the book.
    fn take_off_first(&mut self, shares: u32) -> Option<u32> {
        let mut entry = self.queues.first_entry()?;
        let lines = &mut entry.get_mut().lines;
        let line = lines.front_mut()?;
        line.left -= shares;
        if line.left > 0 {
            return None;
        }
        let number = line.number;
        lines.pop_front();
        if lines.is_empty() {
            entry.remove();
        }
        self.count -= 1;
        Some(number)
    }

    /// The shares of the lines that are eligible for an order, as far as it wants them.
    fn eligible_shares(&self, order: &Order) -> u32 {
        let eligible = self
            .queues
            .values()
            .take_while(|queue| is_eligible(queue.price, order));
        let mut shares = 0;
        for line in eligible.flat_map(|queue| &queue.lines) {
            shares += line.left;
            if shares >= order.quantity {
                return order.quantity;
            }
        }
        shares
    }

    /// The shares at each queue.
    fn shares(&self) -> impl Iterator<Item = (Price, u64)> {
        self.queues.values().map(|queue| {
            let shares = queue.lines.iter().map(|l| u64::from(l.left)).sum();
            (queue.price, shares)
        })
    }
}

/// Whether a line of the other side at this price can trade with the order.
fn is_eligible(price: Price, order: &Order) -> bool {
    match (order.limit, order.side) {
        (None, _) => true,
        (Some(limit), Side::Buy) => price <= limit,
        (Some(limit), Side::Sell) => price >= limit,
    }
}

#[derive(Debug)]
pub struct Book {
    kind: Kind,
    status: Status,
    reference: Price,
    next_number: u32,
    last_trade_price: Option<Price>,
    buyers: Lines,
    sellers: Lines,
    /// Where each line stands, by its number.
    index: HashMap<u32, (Side, Place)>,
}

impl Book {
    pub fn start(kind: Kind, reference: Price) -> Book {
        Book {
            kind,
            status: Status::PreOpen,
            reference,
            next_number: 1,
            last_trade_price: None,
            buyers: Lines::default(),
            sellers: Lines::default(),
            index: HashMap::new(),
        }
    }

    pub fn status(&self) -> Status {
        self.status
    }

    /// How many lines are in the book.
    pub fn lines(&self) -> usize {
        self.buyers.count + self.sellers.count
    }

    pub fn join(&mut self, order: &PlainOrder) -> Result<Answer, Refusal> {
        self.take_turn(&[Status::PreOpen])?;
        self.check_number()?;
        self.check_band(order.limit)?;
        if self.lines() >= PLACES {
            return Err(Refusal::Full);
        }
        let number = self.give_number();
        self.rest(
            order.side,
            order.limit,
            order.capacity,
            number,
            order.quantity,
        );
        Ok(Answer {
            number,
            traded: 0,
            resting: order.quantity,
            lapsed: 0,
        })
    }

    pub fn enter(&mut self, order: &Order, tape: &mut Tape) -> Result<Answer, Refusal> {
        self.take_turn(&[Status::Running])?;
        self.check_number()?;
        if let Some(limit) = order.limit {
            self.check_band(limit)?;
        }
        let other = self.side(order.side.other());
        if order.limit.is_none() && other.count == 0 {
            return Err(Refusal::Empty);
        }
        if tape.free() < other.count {
            return Err(Refusal::Tape);
        }
        let eligible = other.eligible_shares(order);
        if eligible < order.minimum {
            return Err(Refusal::Shortfall);
        }
        let rests = order.qualifier == Qualifier::None;
        if self.lines() >= PLACES && rests && eligible == 0 {
            return Err(Refusal::Full);
        }

        let number = self.give_number();
        let killed = order.qualifier == Qualifier::FillOrKill && eligible < order.quantity;
        let traded = if killed { 0 } else { eligible };
        let own_last_price = self.trade(number, order.side, traded, tape);
        self.last_trade_price = own_last_price.or(self.last_trade_price);

        let left = order.quantity - traded;
        let mut answer = Answer {
            number,
            traded,
            resting: 0,
            lapsed: left,
        };
        // A market order that rests has traded.
        if rests
            && left > 0
            && let Some(price) = order.limit.or(own_last_price)
        {
            self.rest(order.side, price, order.capacity, number, left);
            (answer.resting, answer.lapsed) = (left, 0);
        }
        Ok(answer)
    }

    /// Takes a line out and answers the shares it had left.
    pub fn withdraw(&mut self, number: u32) -> Result<u32, Refusal> {
        self.take_turn(&[Status::PreOpen, Status::Running, Status::Halted])?;
        let (side, place) = self.index.remove(&number).ok_or(Refusal::Unknown)?;
        let line = self.side_mut(side).remove(place, number);
        Ok(line.ok_or(Refusal::Unknown)?.left)
    }

    /// The levels, the highest price first.
    pub fn sheet(&self) -> Result<Vec<Level>, Refusal> {
        self.take_turn(&[Status::PreOpen, Status::Calling])?;
        if SHEET_PLACES < self.lines() {
            return Err(Refusal::Sheet);
        }
        Ok(self.levels())
    }

    pub fn call(&mut self) -> Result<(), Refusal> {
        self.take_turn(&[Status::PreOpen])?;
        self.status = Status::Calling;
        Ok(())
    }

    pub fn open(&mut self, tape: &mut Tape) -> Result<Opening, Refusal> {
        self.take_turn(&[Status::Calling])?;
        if tape.free() < self.lines() {
            return Err(Refusal::Tape);
        }
        let opening = opening_price(&self.levels(), self.reference);
        self.pair(&opening, tape);
        if opening.volume > 0 {
            self.last_trade_price = Some(opening.price);
        }
        self.status = Status::Running;
        Ok(opening)
    }

    pub fn halt(&mut self) -> Result<(), Refusal> {
        self.take_turn(&[Status::Running])?;
        self.status = Status::Halted;
        Ok(())
    }

    pub fn resume(&mut self) -> Result<(), Refusal> {
        self.take_turn(&[Status::Halted])?;
        self.status = Status::Running;
        Ok(())
    }

    pub fn close(&mut self) -> Result<Closing, Refusal> {
        self.take_turn(&[Status::Calling, Status::Running, Status::Halted])?;
        let lapsed = self.buyers.shares().chain(self.sellers.shares());
        let closing = Closing {
            price: self.last_trade_price.unwrap_or(self.reference),
            lapsed: lapsed.map(|(_, shares)| shares).sum(),
        };
        self.buyers = Lines::default();
        self.sellers = Lines::default();
        self.index.clear();
        self.status = Status::Closed;
        Ok(closing)
    }

    fn take_turn(&self, takers: &[Status]) -> Result<(), Refusal> {
        if takers.contains(&self.status) {
            Ok(())
        } else {
            Err(Refusal::Turn)
        }
    }

    fn check_number(&self) -> Result<(), Refusal> {
        if self.next_number > LAST_NUMBER {
            return Err(Refusal::Spent);
        }
        Ok(())
    }

    fn check_band(&self, limit: Price) -> Result<(), Refusal> {
        if 10 * limit.distance(self.reference) > self.reference.units() {
            return Err(Refusal::Band);
        }
        Ok(())
    }

    fn give_number(&mut self) -> u32 {
        let number = self.next_number;
        self.next_number += 1;
        number
    }

    fn side(&self, side: Side) -> &Lines {
        match side {
            Side::Buy => &self.buyers,
            Side::Sell => &self.sellers,
        }
    }

    fn side_mut(&mut self, side: Side) -> &mut Lines {
        match side {
            Side::Buy => &mut self.buyers,
            Side::Sell => &mut self.sellers,
        }
    }

    fn rest(&mut self, side: Side, price: Price, capacity: Capacity, number: u32, left: u32) {
        let units = i64::from(price.units());
        let place = Place {
            rank: match side {
                Side::Buy => -units,
                Side::Sell => units,
            },
            capacity: match self.kind {
                Kind::Time => Capacity::Investor,
                Kind::Capacity => capacity,
            },
        };
        self.index.insert(number, (side, place));
        self.side_mut(side).add(place, price, Line { number, left });
    }

    /// Trades that many shares of a new order with the other side's first lines, and answers the last price.
    fn trade(&mut self, number: u32, side: Side, shares: u32, tape: &mut Tape) -> Option<Price> {
        let others = match side {
            Side::Buy => &mut self.sellers,
            Side::Sell => &mut self.buyers,
        };
        let mut wanted = shares;
        let mut last_price = None;
        while wanted > 0
            && let Some((price, line)) = others.first()
        {
            let quantity = wanted.min(line.left);
            let (buyer, seller) = match side {
                Side::Buy => (number, line.number),
                Side::Sell => (line.number, number),
            };
            tape.trades.push(Trade {
                buyer,
                seller,
                price,
                quantity,
            });
            if let Some(gone) = others.take_off_first(quantity) {
                self.index.remove(&gone);
            }
            wanted -= quantity;
            last_price = Some(price);
        }
        last_price
    }

    /// Pairs buyers with sellers, first with first, until the volume of the opening is reached.
    fn pair(&mut self, opening: &Opening, tape: &mut Tape) {
        let mut wanted = opening.volume;
        while wanted > 0
            && let Some((_, buyer)) = self.buyers.first()
            && let Some((_, seller)) = self.sellers.first()
        {
            // One side has exactly the volume to trade, so no pair goes past it.
            let quantity = buyer.left.min(seller.left);
            tape.trades.push(Trade {
                buyer: buyer.number,
                seller: seller.number,
                price: opening.price,
                quantity,
            });
            for side in [&mut self.buyers, &mut self.sellers] {
                if let Some(gone) = side.take_off_first(quantity) {
                    self.index.remove(&gone);
                }
            }
            wanted = wanted.saturating_sub(u64::from(quantity));
        }
    }

    fn levels(&self) -> Vec<Level> {
        // The shares of buyers and of sellers at each price.
        let mut at_price: BTreeMap<Price, (u64, u64)> = BTreeMap::new();
        for (price, shares) in self.buyers.shares() {
            at_price.entry(price).or_default().0 += shares;
        }
        for (price, shares) in self.sellers.shares() {
            at_price.entry(price).or_default().1 += shares;
        }
        let mut demand = 0;
        let mut supply = at_price.values().map(|(_, sold)| sold).sum();
        let mut levels = Vec::with_capacity(at_price.len());
        for (price, (bought, sold)) in at_price.into_iter().rev() {
            demand += bought;
            levels.push(Level {
                price,
                demand,
                supply,
            });
            supply -= sold;
        }
        levels
    }
}

/// Chooses among the levels of a sheet, which has the highest price first.
pub fn opening_price(levels: &[Level], reference: Price) -> Opening {
    let volume = levels.iter().map(Level::volume).max().unwrap_or(0);
    let chosen = |level: &Level, test| Opening {
        price: level.price,
        volume,
        test: Some(test),
    };
    let nothing = Opening {
        price: reference,
        volume: 0,
        test: None,
    };
    if volume == 0 {
        return nothing;
    }

    let mut remain: Vec<&Level> = levels.iter().filter(|l| l.volume() == volume).collect();
    if let [level] = remain[..] {
        return chosen(level, 1);
    }

    let excess = |l: &&Level| l.imbalance().unsigned_abs();
    let least = remain.iter().map(excess).min();
    remain.retain(|l| Some(excess(l)) == least);
    if let [level] = remain[..] {
        return chosen(level, 2);
    }

    let highest_with_buyers = remain.iter().find(|l| l.imbalance() > 0);
    let lowest_with_sellers = remain.iter().rfind(|l| l.imbalance() < 0);
    // The nearer is the lower, and at equal distance the higher price is.
    let nearness = |l: &&&Level| (l.price.distance(reference), Reverse(l.price));
    match (highest_with_buyers, lowest_with_sellers) {
        (Some(level), None) | (None, Some(level)) => chosen(level, 3),
        (Some(one), Some(other)) => {
            let nearer = if nearness(&one) < nearness(&other) {
                one
            } else {
                other
            };
            chosen(nearer, 4)
        }
        (None, None) => match remain.iter().min_by_key(nearness) {
            Some(level) => chosen(level, 5),
            None => nothing,
        },
    }
}
