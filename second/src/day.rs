//! A day played record by record, and its report.

use crate::book::{Answer, Book, Closing, Kind, Level, Opening, Status, Tape, Trade};
use crate::record::{Capacity, Order, Price, RECORD_BYTES, Record};
use crate::refusal::Refusal;
use std::fmt::Display;
use std::io::{Result as IoResult, Write};

/// What an accepted record did.
#[derive(Debug)]
pub enum Event {
    Start(Price),
    Entry(Order, Answer, Vec<Trade>),
    Withdrawal { number: u32, shares: u32 },
    Opening(Vec<Level>, Opening, Vec<Trade>),
    Halt,
    Resumption,
    Closing(Closing),
}

/// A day in which records are played on one book.
#[derive(Debug)]
pub struct Day {
    kind: Kind,
    book: Option<Book>,
}

impl Day {
    pub fn new(kind: Kind) -> Day {
        Day { kind, book: None }
    }

    pub fn play(&mut self, bytes: &[u8]) -> Result<Event, Refusal> {
        let record = Record::read(bytes)?;
        match (record, &mut self.book) {
            (Record::Start(reference), None) => {
                self.book = Some(Book::start(self.kind, reference));
                Ok(Event::Start(reference))
            }
            (Record::Start(_), Some(_)) | (_, None) => Err(Refusal::Turn),
            (Record::Entry(order, _), Some(book)) => enter(book, order),
            (Record::Withdrawal(number), Some(book)) => {
                let shares = book.withdraw(number)?;
                Ok(Event::Withdrawal { number, shares })
            }
            (Record::Opening, Some(book)) => open(book),
            (Record::Halt, Some(book)) => book.halt().map(|()| Event::Halt),
            (Record::Resumption, Some(book)) => book.resume().map(|()| Event::Resumption),
            (Record::Closing, Some(book)) => close(book).map(Event::Closing),
        }
    }

    /// Closes a started book that is not closed yet.
    pub fn end(&mut self) -> Option<Closing> {
        self.book.as_mut().and_then(|book| close(book).ok())
    }
}

fn enter(book: &mut Book, order: Order) -> Result<Event, Refusal> {
    let mut tape = Tape::new();
    let answer = if book.status() == Status::PreOpen {
        book.join(&order.plain().ok_or(Refusal::Turn)?)?
    } else {
        book.enter(&order, &mut tape)?
    };
    Ok(Event::Entry(order, answer, tape.into_trades()))
}

fn open(book: &mut Book) -> Result<Event, Refusal> {
    let mut tape = Tape::new();
    if book.status() == Status::PreOpen {
        if tape.free() < book.lines() {
            return Err(Refusal::Tape);
        }
        book.call()?;
    }
    let sheet = book.sheet()?;
    let opening = book.open(&mut tape)?;
    Ok(Event::Opening(sheet, opening, tape.into_trades()))
}

fn close(book: &mut Book) -> Result<Closing, Refusal> {
    if book.status() == Status::PreOpen {
        book.call()?;
    }
    book.close()
}

/// Plays the day in an order file and writes its report.
pub fn report(file: &[u8], kind: Kind, out: &mut impl Write) -> IoResult<()> {
    let mut day = Day::new(kind);
    for (index, bytes) in file.chunks(RECORD_BYTES).enumerate() {
        match day.play(bytes) {
            Ok(event) => write_event(index, &event, out)?,
            Err(refusal) => writeln!(out, "{index} {refusal}")?,
        }
    }
    match day.end() {
        Some(closing) => write_closing("end", &closing, out),
        None => Ok(()),
    }
}

fn write_event(index: usize, event: &Event, out: &mut impl Write) -> IoResult<()> {
    match event {
        Event::Start(reference) => writeln!(out, "{index} start at reference {reference}"),
        Event::Entry(order, answer, trades) => {
            let Answer {
                number,
                traded,
                resting,
                lapsed,
            } = answer;
            let capacity = match order.capacity {
                Capacity::Investor => "",
                Capacity::Dealer => ", dealer",
            };
            writeln!(
                out,
                "{index} entry {number}: {order}{capacity}: traded {traded}, waiting {resting}, lapsed {lapsed}"
            )?;
            write_trades(trades, out)
        }
        Event::Withdrawal { number, shares } => {
            writeln!(out, "{index} withdrawal {number}: {shares} shares")
        }
        Event::Opening(sheet, opening, trades) => {
            writeln!(out, "{index} sheet of {} prices", sheet.len())?;
            for level in sheet {
                writeln!(
                    out,
                    "  {} buyers {} sellers {} volume {} imbalance {}",
                    level.price,
                    level.demand,
                    level.supply,
                    level.volume(),
                    level.imbalance()
                )?;
            }
            let Opening { price, volume, .. } = opening;
            writeln!(out, "{index} opening at {price}, volume {volume}")?;
            write_trades(trades, out)
        }
        Event::Halt => writeln!(out, "{index} halt"),
        Event::Resumption => writeln!(out, "{index} resumption"),
        Event::Closing(closing) => write_closing(index, closing, out),
    }
}

fn write_trades(trades: &[Trade], out: &mut impl Write) -> IoResult<()> {
    for trade in trades {
        let Trade {
            buyer,
            seller,
            price,
            quantity,
        } = trade;
        writeln!(
            out,
            "  trade {buyer} buys from {seller}: {quantity} at {price}"
        )?;
    }
    Ok(())
}

fn write_closing(index: impl Display, closing: &Closing, out: &mut impl Write) -> IoResult<()> {
    let Closing { price, lapsed } = closing;
    writeln!(out, "{index} closing at {price}, lapsed {lapsed}")
}
