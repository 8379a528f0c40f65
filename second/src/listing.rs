//! The listing of an order file.

use crate::record::{Capacity, RECORD_BYTES, Record};
use std::io::{Result, Write};

pub fn write(file: &[u8], out: &mut impl Write) -> Result<()> {
    let (mut accepted, mut refused) = (0, 0);
    for (index, bytes) in file.chunks(RECORD_BYTES).enumerate() {
        match Record::read(bytes) {
            Ok(record) => {
                accepted += 1;
                write_record(index, &record, out)?;
            }
            Err(refusal) => {
                refused += 1;
                writeln!(out, "{index} {refusal}")?;
            }
        }
    }
    writeln!(out, "{accepted} accepted, {refused} refused")
}

fn write_record(index: usize, record: &Record, out: &mut impl Write) -> Result<()> {
    match record {
        Record::Start(reference) => writeln!(out, "{index} start at reference {reference}"),
        Record::Entry(order, account) => {
            let capacity = match order.capacity {
                Capacity::Investor => "investor",
                Capacity::Dealer => "dealer",
            };
            write!(out, "{index} entry: {order}, {capacity}, account ")?;
            out.write_all(account)?;
            writeln!(out)
        }
        Record::Withdrawal(number) => writeln!(out, "{index} withdrawal of {number}"),
        Record::Opening => writeln!(out, "{index} opening"),
        Record::Halt => writeln!(out, "{index} halt"),
        Record::Resumption => writeln!(out, "{index} resumption"),
        Record::Closing => writeln!(out, "{index} closing"),
    }
}
