//! Plays the same days in two programs, at both kinds of line, and says how many reports were alike.
//!
//! days FIRST SECOND COUNT SEED..   for each seed, COUNT days and some long ones
//! days write KIND COUNT SEED       writes one day of COUNT records to standard output

use second::book::Kind as LineKind;
use second::day::{Day, Event};
use second::days::{Kind, day};
use second::files::Random;
use second::programs::{numbers, run};
use second::record::RECORD_BYTES;
use second::refusal;
use std::collections::BTreeMap;
use std::io::Write;
use std::process::ExitCode;

/// The kinds of the COUNT days of a seed, over and over.
const ROUND: [Kind; 10] = [
    Kind::Ties,
    Kind::Mixed,
    Kind::Damaged,
    Kind::Ties,
    Kind::Mixed,
    Kind::Damaged,
    Kind::Ties,
    Kind::Mixed,
    Kind::Ties,
    Kind::Deep,
];

/// The long days of a seed.
const LONG: [Kind; 6] = [
    Kind::Full,
    Kind::Full,
    Kind::Full,
    Kind::Full,
    Kind::Spent,
    Kind::SpentEarly,
];

/// How often each refusal and each test has to occur.
const ENOUGH: u64 = 20;

/// The numbers of the refusals that no file reaches: TAPE and SHEET. A tape and a sheet have a place for each line.
const OUT_OF_REACH: [u64; 2] = [12, 15];

/// What was seen on all days.
#[derive(Default)]
struct Counts {
    days: BTreeMap<Kind, (u64, u64)>,
    refusals: BTreeMap<u64, u64>,
    /// The openings that each test decided, by its number.
    tests: BTreeMap<u32, u64>,
    /// The openings in which nothing traded.
    openings_at_reference: u64,
}

impl Counts {
    /// Counts the refusals that a report names.
    fn count_refusals(&mut self, report: &[u8]) {
        for line in String::from_utf8_lossy(report).lines() {
            let mut words = line.split(' ').skip(1);
            if words.next() == Some("refused")
                && let Some(Ok(number)) = words.next().map(str::parse)
            {
                *self.refusals.entry(number).or_default() += 1;
            }
        }
    }

    /// Counts which tests decided the openings of a day. They are the same at both kinds of line.
    fn count_tests(&mut self, file: &[u8]) {
        let mut day = Day::new(LineKind::Time);
        for record in file.chunks(RECORD_BYTES) {
            if let Ok(Event::Opening(_, opening, _)) = day.play(record) {
                match opening.test {
                    Some(test) => *self.tests.entry(test).or_default() += 1,
                    None => self.openings_at_reference += 1,
                }
            }
        }
    }

    /// Prints the counts and answers whether all is well.
    fn print(&self) -> bool {
        let mut well = true;
        let mut row = |count: u64, what: String, needed: bool| {
            let few = needed && count < ENOUGH;
            let note = if few { " (too few)" } else { "" };
            println!("{count:>8} {what}{note}");
            well &= !few;
        };
        for (number, word) in (1..).zip(refusal::WORDS) {
            let count = self.refusals.get(&number).copied().unwrap_or(0);
            let needed = !OUT_OF_REACH.contains(&number);
            row(count, format!("refused {number} {word}"), needed);
        }
        for test in 1..=5 {
            let count = self.tests.get(&test).copied().unwrap_or(0);
            row(count, format!("openings decided by test {test}"), true);
        }
        row(
            self.openings_at_reference,
            "openings without a trade".to_string(),
            false,
        );
        let (mut alike, mut all) = (0, 0);
        for (kind, (kind_alike, kind_all)) in &self.days {
            println!("{:>12}: {kind_alike} of {kind_all} alike", kind.name());
            alike += kind_alike;
            all += kind_all;
        }
        println!("{alike} of {all} days alike at both kinds of line");
        well && alike == all
    }
}

/// Tells the first line in which two reports differ.
fn tell_difference(a: &[u8], b: &[u8]) {
    let (a, b) = (String::from_utf8_lossy(a), String::from_utf8_lossy(b));
    let (mut a, mut b) = (a.split('\n'), b.split('\n'));
    loop {
        match (a.next(), b.next()) {
            (None, None) => return,
            (x, y) if x == y => {}
            (x, y) => {
                println!("  first:  {}", x.unwrap_or("(ends)"));
                println!("  second: {}", y.unwrap_or("(ends)"));
                return;
            }
        }
    }
}

/// Plays a day in both programs and answers whether all reports were alike.
fn play(programs: [&str; 2], file: &[u8], name: &str, counts: &mut Counts) -> bool {
    let mut alike = true;
    for command in ["time", "capacity"] {
        match programs.map(|program| run(program, command, file)) {
            [Ok(a), Ok(b)] => {
                if a != b {
                    println!("{name}, {command}: the two programs differ");
                    tell_difference(&a, &b);
                    alike = false;
                }
                counts.count_refusals(&b);
            }
            [Err(why), _] | [_, Err(why)] => {
                println!("{name}, {command}: {why}");
                alike = false;
            }
        }
    }
    alike
}

fn compare(programs: [&str; 2], count: u64, seeds: &[u64]) -> bool {
    let mut counts = Counts::default();
    for seed in seeds {
        let mut random = Random::new(*seed);
        let round = ROUND.iter().cycle().take(count as usize);
        for kind in round.chain(&LONG) {
            let (records, day_seed) = (kind.records(&mut random), random.number());
            let file = day(*kind, records, day_seed);
            let name = format!("days write {} {records} {day_seed}", kind.name());
            let alike = play(programs, &file, &name, &mut counts);
            counts.count_tests(&file);
            let (kind_alike, kind_all) = counts.days.entry(*kind).or_default();
            *kind_alike += u64::from(alike);
            *kind_all += 1;
        }
    }
    counts.print()
}

fn write(kind: Kind, records: u64, seed: u64) -> ExitCode {
    match std::io::stdout().write_all(&day(kind, records, seed)) {
        Ok(()) => ExitCode::SUCCESS,
        Err(error) => {
            eprintln!("days: {error}");
            ExitCode::FAILURE
        }
    }
}

fn main() -> ExitCode {
    let words: Vec<String> = std::env::args().skip(1).collect();
    if let [command, kind, rest @ ..] = &words[..]
        && command == "write"
        && let Some(kind) = Kind::from_name(kind)
        && let Some([records, seed]) = numbers(rest).as_deref()
    {
        return write(kind, *records, *seed);
    }
    if let [first, second, rest @ ..] = &words[..]
        && let Some([count, seeds @ ..]) = numbers(rest).as_deref()
        && !seeds.is_empty()
    {
        return if compare([first, second], *count, seeds) {
            ExitCode::SUCCESS
        } else {
            ExitCode::FAILURE
        };
    }
    let kinds = Kind::ALL.map(Kind::name).join("|");
    eprintln!("usage: days FIRST SECOND COUNT SEED..\n       days write {kinds} COUNT SEED > FILE");
    ExitCode::FAILURE
}
