//! The second program: lists an order file, or plays the day in it and prints its report.
//! It is written from the documents in docs/ alone and is here to be compared with the proved program.

use second::book::Kind;
use second::{day, listing};
use std::io::{BufWriter, Read, Result, Write};
use std::process::ExitCode;

#[derive(Clone, Copy)]
enum Command {
    Check,
    Play(Kind),
}

fn command() -> Option<Command> {
    let mut words = std::env::args_os().skip(1);
    let (word, more) = (words.next()?, words.next());
    match (word.to_str()?, more) {
        ("check", None) => Some(Command::Check),
        ("time", None) => Some(Command::Play(Kind::Time)),
        ("capacity", None) => Some(Command::Play(Kind::Capacity)),
        _ => None,
    }
}

fn run(command: Command) -> Result<()> {
    let mut file = Vec::new();
    std::io::stdin().lock().read_to_end(&mut file)?;
    let mut out = BufWriter::with_capacity(1 << 16, std::io::stdout().lock());
    match command {
        Command::Check => listing::write(&file, &mut out)?,
        Command::Play(kind) => day::report(&file, kind, &mut out)?,
    }
    out.flush()
}

fn main() -> ExitCode {
    let Some(command) = command() else {
        eprintln!("usage: second check|time|capacity < FILE");
        return ExitCode::FAILURE;
    };
    match run(command) {
        Ok(()) => ExitCode::SUCCESS,
        Err(error) => {
            eprintln!("second: {error}");
            ExitCode::FAILURE
        }
    }
}
