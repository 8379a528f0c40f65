//! Runs two programs on the same order files and says how many answers were alike.
//!
//! compare FIRST SECOND FILES SEED..   runs both on FILES generated files for each seed
//! compare write RECORDS SEED          writes one generated file of that many records to standard output

use second::files::{Random, file};
use second::programs::{numbers, run};
use second::refusal;
use std::collections::BTreeMap;
use std::io::Write;
use std::process::ExitCode;

/// How many refusals belong to the two layers that look at a record alone. They come first.
const RECORD_REFUSALS: usize = 7;

/// Counts what the lines of a listing say.
fn count(listing: &[u8], counts: &mut BTreeMap<String, u64>) {
    for line in String::from_utf8_lossy(listing).lines() {
        let words: Vec<&str> = line.split(' ').collect();
        let key = match words[1] {
            "refused" => words[3].trim_end_matches(','),
            "accepted," => continue,
            word => word.trim_end_matches(':'),
        };
        *counts.entry(key.to_string()).or_default() += 1;
    }
}

fn compare(first: &str, second: &str, files: u64, seeds: &[u64]) -> bool {
    let mut counts = BTreeMap::new();
    let (mut alike, mut all) = (0, 0);
    for seed in seeds {
        let mut random = Random::new(*seed);
        for index in 0..files {
            let input = file(&mut random, 40);
            let (a, b) = (run(first, "check", &input), run(second, "check", &input));
            all += 1;
            match (a, b) {
                (Ok(a), Ok(b)) => {
                    if a == b {
                        alike += 1;
                    } else {
                        println!("seed {seed}, file {index}: the two programs differ");
                    }
                    count(&b, &mut counts);
                }
                (Err(why), _) | (_, Err(why)) => println!("seed {seed}, file {index}: {why}"),
            }
        }
    }
    for (word, n) in &counts {
        println!("{n:>8} {word}");
    }
    println!("{alike} of {all} files alike");
    let mut missed = refusal::WORDS[..RECORD_REFUSALS].to_vec();
    missed.retain(|w| !counts.contains_key(*w));
    if !missed.is_empty() {
        println!("never reached: {missed:?}");
    }
    alike == all && missed.is_empty()
}

fn main() -> ExitCode {
    let words: Vec<String> = std::env::args().skip(1).collect();
    if let [command, rest @ ..] = &words[..]
        && command == "write"
        && let Some([records, seed]) = numbers(rest).as_deref()
    {
        let mut random = Random::new(*seed);
        let mut bytes = Vec::new();
        while (bytes.len() as u64) < 32 * records {
            bytes.extend(file(&mut random, 40));
            bytes.truncate(bytes.len() / 32 * 32);
        }
        bytes.truncate(32 * *records as usize);
        bytes.extend(b"tail");
        std::io::stdout()
            .write_all(&bytes)
            .expect("standard output can be written");
        return ExitCode::SUCCESS;
    }
    if let [first, second, rest @ ..] = &words[..]
        && let Some([files, seeds @ ..]) = numbers(rest).as_deref()
        && !seeds.is_empty()
    {
        return if compare(first, second, *files, seeds) {
            ExitCode::SUCCESS
        } else {
            ExitCode::FAILURE
        };
    }
    eprintln!("usage: compare FIRST SECOND FILES SEED..\n       compare write RECORDS SEED > FILE");
    ExitCode::FAILURE
}
