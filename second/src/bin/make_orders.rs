//! Makes an order file from text: a line for each record, as in examples/.

use std::io::{Read, Write};
use std::process::ExitCode;

fn main() -> ExitCode {
    let mut text = String::new();
    if std::io::stdin().read_to_string(&mut text).is_err() {
        eprintln!("make_orders: standard input is no text");
        return ExitCode::FAILURE;
    }
    match second::text::orders(&text) {
        Ok(file) => {
            std::io::stdout()
                .write_all(&file)
                .expect("standard output can be written");
            ExitCode::SUCCESS
        }
        Err(why) => {
            eprintln!("make_orders: {why}");
            ExitCode::FAILURE
        }
    }
}
