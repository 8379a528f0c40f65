//! Runs the two programs that are compared.

use std::io::Write;
use std::process::{Command, Stdio};

/// What a program prints for an input, or why it failed.
pub fn run(program: &str, command: &str, input: &[u8]) -> Result<Vec<u8>, String> {
    let mut child = Command::new(program)
        .arg(command)
        .stdin(Stdio::piped())
        .stdout(Stdio::piped())
        .spawn()
        .map_err(|e| format!("{program} cannot be started: {e}"))?;
    let stdin = child.stdin.take();
    let output = std::thread::scope(|scope| {
        scope.spawn(move || {
            // A program that stops reading is told by its status or its output.
            stdin.map(|mut pipe| pipe.write_all(input))
        });
        child.wait_with_output()
    });
    let output = output.map_err(|e| format!("{program} {command}: {e}"))?;
    if !output.status.success() {
        return Err(format!("{program} {command} ended with {}", output.status));
    }
    Ok(output.stdout)
}

/// The numbers that the words spell, if all do.
pub fn numbers(words: &[String]) -> Option<Vec<u64>> {
    words.iter().map(|w| w.parse().ok()).collect()
}
