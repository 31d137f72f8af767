//! Questions on standard input, one a line, each answered by a line of
//! hexadecimal.

use crate::hex;
use std::io::{self, BufRead, Write};

/// Answers all lines, and then prints the answers: a line that is no question
/// ends it without any.
pub fn answer_all(answer: impl Fn(&str) -> Option<Vec<u8>>) -> Result<(), String> {
    let mut out = String::new();
    for line in io::stdin().lock().lines() {
        let line = line.map_err(|error| format!("cannot read: {error}"))?;
        let result = answer(&line).ok_or_else(|| format!("no question: {line}"))?;
        out += &hex::show(&result);
        out.push('\n');
    }
    io::stdout()
        .write_all(out.as_bytes())
        .map_err(|error| format!("cannot write: {error}"))
}
