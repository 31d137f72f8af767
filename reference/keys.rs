//! The command `keys`: diversified keys for lines of master key and ID.

use crate::hex;
use crate::mac::{diversified_key, Cipher};
use std::io::{self, BufRead, Write};

/// A master key of 24 bytes and an ID of 16, parted by exactly one space.
fn parse(line: &[u8]) -> Option<(Vec<u8>, Vec<u8>)> {
    let fields: Vec<&[u8]> = line.split(|&byte| byte == b' ').collect();
    match fields.as_slice() {
        [key, id] if key.len() == 48 && id.len() == 32 => Some((hex::read(key)?, hex::read(id)?)),
        _ => None,
    }
}

pub fn run() -> Result<(), String> {
    let mut out = io::stdout().lock();
    let mut bad = 0;
    // Lines are read as bytes: one that is no text is a bad line like others.
    for (index, line) in io::stdin().lock().split(b'\n').enumerate() {
        let line = line.map_err(|error| format!("cannot read: {error}"))?;
        if let Some((key, id)) = parse(&line) {
            let made = diversified_key(Cipher::Tdes3, &key, &id);
            writeln!(out, "{} {}", hex::show(&id), hex::show(&made))
                .map_err(|error| format!("cannot write: {error}"))?;
        } else {
            // The line itself is not shown, since it may hold a master key.
            eprintln!("reference: line {} is bad", index + 1);
            bad += 1;
        }
    }
    out.flush()
        .map_err(|error| format!("cannot write: {error}"))?;
    match bad {
        0 => Ok(()),
        _ => Err(format!("bad lines: {bad}")),
    }
}
