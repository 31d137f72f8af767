//! An independent reference for the ciphers, tags, keys, frames and cards of the
//! verified program. It is written from the public standards and the card's rules
//! alone and made to be read, so that a difference between the two programs means
//! a mistake in one.

mod card;
mod card_blocks;
mod card_example;
mod card_lines;
mod card_mac_lines;
mod card_packets;
mod card_read;
mod card_read_lines;
mod card_states;
mod card_write;
mod card_write_lines;
mod cards;
mod crc;
mod des;
mod frame;
mod frame_lines;
mod frames;
mod hex;
mod keys;
mod mac;
mod questions;
mod random;
mod vectors;
mod xtea;

use std::ffi::OsString;
use std::process::ExitCode;

fn main() -> ExitCode {
    let arguments: Vec<OsString> = std::env::args_os().skip(1).collect();
    match arguments.as_slice() {
        [command] if command == "vectors" => finish(vectors::run()),
        [command] if command == "frame-lines" => finish(frame_lines::run()),
        [command] if command == "frames" => finish(frames::run()),
        [command] if command == "card-lines" => finish(card_lines::run()),
        [command] if command == "cards" => finish(cards::run()),
        [command] if command == "keys" => finish(keys::run()),
        _ => {
            eprintln!("usage: reference vectors");
            eprintln!("       reference frame-lines");
            eprintln!("       reference frames < LINES");
            eprintln!("       reference card-lines");
            eprintln!("       reference cards < LINES");
            eprintln!("       reference keys < LINES");
            ExitCode::from(2)
        }
    }
}

/// A failed command says why and ends with status 1.
fn finish(outcome: Result<(), String>) -> ExitCode {
    match outcome {
        Ok(()) => ExitCode::SUCCESS,
        Err(message) => {
            eprintln!("reference: {message}");
            ExitCode::from(1)
        }
    }
}
