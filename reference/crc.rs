//! The check at the end of a frame.

const GENERATOR: u16 = 0x1021;

/// From 0, highest bit first, with nothing done at the end. Bit by bit: a table
/// would be faster, but a mistake in it harder to see.
pub fn crc(bytes: &[u8]) -> u16 {
    bytes.iter().fold(0, |rest, &byte| {
        (0..8).fold(rest ^ u16::from(byte) << 8, |rest, _| shift(rest))
    })
}

fn shift(rest: u16) -> u16 {
    let shifted = rest << 1;
    if rest & 0x8000 == 0 {
        shifted
    } else {
        shifted ^ GENERATOR
    }
}
