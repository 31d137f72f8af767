//! The MAC test of Sony's FeliCa Lite-S User's Manual, done with a card: it
//! writes ID and RC and reads ID up to three times with MAC_A.

use crate::card::{Card, READ_ONLY, READ_WRITE};
use crate::card_blocks::cell_of;
use crate::cards::{card, SOUND, STATE_LEN};
use crate::hex;
use crate::vectors::{literal, CARD_KEY, CHALLENGE, DATA_BLOCK, TAGS};

/// A request with an identity of no meaning.
fn packet(code: u8, service: [u8; 2], elements: &[u8], data: &[u8]) -> Vec<u8> {
    let mut packet = [&[code], &[0x00; 8][..], &[0x01], &service].concat();
    packet.push(elements.len() as u8 / 2);
    [&packet, elements, data].concat()
}

/// Writes a block and brings it to its cell, as the journal would.
fn write(card: &mut Card, number: u8, data: &[u8]) -> Result<(), String> {
    let outcome = card.hear(&packet(0x08, READ_WRITE, &[0x80, number], data));
    if let Some(write) = outcome.journal {
        let cell = cell_of(u16::from(write.number)).ok_or("no cell for an example's block")?;
        card.cells[cell] = write.bytes;
    }
    match outcome.reply.last_chunk() {
        Some([0x00, 0x00]) => Ok(()),
        _ => Err(format!("an example's write of {number:02X} was refused")),
    }
}

pub fn run() -> Result<(), String> {
    let mut state = vec![0x00; STATE_LEN];
    state[0] = SOUND;
    let mut card = card(&state);
    write(&mut card, 0x87, &literal(CARD_KEY))?;
    write(&mut card, 0x82, &literal(DATA_BLOCK))?;
    write(&mut card, 0x80, &literal(CHALLENGE))?;
    for (tag, times) in TAGS.into_iter().zip(1..) {
        let list = [[0x80, 0x82].repeat(times), vec![0x80, 0x91]].concat();
        let outcome = card.hear(&packet(0x06, READ_ONLY, &list, &[]));
        let want = DATA_BLOCK.repeat(times) + tag + "0000000000000000";
        if outcome.reply[12..] != literal(&want) {
            let got = hex::show(&outcome.reply);
            return Err(format!("expected a reply that ends in {want}, got {got}"));
        }
    }
    Ok(())
}
