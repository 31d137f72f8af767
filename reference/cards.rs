//! The command `cards`: what a card does with a packet, one question a line.

use crate::card::{Bytes, Card, Outcome, Session, CELLS, CK_CELL, MC_CELL, WCNT_CELL};
use crate::card_blocks::counter_bytes;
use crate::card_example;
use crate::hex;
use crate::mac::Cipher;
use crate::questions::answer_all;

// The bits of the setting byte.
pub const XTEA: u8 = 0x01;
pub const ISSUED: u8 = 0x02;
pub const SOUND: u8 = 0x04;
pub const RC_WRITTEN: u8 = 0x08;
pub const AUTHENTICATED: u8 = 0x10;
pub const POLL_SHUT: u8 = 0x20;
pub const DEAF: u8 = 0x40;

// Where a question's parts start: the setting byte, then these.
pub const MC_AT: usize = 1;
pub const COUNTER_AT: usize = 17;
const CK_AT: usize = 20;
pub const RC_AT: usize = 36;
const FILL_AT: usize = 52;
/// The packet follows.
pub const STATE_LEN: usize = 53;

fn sixteen(bytes: &[u8]) -> Bytes {
    bytes[..16].try_into().expect("sixteen bytes are taken")
}

/// Cells up to CK hold the numbers that follow the fill byte, each its own.
fn cells(state: &[u8]) -> [Bytes; CELLS] {
    let fill = state[FILL_AT];
    let mut cells: [Bytes; CELLS] =
        std::array::from_fn(|i| std::array::from_fn(|j| fill.wrapping_add((16 * i + j) as u8)));
    cells[CK_CELL] = sixteen(&state[CK_AT..]);
    cells[MC_CELL] = sixteen(&state[MC_AT..]);
    cells[WCNT_CELL] = [0; 16];
    cells[WCNT_CELL][..3].copy_from_slice(&state[COUNTER_AT..CK_AT]);
    cells
}

/// The card that the first bytes of a question describe.
pub fn card(state: &[u8]) -> Card {
    let is = |bit| state[0] & bit != 0;
    let cipher = if is(XTEA) {
        Cipher::Xtea
    } else {
        Cipher::Tdes2
    };
    let cells = cells(state);
    let session = Session::new(cipher, &cells[CK_CELL], sixteen(&state[RC_AT..]));
    Card {
        cipher,
        issued: is(ISSUED),
        sound: is(SOUND),
        cells,
        session: is(RC_WRITTEN).then_some(session),
        authenticated: is(AUTHENTICATED),
        poll_shut: is(POLL_SHUT),
        deaf: is(DEAF),
    }
}

fn setting(card: &Card) -> u8 {
    [
        (XTEA, matches!(card.cipher, Cipher::Xtea)),
        (ISSUED, card.issued),
        (SOUND, card.sound),
        (RC_WRITTEN, card.session.is_some()),
        (AUTHENTICATED, card.authenticated),
        (POLL_SHUT, card.poll_shut),
        (DEAF, card.deaf),
    ]
    .into_iter()
    .map(|(bit, is)| if is { bit } else { 0 })
    .sum()
}

/// Place, element, the reply after its length, the setting byte, RC and session
/// keys if RC is written, and then the journal write: 00h, or 01h, the block's
/// number and bytes, and the counter.
fn shown(card: &Card, outcome: &Outcome) -> Vec<u8> {
    let mut out = vec![outcome.place, outcome.element, outcome.reply.len() as u8];
    out.extend(&outcome.reply);
    out.push(setting(card));
    if let Some(session) = &card.session {
        out.extend(session.rc);
        out.extend(&session.keys);
    }
    match &outcome.journal {
        None => out.push(0x00),
        Some(write) => {
            out.extend([0x01, write.number]);
            out.extend(write.bytes);
            out.extend(counter_bytes(write.counter));
        }
    }
    out
}

fn answer(line: &str) -> Option<Vec<u8>> {
    let question = hex::read(line.as_bytes())?;
    let (state, packet) = question.split_at_checked(STATE_LEN)?;
    if packet.is_empty() || state[0] & 0x80 != 0 {
        return None;
    }
    let mut card = card(state);
    let outcome = card.hear(packet);
    Some(shown(&card, &outcome))
}

pub fn run() -> Result<(), String> {
    // The manual's reads of ID with its tags: the other answers lean on them.
    card_example::run()?;
    answer_all(answer)
}
