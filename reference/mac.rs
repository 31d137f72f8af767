//! The ciphers under one name, and the tags and keys made with them.

use crate::{des, xtea};

pub type Block = [u8; 8];

#[derive(Clone, Copy)]
pub enum Cipher {
    Tdes2,
    Tdes3,
    Xtea,
}

impl Cipher {
    pub fn key_len(self) -> usize {
        match self {
            Cipher::Tdes2 | Cipher::Xtea => 16,
            Cipher::Tdes3 => 24,
        }
    }

    pub fn encrypt(self, key: &[u8], block: Block) -> Block {
        match self {
            Cipher::Tdes2 => des::encrypt_two(key, block),
            Cipher::Tdes3 => des::encrypt_three(key, block),
            Cipher::Xtea => xtea::encrypt(key, block),
        }
    }
}

/// Eight bytes as a block.
pub fn block(bytes: &[u8]) -> Block {
    bytes.try_into().expect("a block has eight bytes")
}

/// Eight bytes in reverse order: the card's byte order is the cipher's reversed.
pub fn reversed(bytes: &[u8]) -> Block {
    let mut out = block(bytes);
    out.reverse();
    out
}

fn xor(left: Block, right: Block) -> Block {
    std::array::from_fn(|i| left[i] ^ right[i])
}

/// The chained tag of Sony's FeliCa Lite-S User's Manual.
pub fn chain_tag(cipher: Cipher, key: &[u8], start: Block, text: &[u8]) -> Block {
    let mut value = start;
    for group in text.chunks(8) {
        value = cipher.encrypt(key, xor(value, reversed(group)));
    }
    reversed(&value)
}

/// The session keys SK1 and SK2, joined, of Sony's FeliCa Lite-S User's Manual.
pub fn session_keys(cipher: Cipher, ck: &[u8], rc: &[u8]) -> Vec<u8> {
    let key = [reversed(&ck[..8]), reversed(&ck[8..])].concat();
    let sk1 = cipher.encrypt(&key, reversed(&rc[..8]));
    let sk2 = cipher.encrypt(&key, xor(reversed(&rc[8..]), sk1));
    [sk1, sk2].concat()
}

/// Twice a block in the field of NIST SP 800-38B for eight-byte blocks.
fn doubled(value: Block) -> Block {
    let number = u64::from_be_bytes(value);
    let carry = if number >> 63 == 1 { 0x1B } else { 0 };
    (number << 1 ^ carry).to_be_bytes()
}

/// CMAC (NIST SP 800-38B).
pub fn cmac(cipher: Cipher, key: &[u8], message: &[u8]) -> Block {
    let subkey_1 = doubled(cipher.encrypt(key, [0; 8]));
    let subkey_2 = doubled(subkey_1);

    // The last group is always taken apart: a whole one gets the first subkey,
    // a short one (or none, of an empty message) is padded and gets the second.
    let split = message.len().saturating_sub(1) / 8 * 8;
    let (before, last) = message.split_at(split);
    let last = if last.len() == 8 {
        xor(block(last), subkey_1)
    } else {
        let mut padded = [0; 8];
        padded[..last.len()].copy_from_slice(last);
        padded[last.len()] = 0x80;
        xor(padded, subkey_2)
    };

    let mut value = [0; 8];
    for group in before.chunks(8) {
        value = cipher.encrypt(key, xor(value, block(group)));
    }
    cipher.encrypt(key, xor(value, last))
}

/// A card's own 16-byte key: two tags, of its ID and of the ID with its first
/// bit flipped, since one tag is only half a key.
pub fn diversified_key(cipher: Cipher, key: &[u8], id: &[u8]) -> Vec<u8> {
    let mut other = id.to_vec();
    other[0] ^= 0x80;
    [cmac(cipher, key, id), cmac(cipher, key, &other)].concat()
}
