//! The command `vectors`: published cases, then generated ones.

use crate::hex;
use crate::mac::{block, chain_tag, cmac, diversified_key, reversed, session_keys, Cipher};
use crate::random::Random;
use std::io::{self, Write};

const CASES: usize = 200;
const SHOWN: usize = 10;
pub const SEED: u64 = 0x0123_4567_89AB_CDEF;

const TDES3_KEY: &str = "0123456789ABCDEF23456789ABCDEF01456789ABCDEF0123";
const TDES3_CASES: [(&[u8; 8], &str); 3] = [
    (b"The qufc", "A826FD8CE53B855F"),
    (b"k brown ", "CCE21C8112256FE6"),
    (b"fox jump", "68D5C05DD9B6B900"),
];

const XTEA_KEY: &str = "000102030405060708090A0B0C0D0E0F";
const ZERO_KEY: &str = "00000000000000000000000000000000";
const XTEA_CASES: [(&str, &str, &str); 6] = [
    (XTEA_KEY, "4142434445464748", "497DF3D072612CB5"),
    (XTEA_KEY, "4141414141414141", "E78F2D13744341D8"),
    (XTEA_KEY, "5A5B6E278948D77F", "4141414141414141"),
    (ZERO_KEY, "4142434445464748", "A0390589F8B8EFA5"),
    (ZERO_KEY, "4141414141414141", "ED23375A821A8C2D"),
    (ZERO_KEY, "70E1225D6E4E7655", "4141414141414141"),
];

const CMAC_TEXT: &str = "6BC1BEE22E409F96E93D7E117393172AAE2D8A571E03AC9C9EB76FAC45AF8E51";
const CMAC_TDES3_KEY: &str = "8AA83BF8CBDA10620BC1BF19FBB6CD58BC313D4A371CA8B5";
const CMAC_TDES3_CASES: [(usize, &str); 4] = [
    (0, "B7A688E122FFAF95"),
    (8, "8E8F293136283797"),
    (20, "743DDBE0CE2DC2ED"),
    (32, "33E6B1092400EAE5"),
];
const CMAC_TDES2_KEY: &str = "4CF15134A2850DD58A3D10BA80570D38";
const CMAC_TDES2_CASES: [(usize, &str); 4] = [
    (0, "BD2EBF9A3BA00361"),
    (8, "4FF2AB813C53CE83"),
    (20, "62DD1B471902BD4E"),
    (32, "31B1E431DABC4EB8"),
];

// The example of a MAC test in Sony's FeliCa Lite-S User's Manual.
pub const CARD_KEY: &str = "FFFFFFFFFFFFFFFFFFFFFFFFFFFFFFFF";
pub const CHALLENGE: &str = "F1875A01F9B29E4C06A1CEC4165585CF";
pub const DATA_BLOCK: &str = "299FFA53AB75876E574E102A9416BC8E";
pub const TAGS: [&str; 3] = ["EEF4B0BB5E3B6C8B", "4EC7C55A1729CAAE", "D99AE96E0C482CE4"];

#[derive(Clone, Copy)]
enum Kind {
    Encipher,
    Chain,
    Session,
    Cmac,
    Diversified,
}

// The order matters: a group's place gives the seed of its generator.
const GROUPS: [(&str, Kind, Cipher); 14] = [
    ("tdes2", Kind::Encipher, Cipher::Tdes2),
    ("tdes3", Kind::Encipher, Cipher::Tdes3),
    ("xtea", Kind::Encipher, Cipher::Xtea),
    ("chain-tdes2", Kind::Chain, Cipher::Tdes2),
    ("chain-tdes3", Kind::Chain, Cipher::Tdes3),
    ("chain-xtea", Kind::Chain, Cipher::Xtea),
    ("session-tdes2", Kind::Session, Cipher::Tdes2),
    ("session-xtea", Kind::Session, Cipher::Xtea),
    ("cmac-tdes2", Kind::Cmac, Cipher::Tdes2),
    ("cmac-tdes3", Kind::Cmac, Cipher::Tdes3),
    ("cmac-xtea", Kind::Cmac, Cipher::Xtea),
    ("diversified-tdes2", Kind::Diversified, Cipher::Tdes2),
    ("diversified-tdes3", Kind::Diversified, Cipher::Tdes3),
    ("diversified-xtea", Kind::Diversified, Cipher::Xtea),
];

pub fn literal(digits: &str) -> Vec<u8> {
    hex::read(digits.as_bytes()).expect("a literal of this file is hexadecimal")
}

fn line(name: &str, inputs: &[&[u8]], result: &[u8]) -> String {
    let mut text = name.to_string();
    for field in inputs.iter().chain([&result]) {
        text.push(' ');
        text.push_str(&hex::show(field));
    }
    text.push('\n');
    text
}

/// The line of a published case, or a complaint if we compute something else.
fn published(name: &str, inputs: &[&[u8]], result: &[u8], want: &str) -> Result<String, String> {
    let text = line(&format!("published {name}"), inputs, result);
    if result == literal(want) {
        Ok(text)
    } else {
        Err(format!("expected {want}, got: {}", text.trim_end()))
    }
}

fn published_ciphers() -> Result<String, String> {
    let mut out = String::new();
    let key = literal(TDES3_KEY);
    for (text, want) in TDES3_CASES {
        let result = Cipher::Tdes3.encrypt(&key, *text);
        out += &published("tdes3", &[&key, text], &result, want)?;
    }
    for (key, text, want) in XTEA_CASES {
        let (key, text) = (literal(key), literal(text));
        let result = Cipher::Xtea.encrypt(&key, block(&text));
        out += &published("xtea", &[&key, &text], &result, want)?;
    }
    Ok(out)
}

fn published_cmacs(
    name: &str,
    cipher: Cipher,
    key: &str,
    cases: [(usize, &str); 4],
) -> Result<String, String> {
    let mut out = String::new();
    let (key, text) = (literal(key), literal(CMAC_TEXT));
    for (length, want) in cases {
        let message = &text[..length];
        let result = cmac(cipher, &key, message);
        out += &published(name, &[&key, message], &result, want)?;
    }
    Ok(out)
}

/// The eight bytes before the data: which blocks were read (`82 00` for each of
/// the data blocks, `91 00` for the tag's own), then FFh to the end.
fn number_list(count: usize) -> Vec<u8> {
    let mut list = [0x82, 0x00].repeat(count);
    list.extend([0x91, 0x00]);
    list.resize(8, 0xFF);
    list
}

fn published_tags() -> Result<String, String> {
    let (ck, rc) = (literal(CARD_KEY), literal(CHALLENGE));
    // The manual's session keys have no literal here: the tags confirm them.
    let key = session_keys(Cipher::Tdes2, &ck, &rc);
    let mut out = line("published session-tdes2", &[&ck, &rc], &key);
    let start = reversed(&rc[..8]);
    for (index, want) in TAGS.into_iter().enumerate() {
        let count = index + 1;
        let text = [number_list(count), literal(DATA_BLOCK).repeat(count)].concat();
        let result = chain_tag(Cipher::Tdes2, &key, start, &text);
        out += &published("tag-tdes2", &[&key, &start, &text], &result, want)?;
    }
    Ok(out)
}

/// Draws the inputs of case `i` and computes its result.
fn case(kind: Kind, cipher: Cipher, i: usize, random: &mut Random) -> (Vec<Vec<u8>>, Vec<u8>) {
    // For a session this is ck, which is the key of its cipher.
    let key = random.bytes(cipher.key_len());
    match kind {
        Kind::Encipher => {
            let text = random.bytes(8);
            let result = cipher.encrypt(&key, block(&text)).to_vec();
            (vec![key, text], result)
        }
        Kind::Chain => {
            let start = random.bytes(8);
            let text = random.bytes(8 * (i % 9));
            let result = chain_tag(cipher, &key, block(&start), &text).to_vec();
            (vec![key, start, text], result)
        }
        Kind::Session => {
            let rc = random.bytes(16);
            let result = session_keys(cipher, &key, &rc);
            (vec![key, rc], result)
        }
        Kind::Cmac => {
            let message = random.bytes(i % 41);
            let result = cmac(cipher, &key, &message).to_vec();
            (vec![key, message], result)
        }
        Kind::Diversified => {
            let id = random.bytes(16);
            let result = diversified_key(cipher, &key, &id);
            (vec![key, id], result)
        }
    }
}

/// FNV-1a: cheap to write in any language, and enough to catch a difference.
fn digest(bytes: &[u8]) -> u64 {
    bytes.iter().fold(0xCBF2_9CE4_8422_2325, |hash, &byte| {
        (hash ^ u64::from(byte)).wrapping_mul(0x0100_0000_01B3)
    })
}

/// The first cases whole, the rest by their digest alone.
fn generated(name: &str, kind: Kind, cipher: Cipher, mut random: Random) -> String {
    let mut out = String::new();
    let mut results = Vec::new();
    for i in 0..CASES {
        let (inputs, result) = case(kind, cipher, i, &mut random);
        if i < SHOWN {
            let inputs: Vec<&[u8]> = inputs.iter().map(Vec::as_slice).collect();
            out += &line(name, &inputs, &result);
        }
        results.extend(result);
    }
    out + &format!("{name} {CASES} {:016X}\n", digest(&results))
}

pub fn run() -> Result<(), String> {
    let mut out = published_ciphers()?;
    let (key, cases) = (CMAC_TDES3_KEY, CMAC_TDES3_CASES);
    out += &published_cmacs("cmac-tdes3", Cipher::Tdes3, key, cases)?;
    let (key, cases) = (CMAC_TDES2_KEY, CMAC_TDES2_CASES);
    out += &published_cmacs("cmac-tdes2", Cipher::Tdes2, key, cases)?;
    out += &published_tags()?;
    for (number, (name, kind, cipher)) in (1..).zip(GROUPS) {
        out += &generated(name, kind, cipher, Random::new(SEED + number));
    }
    io::stdout()
        .write_all(out.as_bytes())
        .map_err(|error| format!("cannot write: {error}"))
}
