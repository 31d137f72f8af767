//! The card of one hopper: what it keeps, and what it does with a packet. Cells
//! are written elsewhere: the card says what the journal has to bring there.

use crate::frame::{command, error_at, Command, Refusal, Request};
use crate::mac::{chain_tag, reversed, session_keys, Block, Cipher};

pub type Bytes = [u8; 16];

pub const CELLS: usize = 22;
pub const D_ID_CELL: usize = 16;
pub const CK_CELL: usize = 19;
pub const MC_CELL: usize = 20;
pub const WCNT_CELL: usize = 21;

/// The groups of tests, as a refusal names them.
const IN_FRAME: u8 = 1;
const IN_SERVICE: u8 = 4;
const IN_MEMORY: u8 = 5;
const IN_BLOCKS: u8 = 6;

pub const READ_WRITE: [u8; 2] = [0x09, 0x00];
pub const READ_ONLY: [u8; 2] = [0x0B, 0x00];

pub struct Card {
    pub cipher: Cipher,
    /// The stage: issued, or else still issuing.
    pub issued: bool,
    /// No cell was torn when the card was started.
    pub sound: bool,
    pub cells: [Bytes; CELLS],
    /// Nothing until RC is written.
    pub session: Option<Session>,
    pub authenticated: bool,
    pub poll_shut: bool,
    pub deaf: bool,
}

/// RC, and the session keys SK1 and SK2, joined, that were made when it was
/// written: a later write of CK leaves them as they are.
#[derive(Clone)]
pub struct Session {
    pub rc: Bytes,
    pub keys: Vec<u8>,
}

impl Session {
    pub fn new(cipher: Cipher, ck: &Bytes, rc: Bytes) -> Session {
        let keys = session_keys(cipher, ck, &rc);
        Session { rc, keys }
    }

    /// A chain for data that the card sends.
    pub fn read_tag(&self, cipher: Cipher, text: &[u8]) -> Block {
        chain_tag(cipher, &self.keys, reversed(&self.rc[..8]), text)
    }

    /// A chain for data that the card is sent: SK2 comes first in the key.
    pub fn write_tag(&self, cipher: Cipher, text: &[u8]) -> Block {
        let (sk1, sk2) = self.keys.split_at(8);
        let key = [sk2, sk1].concat();
        chain_tag(cipher, &key, reversed(&self.rc[..8]), text)
    }
}

/// What a packet comes to.
pub struct Outcome {
    /// Where it was refused, 0 if it was not.
    pub place: u8,
    /// The element at fault, from 1; 0 for none.
    pub element: u8,
    /// The packet sent back; empty for silence.
    pub reply: Vec<u8>,
    pub journal: Option<JournalWrite>,
}

/// A block to store, and the counter to store with it.
pub struct JournalWrite {
    pub number: u8,
    pub bytes: Bytes,
    pub counter: u32,
}

/// A request that is carried out.
pub struct Done {
    pub flags: [u8; 2],
    /// What follows the flags in the reply.
    pub data: Vec<u8>,
    pub journal: Option<JournalWrite>,
}

impl Card {
    /// A packet taken to be for this card, whatever identity it carries.
    pub fn hear(&mut self, packet: &[u8]) -> Outcome {
        match command(packet) {
            _ if self.deaf => silence(IN_FRAME),
            Command::Polling { request, .. } if !self.poll_shut => {
                carried_out(self.polled(request))
            }
            Command::Deafen { .. } => {
                self.deaf = true;
                carried_out(Vec::new())
            }
            Command::Read(request) => {
                let result = self.read_request(&request);
                answered(0x07, &request, result)
            }
            Command::Write(request) => {
                let result = self.write_request(&request);
                answered(0x09, &request, result)
            }
            Command::Polling { .. } | Command::None => silence(IN_FRAME),
        }
    }

    /// D_ID is the identity and PMm; request code 01h asks for the system code.
    fn polled(&self, request: u8) -> Vec<u8> {
        let system: &[u8] = if request == 0x01 { &[0x88, 0xB4] } else { &[] };
        [&[0x01], &self.cells[D_ID_CELL][..], system].concat()
    }

    fn read_request(&self, request: &Request) -> Result<Done, Refusal> {
        let blocks = request.blocks.as_ref().map_err(Refusal::clone)?;
        let service = service(request);
        if service != READ_WRITE && service != READ_ONLY {
            return Err(wrong_service());
        }
        // The check of the memory can be read from one that fails it.
        if !self.sound && blocks.numbers != [0xA0] {
            return Err(wrong_memory());
        }
        self.read(&blocks.numbers, service == READ_WRITE)
    }

    fn write_request(&mut self, request: &Request) -> Result<Done, Refusal> {
        let blocks = request.blocks.as_ref().map_err(Refusal::clone)?;
        if service(request) != READ_WRITE {
            return Err(wrong_service());
        }
        if !self.sound {
            return Err(wrong_memory());
        }
        self.write(&blocks.numbers, blocks.data)
    }
}

/// The service code, after the identity and the number of services.
fn service(request: &Request) -> [u8; 2] {
    [request.header[9], request.header[10]]
}

fn wrong_service() -> Refusal {
    Refusal::Error {
        place: IN_SERVICE,
        element: 0,
        flags: [0x01, 0xA6],
    }
}

fn wrong_memory() -> Refusal {
    Refusal::Error {
        place: IN_MEMORY,
        element: 0,
        flags: [0xFF, 0x70],
    }
}

/// The refusal of the block at an index from 0.
pub fn wrong_block(index: usize, flag2: u8) -> Refusal {
    error_at(IN_BLOCKS, index, flag2)
}

fn silence(place: u8) -> Outcome {
    Outcome {
        place,
        element: 0,
        reply: Vec::new(),
        journal: None,
    }
}

fn carried_out(reply: Vec<u8>) -> Outcome {
    Outcome {
        place: 0,
        element: 0,
        reply,
        journal: None,
    }
}

/// The reply to a read or a write carries the identity that was sent.
fn answered(code: u8, request: &Request, result: Result<Done, Refusal>) -> Outcome {
    let reply = |flags: [u8; 2]| [&[code], &request.header[..8], &flags].concat();
    match result {
        Ok(done) => Outcome {
            place: 0,
            element: 0,
            reply: [reply(done.flags), done.data].concat(),
            journal: done.journal,
        },
        Err(Refusal::Error {
            place,
            element,
            flags,
        }) => Outcome {
            place,
            element,
            reply: reply(flags),
            journal: None,
        },
        Err(Refusal::Silence { place }) => silence(place),
    }
}
