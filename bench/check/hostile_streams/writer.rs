//! Sections, messages, references and objects, each as the standards spell it. What is wrong in
//! them comes later, or comes in by the arguments.

use crate::receiver::crc;

pub const MOST_BLOCK: usize = 4066;
pub const LOCATION: u32 = 0x4953_4F50;
pub const BINDER: u32 = 0x4953_4F40;
pub const BIOP: u32 = 0x4953_4F06;
pub const DELIVERY: u16 = 0x0016;

pub const FILE: &[u8] = b"fil\0";
pub const FOLDER: &[u8] = b"dir\0";
pub const GATEWAY: &[u8] = b"srg\0";

/// Big-endian fields one after another.
pub trait Put {
    fn u8(self, value: u8) -> Self;
    fn u16(self, value: u16) -> Self;
    fn u32(self, value: u32) -> Self;
    fn bytes(self, bytes: &[u8]) -> Self;
    /// The bytes with their number before them, in 1, 2 or 4 bytes.
    fn counted8(self, bytes: &[u8]) -> Self;
    fn counted16(self, bytes: &[u8]) -> Self;
    fn counted32(self, bytes: &[u8]) -> Self;
}

impl Put for Vec<u8> {
    fn u8(self, value: u8) -> Self {
        self.bytes(&[value])
    }

    fn u16(self, value: u16) -> Self {
        self.bytes(&value.to_be_bytes())
    }

    fn u32(self, value: u32) -> Self {
        self.bytes(&value.to_be_bytes())
    }

    fn bytes(mut self, bytes: &[u8]) -> Self {
        self.extend_from_slice(bytes);
        self
    }

    fn counted8(self, bytes: &[u8]) -> Self {
        self.u8(bytes.len() as u8).bytes(bytes)
    }

    fn counted16(self, bytes: &[u8]) -> Self {
        self.u16(bytes.len() as u16).bytes(bytes)
    }

    fn counted32(self, bytes: &[u8]) -> Self {
        self.u32(bytes.len() as u32).bytes(bytes)
    }
}

// Sections and messages

/// Writes the right CRC into the last four bytes.
pub fn seal(section: &mut [u8]) {
    let end = section.len() - 4;
    let right = crc(&section[..end]);
    section[end..].copy_from_slice(&right.to_be_bytes());
}

/// Writes the right length and the right CRC.
pub fn close(section: &mut [u8]) {
    let length = section.len() - 3;
    section[1] = section[1] & 0xF0 | (length >> 8) as u8 & 0x0F;
    section[2] = length as u8;
    seal(section);
}

fn section(table: u8, extension: u16, version: u8, number: u8, last: u8, payload: &[u8]) -> Vec<u8> {
    let mut written = Vec::with_capacity(12 + payload.len())
        .u8(table)
        .u16(0xB000)
        .u16(extension)
        .bytes(&[0xC1 | version << 1, number, last])
        .bytes(payload)
        .u32(0);
    close(&mut written);
    written
}

fn message(kind: u16, number: u32, body: &[u8]) -> Vec<u8> {
    Vec::with_capacity(12 + body.len()).u16(0x1103).u16(kind).u32(number).bytes(&[0xFF, 0]).counted16(body)
}

pub fn dsi(reference: &[u8]) -> Vec<u8> {
    let private = Vec::new().bytes(reference).u32(0);
    let body = vec![0xFF; 20].u16(0).counted16(&private);
    section(0x3B, 0, 0, 0, 0, &message(0x1006, 0x8000_0000, &body))
}

/// What a DII says of a module.
#[derive(Clone)]
pub struct Line {
    pub id: u16,
    pub size: u32,
    pub version: u8,
    pub info: Vec<u8>,
}

/// A moduleInfo as it is written, with this user info.
pub fn module_info(user: &[u8]) -> Vec<u8> {
    vec![0xFF; 8].u32(0).u8(1).u16(0).u16(0x17).u16(1).u8(0).counted8(user)
}

pub const COMPRESSED: &[u8] = &[0x09, 5, 1, 0, 0, 0, 0];

/// What a DII says of the download.
#[derive(Clone)]
pub struct Download {
    pub id: u32,
    pub block_size: u16,
    pub version: u16,
    pub identification: u16,
}

impl Download {
    pub fn transaction(&self) -> u32 {
        let version = u32::from(self.version & 0x3FFF);
        0x8000_0000 | version << 16 | u32::from(self.identification & 0x7FFF) << 1 | version & 1
    }
}

pub fn dii(download: &Download, lines: &[Line]) -> Vec<u8> {
    let mut body = Vec::new().u32(download.id).u16(download.block_size).bytes(&[0; 10]).u16(0).u16(lines.len() as u16);
    for line in lines {
        body = body.u16(line.id).u32(line.size).u8(line.version).counted8(&line.info);
    }
    let transaction = download.transaction();
    section(0x3B, transaction as u16, 0, 0, 0, &message(0x1002, transaction, &body.u16(0)))
}

/// A block of these bytes, which may be too many or too few.
pub fn ddb(download: u32, module: u16, version: u8, block: u16, bytes: &[u8]) -> Vec<u8> {
    let body = Vec::with_capacity(6 + bytes.len()).u16(module).u8(version).u8(0xFF).u16(block).bytes(bytes);
    section(0x3C, module, version & 31, block as u8, block as u8, &message(0x1003, download, &body))
}

// References and objects

pub fn location(carousel: u32, module: u16, key: &[u8]) -> Vec<u8> {
    Vec::new().u32(carousel).u16(module).u16(0x0100).counted8(key)
}

/// A binder of one tap, which says in which transaction the object is delivered.
pub fn binder(use_code: u16, transaction: u32) -> Vec<u8> {
    let selector = Vec::new().u16(1).u32(transaction).u32(0xFFFF_FFFF);
    Vec::new().u8(1).u16(0).u16(use_code).u16(1).counted8(&selector)
}

/// A profile of some components.
pub fn profile(components: &[(u32, Vec<u8>)]) -> Vec<u8> {
    let begin = vec![0].u8(components.len() as u8);
    components.iter().fold(begin, |written, (tag, bytes)| written.u32(*tag).counted8(bytes))
}

/// A reference of some profiles.
pub fn ior(profiles: &[(u32, Vec<u8>)]) -> Vec<u8> {
    let begin = Vec::new().u32(4).bytes(FOLDER).u32(profiles.len() as u32);
    profiles.iter().fold(begin, |written, (tag, bytes)| written.u32(*tag).counted32(bytes))
}

/// The reference as a broadcaster writes it.
pub fn reference(carousel: u32, module: u16, key: &[u8], transaction: u32) -> Vec<u8> {
    let components = [(LOCATION, location(carousel, module, key)), (BINDER, binder(DELIVERY, transaction))];
    ior(&[(BIOP, profile(&components))])
}

/// A BIOP message. `contexts` are so many service contexts, and `rear` are bytes after its body.
pub fn object(key: &[u8], kind: &[u8], contexts: u8, body: &[u8], rear: &[u8]) -> Vec<u8> {
    let mut message = Vec::with_capacity(body.len() + 64).counted8(key).counted32(kind).counted16(&[]).u8(contexts);
    for context in 0..contexts {
        message = message.u32(context.into()).counted16(b"con");
    }
    message = message.counted32(body).bytes(rear);
    Vec::with_capacity(message.len() + 12).bytes(b"BIOP").u32(0x0100_0000).counted32(&message)
}

pub fn file_body(content: &[u8]) -> Vec<u8> {
    Vec::with_capacity(content.len() + 4).counted32(content)
}

/// The bytes of a name as they stand in a binding, mostly with a zero byte at their end, and what
/// it is bound to.
pub fn binding(name: &[u8], reference: &[u8]) -> Vec<u8> {
    Vec::new().u8(1).counted8(name).counted8(FILE).u8(1).bytes(reference).u16(0)
}

pub fn folder_body(bindings: &[Vec<u8>]) -> Vec<u8> {
    bindings.iter().fold(Vec::new().u16(bindings.len() as u16), |written, binding| written.bytes(binding))
}
