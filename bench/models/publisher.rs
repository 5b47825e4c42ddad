//! A plain broadcaster in Rust, by the same rules as the proved program, written straightforwardly
//! and with nothing but std: the folder's files as the first generation of a carousel, in cycles of
//! packets. bench/speed/speed compares its time with the program's.

use std::collections::{BTreeMap, BTreeSet};
use std::fs;
use std::io::{self, Write};
use std::os::unix::ffi::OsStringExt;
use std::path::Path as Folder;

use crate::receiver::{PACKET, Path, crc, is_name};

const BLOCK: usize = 4066;
const ROOM: usize = 65_536;
/// The module ids of a group, each of which has a DII of its own.
const GROUP: usize = 139;
const MOST_NAMES: usize = 16;
const PAYLOAD: usize = 184;

// The tree

type Files = BTreeMap<Path, Vec<u8>>;

fn read_folder(folder: &Folder, at: &mut Path, files: &mut Files) -> io::Result<()> {
    for entry in fs::read_dir(folder)? {
        let entry = entry?;
        let (kind, name) = (entry.file_type()?, entry.file_name().into_vec());
        if !is_name(&name) || at.len() == MOST_NAMES {
            return Err(io::Error::other("a name that isn't published"));
        }
        at.push(name);
        if kind.is_dir() {
            read_folder(&entry.path(), at, files)?;
        } else if kind.is_file() {
            files.insert(at.clone(), fs::read(entry.path())?);
        }
        at.pop();
    }
    Ok(())
}

/// An object with the path of what it is: a file's size, or a folder's names.
struct Object<'a> {
    path: &'a [Vec<u8>],
    content: Option<&'a [u8]>,
    children: Vec<usize>,
    module: usize,
}

impl Object<'_> {
    fn kind(&self) -> &'static [u8; 4] {
        match (self.content, self.path) {
            (Some(_), _) => b"fil\0",
            (None, []) => b"srg\0",
            (None, _) => b"dir\0",
        }
    }
}

/// The gateway, and then each folder and file by its path.
fn objects_of(files: &Files) -> Vec<Object<'_>> {
    let mut paths: BTreeSet<&[Vec<u8>]> = BTreeSet::from([&[][..]]);
    for path in files.keys() {
        paths.extend((1..=path.len()).map(|length| &path[..length]));
    }
    let places: BTreeMap<_, _> = paths.iter().enumerate().map(|(place, &path)| (path, place)).collect();
    let mut objects: Vec<_> =
        paths.iter().map(|&path| Object { path, content: files.get(path).map(Vec::as_slice), children: Vec::new(), module: 0 }).collect();
    for (place, path) in paths.iter().enumerate().skip(1) {
        objects[places[&path[..path.len() - 1]]].children.push(place);
    }
    objects
}

fn size_of(object: &Object<'_>, objects: &[Object<'_>]) -> usize {
    match object.content {
        Some(content) => 44 + content.len(),
        None => {
            let bindings = object.children.iter().map(|&child| &objects[child]);
            34 + bindings.map(|it| it.path.last().unwrap().len() + if it.content.is_some() { 82 } else { 74 }).sum::<usize>()
        }
    }
}

/// The module of each object: the first one with room for it, or the next.
fn place(objects: &mut [Object<'_>]) {
    let mut filled: Vec<usize> = Vec::new();
    for at in 0..objects.len() {
        let size = size_of(&objects[at], objects);
        let shared = if size <= ROOM { filled.iter().position(|it| it + size <= ROOM) } else { None };
        let place = shared.unwrap_or(filled.len());
        if place == filled.len() {
            filled.push(0);
        }
        filled[place] += size;
        objects[at].module = place + 1;
    }
}

// Objects as bytes

fn group_of(module: usize) -> u32 {
    1 + (module as u32 - 1) / GROUP as u32
}

fn reference(out: &mut Vec<u8>, kind: &[u8; 4], carousel: u32, module: usize, key: usize) {
    out.extend([0, 0, 0, 4]);
    out.extend(kind);
    out.extend([0, 0, 0, 1, 0x49, 0x53, 0x4F, 0x06, 0, 0, 0, 43, 0, 2, 0x49, 0x53, 0x4F, 0x50, 13]);
    out.extend(carousel.to_be_bytes());
    out.extend((module as u16).to_be_bytes());
    out.extend([1, 0, 4]);
    out.extend((key as u32).to_be_bytes());
    out.extend([0x49, 0x53, 0x4F, 0x40, 18, 1, 0, 0, 0, 0x16, 0, 1, 10, 0, 1]);
    out.extend((0x8000_0000 + 2 * group_of(module)).to_be_bytes());
    out.extend([0xFF; 4]);
}

fn message(out: &mut Vec<u8>, kind: &[u8; 4], key: usize, info: &[u8], body: usize) {
    out.extend(b"BIOP\x01\0\0\0");
    out.extend((20 + info.len() as u32 + body as u32).to_be_bytes());
    out.push(4);
    out.extend((key as u32).to_be_bytes());
    out.extend([0, 0, 0, 4]);
    out.extend(kind);
    out.extend((info.len() as u16).to_be_bytes());
    out.extend(info);
    out.push(0);
    out.extend((body as u32).to_be_bytes());
}

fn write_object(out: &mut Vec<u8>, place: usize, objects: &[Object<'_>], carousel: u32) {
    let (object, key) = (&objects[place], place + 1);
    if let Some(content) = object.content {
        message(out, object.kind(), key, &(content.len() as u64).to_be_bytes(), 4 + content.len());
        out.extend((content.len() as u32).to_be_bytes());
        out.extend(content);
        return;
    }
    message(out, object.kind(), key, &[], size_of(object, objects) - 32);
    out.extend((object.children.len() as u16).to_be_bytes());
    for &child in &object.children {
        let it = &objects[child];
        let name = it.path.last().unwrap();
        out.extend([1, name.len() as u8 + 1]);
        out.extend(name);
        out.extend([0, 4]);
        out.extend(it.kind());
        out.push(if it.content.is_some() { 1 } else { 2 });
        reference(out, it.kind(), carousel, it.module, child + 1);
        match it.content {
            Some(content) => {
                out.extend([0, 8]);
                out.extend((content.len() as u64).to_be_bytes());
            }
            None => out.extend([0, 0]),
        }
    }
}

fn modules_of(objects: &[Object<'_>], carousel: u32) -> Vec<Vec<u8>> {
    let last = objects.iter().map(|it| it.module).max().unwrap_or(0);
    let mut modules = vec![Vec::new(); last];
    for (place, object) in objects.iter().enumerate() {
        write_object(&mut modules[object.module - 1], place, objects, carousel);
    }
    modules
}

// Sections

fn section(table: u8, extension: u16, fields: [u8; 3], kind: u16, number: u32, front: &[u8], rest: &[u8]) -> Vec<u8> {
    let length = 12 + front.len() + rest.len();
    let mut out = Vec::with_capacity(length + 12);
    out.push(table);
    out.extend((0xB000 | length as u16 + 9).to_be_bytes());
    out.extend(extension.to_be_bytes());
    out.extend(fields);
    out.extend([0x11, 0x03]);
    out.extend(kind.to_be_bytes());
    out.extend(number.to_be_bytes());
    out.extend([0xFF, 0]);
    out.extend((length as u16 - 12).to_be_bytes());
    out.extend(front);
    out.extend(rest);
    let check = crc(&out);
    out.extend(check.to_be_bytes());
    out
}

fn dsi(carousel: u32) -> Vec<u8> {
    let mut body = vec![0xFF; 20];
    body.extend([0, 0, 0, 67]);
    reference(&mut body, b"srg\0", carousel, 1, 1);
    body.extend([0; 4]);
    section(0x3B, 0, [0xC1, 0, 0], 0x1006, 0x8000_0000, &body, &[])
}

/// The DII of the group whose modules these are, the first of them under this id.
fn dii(carousel: u32, first: usize, modules: &[Vec<u8>]) -> Vec<u8> {
    let number = 0x8001_0001 + 2 * group_of(first);
    let mut body = Vec::new();
    body.extend(carousel.to_be_bytes());
    body.extend((BLOCK as u16).to_be_bytes());
    body.extend([0; 12]);
    body.extend((modules.len() as u16).to_be_bytes());
    for (id, module) in (first as u16..).zip(modules) {
        body.extend(id.to_be_bytes());
        body.extend((module.len() as u32).to_be_bytes());
        body.extend([1, 21]);
        body.extend([0xFF; 8]);
        body.extend([0, 0, 0, 0, 1, 0, 0, 0, 0x17, 0, 1, 0, 0]);
    }
    body.extend([0, 0]);
    section(0x3B, number as u16, [0xC1, 0, 0], 0x1002, number, &body, &[])
}

fn block(carousel: u32, id: u16, number: usize, module: &[u8]) -> Vec<u8> {
    let bytes = module.chunks(BLOCK).nth(number).unwrap_or_default();
    let last = module.len().div_ceil(BLOCK).saturating_sub(1).min(255);
    let [high, low] = (number as u16).to_be_bytes();
    let [id_high, id_low] = id.to_be_bytes();
    section(0x3C, id, [0xC1 + 2, number as u8, last as u8], 0x1003, carousel, &[id_high, id_low, 1, 0xFF, high, low], bytes)
}

// Packets

/// Sections back to back in packets.
struct Mux<W: Write> {
    out: W,
    counter: u8,
    /// How much of what is held back is the end of a section that began in an earlier packet.
    tail: usize,
    held: Vec<u8>,
}

impl<W: Write> Mux<W> {
    fn put(&mut self, pointer: Option<u8>, parts: [&[u8]; 2]) -> io::Result<()> {
        let mut packet = [0xFF; PACKET];
        let start = if pointer.is_some() { 0x40 } else { 0 };
        packet[..4].copy_from_slice(&[0x47, start | 1, 0, 0x10 | self.counter]);
        self.counter = (self.counter + 1) % 16;
        let mut at = 4;
        if let Some(pointer) = pointer {
            packet[4] = pointer;
            at = 5;
        }
        for part in parts {
            packet[at..at + part.len()].copy_from_slice(part);
            at += part.len();
        }
        self.out.write_all(&packet)
    }

    fn send(&mut self, section: &[u8]) -> io::Result<()> {
        let room = PAYLOAD - 1 - self.held.len();
        if section.len() < room {
            self.held.extend(section);
            return Ok(());
        }
        let (front, mut rest) = section.split_at(room);
        let held = std::mem::take(&mut self.held);
        self.put(Some(self.tail as u8), [&held, front])?;
        while rest.len() >= PAYLOAD - 1 {
            let (part, after) = rest.split_at(PAYLOAD.min(rest.len()));
            self.put(None, [part, &[]])?;
            rest = after;
        }
        self.held = held;
        self.held.clear();
        self.held.extend(rest);
        self.tail = rest.len();
        Ok(())
    }

    fn finish(&mut self) -> io::Result<()> {
        let held = std::mem::take(&mut self.held);
        if !held.is_empty() {
            let pointer = if held.len() > self.tail { Some(self.tail as u8) } else { None };
            self.put(pointer, [&held, &[]])?;
        }
        self.out.flush()
    }
}

fn send_diis<W: Write>(mux: &mut Mux<W>, carousel: u32, modules: &[Vec<u8>]) -> io::Result<()> {
    for (place, group) in modules.chunks(GROUP).enumerate() {
        mux.send(&dii(carousel, 1 + place * GROUP, group))?;
    }
    Ok(())
}

fn send_blocks<W: Write>(mux: &mut Mux<W>, carousel: u32, id: u16, module: &[u8]) -> io::Result<()> {
    for number in 0..module.len().div_ceil(BLOCK) {
        mux.send(&block(carousel, id, number, module))?;
    }
    Ok(())
}

/// Writes so many cycles of the folder's files. The root's module comes twice in each.
pub fn publish(folder: &str, carousel: u32, cycles: u32, out: impl Write) -> io::Result<()> {
    let mut files = Files::new();
    read_folder(Folder::new(folder), &mut Vec::new(), &mut files)?;
    let mut objects = objects_of(&files);
    place(&mut objects);
    let modules = modules_of(&objects, carousel);
    let mut mux = Mux { out, counter: 0, tail: 0, held: Vec::new() };
    for _ in 0..cycles {
        mux.send(&dsi(carousel))?;
        send_diis(&mut mux, carousel, &modules)?;
        for (place, module) in modules.iter().enumerate() {
            send_blocks(&mut mux, carousel, place as u16 + 1, module)?;
        }
        send_diis(&mut mux, carousel, &modules)?;
        send_blocks(&mut mux, carousel, 1, &modules[0])?;
    }
    mux.finish()
}
