//! A plain receiver in Rust, by the same rules as the proved program, written straightforwardly and
//! with nothing but std. bench/speed/speed compares its time with the program's, and
//! bench/check/hostile its answers.

use std::cell::RefCell;
use std::collections::{HashMap, HashSet};
use std::io::{self, Write};

pub const PACKET: usize = 188;

/// The names on a path. The root has none.
pub type Path = Vec<Vec<u8>>;
const MOST_SECTION: usize = 4093;
const MOST_SUM: u64 = 268_435_456;
const MOST_HELD: usize = 16;
const BIOP: u32 = 0x4953_4F06;
const LOCATION: u32 = 0x4953_4F50;
const BINDER: u32 = 0x4953_4F40;

// The CRC
//
// Let y be x^8, one byte's shift. Then y^300 = y^155 + y^117 + y^89 + 1 modulo the polynomial. So
// the CRC stays the same if a byte goes, and is combined by exclusive or with the bytes 145, 183,
// 211 and 300 places after it.

/// How far a byte is carried at most.
const REACH: usize = 300;
/// The bytes that are left for the tables.
const REST: usize = 304;
/// The most bytes that are folded together, and the fewest for which that is faster.
const MOST_FOLDED: usize = 4096;
const LEAST_FOLDED: usize = 448;

/// The bytes that were carried on, each `REACH` places after its own. Before them are the four
/// bytes of a state, and zeros.
type Scratch = [u8; REACH + MOST_FOLDED];

thread_local! {
    static SCRATCH: RefCell<Scratch> = const { RefCell::new([0; REACH + MOST_FOLDED]) };
}

const fn tables() -> [[u32; 256]; 16] {
    let mut tables = [[0u32; 256]; 16];
    let mut byte = 0;
    while byte < 256 {
        let mut state = (byte as u32) << 24;
        let mut bit = 0;
        while bit < 8 {
            state = if state >> 31 == 1 { state << 1 ^ 0x04C1_1DB7 } else { state << 1 };
            bit += 1;
        }
        tables[0][byte] = state;
        byte += 1;
    }
    let mut row = 1;
    while row < 16 {
        let mut byte = 0;
        while byte < 256 {
            let before = tables[row - 1][byte];
            tables[row][byte] = before << 8 ^ tables[0][(before >> 24) as usize];
            byte += 1;
        }
        row += 1;
    }
    tables
}

static TABLES: [[u32; 256]; 16] = tables();

/// The state after the bytes, by tables, sixteen bytes a step. Only four wait for the state.
pub fn sliced(mut state: u32, bytes: &[u8]) -> u32 {
    let entry = |place: usize, byte: u8| TABLES[15 - place][byte as usize];
    let (steps, tail) = bytes.as_chunks::<16>();
    for step in steps {
        let before = state.to_be_bytes();
        let later = (4..16).fold(0, |sum, place| sum ^ entry(place, step[place]));
        state = (0..4).fold(later, |sum, place| sum ^ entry(place, step[place] ^ before[place]));
    }
    for &byte in tail {
        state = state << 8 ^ TABLES[0][((state >> 24) as u8 ^ byte) as usize];
    }
    state
}

/// A byte, combined with those that were carried to its place.
fn combined(scratch: &Scratch, place: usize, byte: u8) -> u8 {
    byte ^ scratch[place + 155] ^ scratch[place + 117] ^ scratch[place + 89] ^ scratch[place]
}

/// The state after the bytes. All but the last `REST` are carried on. As each goes 145 places or
/// more, the compiler takes sixteen at once.
fn folded(scratch: &mut Scratch, state: u32, bytes: &[u8]) -> u32 {
    let Some((front, rest)) = bytes.split_last_chunk::<REST>() else { return sliced(state, bytes) };
    scratch[..4].copy_from_slice(&state.to_be_bytes());
    for (place, &byte) in front.iter().enumerate() {
        scratch[place + REACH] = combined(scratch, place, byte);
    }
    let after = front.len();
    scratch[after + REACH..after + 155 + REST].fill(0);
    let mut rest = *rest;
    for (place, byte) in rest.iter_mut().enumerate() {
        *byte = combined(scratch, after + place, *byte);
    }
    sliced(0, &rest)
}

pub fn crc(bytes: &[u8]) -> u32 {
    if bytes.len() < LEAST_FOLDED {
        return sliced(0xFFFF_FFFF, bytes);
    }
    SCRATCH.with_borrow_mut(|scratch| {
        bytes.chunks(MOST_FOLDED).fold(0xFFFF_FFFF, |state, piece| folded(scratch, state, piece))
    })
}

// Packets

struct Packet<'a> {
    pid: u16,
    start: bool,
    counter: u8,
    payload: &'a [u8],
}

fn packet_of(bytes: &[u8; PACKET]) -> Option<Packet<'_>> {
    if bytes[0] != 0x47 || bytes[1] & 0x80 != 0 || bytes[3] >> 6 != 0 {
        return None;
    }
    let payload = match bytes[3] >> 4 & 3 {
        1 => &bytes[4..],
        2 => &[],
        3 if bytes[4] <= 182 => &bytes[5 + bytes[4] as usize..],
        _ => return None,
    };
    Some(Packet {
        pid: u16::from_be_bytes([bytes[1] & 0x1F, bytes[2]]),
        start: bytes[1] & 0x40 != 0,
        counter: bytes[3] & 15,
        payload,
    })
}

/// The packets of one PID, cut into candidates.
pub struct Demux {
    pid: u16,
    last: Option<(u8, Vec<u8>)>,
    open: Option<Vec<u8>>,
}

impl Demux {
    pub fn new(pid: u16) -> Demux {
        Demux { pid, last: None, open: None }
    }

    pub fn feed(&mut self, bytes: &[u8; PACKET], each: &mut impl FnMut(&[u8])) {
        let Some(packet) = packet_of(bytes) else { return };
        if packet.pid != self.pid || packet.payload.is_empty() {
            return;
        }
        if let Some((counter, payload)) = &mut self.last {
            if *counter == packet.counter && payload == packet.payload {
                return;
            }
            if packet.counter != (*counter + 1) % 16 {
                self.open = None;
            }
            *counter = packet.counter;
            payload.clear();
            payload.extend_from_slice(packet.payload);
        } else {
            self.last = Some((packet.counter, packet.payload.to_vec()));
        }
        if !packet.start {
            self.append(packet.payload, each);
            return;
        }
        let after = 1 + packet.payload[0] as usize;
        if after > packet.payload.len() {
            self.open = None;
            return;
        }
        self.append(&packet.payload[1..after], each);
        self.open = None;
        self.begin(&packet.payload[after..], each);
    }

    fn append(&mut self, bytes: &[u8], each: &mut impl FnMut(&[u8])) {
        let Some(mut open) = self.open.take() else { return };
        open.extend_from_slice(bytes);
        match length_of(&open) {
            Some(length) if length > 3 + MOST_SECTION => {}
            Some(length) if open.len() >= length => each(&open[..length]),
            _ => self.open = Some(open),
        }
    }

    fn begin(&mut self, mut bytes: &[u8], each: &mut impl FnMut(&[u8])) {
        while bytes.first().is_some_and(|&byte| byte != 0xFF) {
            match length_of(bytes) {
                Some(length) if length > 3 + MOST_SECTION => return,
                Some(length) if bytes.len() >= length => {
                    each(&bytes[..length]);
                    bytes = &bytes[length..];
                }
                _ => {
                    let mut open = Vec::with_capacity(4096);
                    open.extend_from_slice(bytes);
                    self.open = Some(open);
                    return;
                }
            }
        }
    }
}

fn length_of(bytes: &[u8]) -> Option<usize> {
    let begin = bytes.first_chunk::<3>()?;
    Some(3 + u16::from_be_bytes([begin[1] & 0x0F, begin[2]]) as usize)
}

/// Hands each candidate of input that is sections one after another on.
pub fn each_back_to_back(mut bytes: &[u8], each: &mut impl FnMut(&[u8])) {
    while let Some((candidate, rest)) = length_of(bytes).and_then(|length| bytes.split_at_checked(length)) {
        each(candidate);
        bytes = rest;
    }
}

// Sections and messages

pub fn is_section(bytes: &[u8]) -> bool {
    bytes.len() >= 12
        && length_of(bytes) == Some(bytes.len())
        && bytes.len() <= 3 + MOST_SECTION
        && matches!(bytes[0], 0x3B | 0x3C)
        && bytes[1] & 0x80 != 0
        && bytes[5] & 1 != 0
        && crc(bytes) == 0
}

struct Fields<'a> {
    rest: &'a [u8],
}

impl<'a> Fields<'a> {
    fn take(&mut self, count: usize) -> Option<&'a [u8]> {
        let (taken, rest) = self.rest.split_at_checked(count)?;
        self.rest = rest;
        Some(taken)
    }

    fn u8(&mut self) -> Option<u8> {
        Some(self.take(1)?[0])
    }

    fn u16(&mut self) -> Option<u16> {
        Some(u16::from_be_bytes(self.take(2)?.try_into().ok()?))
    }

    fn u32(&mut self) -> Option<u32> {
        Some(u32::from_be_bytes(self.take(4)?.try_into().ok()?))
    }

    fn within(&mut self, count: usize) -> Option<Fields<'a>> {
        Some(Fields { rest: self.take(count)? })
    }

    fn bytes8(&mut self) -> Option<&'a [u8]> {
        let count = self.u8()?.into();
        self.take(count)
    }

    fn bytes16(&mut self) -> Option<&'a [u8]> {
        let count = self.u16()?.into();
        self.take(count)
    }
}

#[derive(Clone, PartialEq)]
pub struct Location {
    carousel: u32,
    module: u16,
    key: Vec<u8>,
    delivery: Option<u32>,
}

#[derive(Clone, PartialEq)]
struct Line {
    id: u16,
    size: u32,
    version: u8,
    compressed: bool,
}

struct Dii {
    download: u32,
    block_size: u16,
    version: u16,
    identification: u16,
    lines: Vec<Line>,
}

enum Message<'a> {
    Dsi(Option<Location>),
    Dii(Dii),
    Ddb { download: u32, module: u16, version: u8, block: u16, bytes: &'a [u8] },
}

fn message_of(section: &[u8]) -> Option<Message<'_>> {
    let mut fields = Fields { rest: &section[8..section.len() - 4] };
    if fields.u16()? != 0x1103 {
        return None;
    }
    let (kind, number) = (fields.u16()?, fields.u32()?);
    fields.u8()?;
    let adaptation = fields.u8()?.into();
    let length = fields.u16()?.into();
    let mut body = fields.within(length)?;
    body.take(adaptation)?;
    match (section[0], kind) {
        (0x3B, 0x1006) => dsi_of(body),
        (0x3B, 0x1002) => dii_of(number, body),
        (0x3C, 0x1003) => {
            let (module, version) = (body.u16()?, body.u8()?);
            body.u8()?;
            Some(Message::Ddb { download: number, module, version, block: body.u16()?, bytes: body.rest })
        }
        _ => None,
    }
}

fn dsi_of(mut body: Fields<'_>) -> Option<Message<'_>> {
    body.take(20)?;
    body.bytes16()?;
    let mut private = Fields { rest: body.bytes16()? };
    Some(Message::Dsi(ior_of(&mut private)?))
}

fn dii_of(number: u32, mut body: Fields<'_>) -> Option<Message<'_>> {
    let (download, block_size) = (body.u32()?, body.u16()?);
    body.take(10)?;
    body.bytes16()?;
    let count = body.u16()?;
    let mut lines = Vec::new();
    for _ in 0..count {
        let (id, size, version) = (body.u16()?, body.u32()?, body.u8()?);
        lines.push(Line { id, size, version, compressed: is_compressed(body.bytes8()?) });
    }
    body.bytes16()?;
    let (version, identification) = ((number >> 16 & 0x3FFF) as u16, (number >> 1 & 0x7FFF) as u16);
    Some(Message::Dii(Dii { download, block_size, version, identification, lines }))
}

type Tap<'a> = (u16, &'a [u8]);

fn taps_of<'a>(fields: &mut Fields<'a>) -> Option<Vec<Tap<'a>>> {
    let count = fields.u8()?;
    (0..count)
        .map(|_| {
            fields.u16()?;
            let use_code = fields.u16()?;
            fields.u16()?;
            Some((use_code, fields.bytes8()?))
        })
        .collect()
}

fn user_info(info: &[u8]) -> Option<&[u8]> {
    let mut fields = Fields { rest: info };
    fields.take(12)?;
    taps_of(&mut fields)?;
    fields.bytes8()
}

fn is_compressed(info: &[u8]) -> bool {
    let mut fields = Fields { rest: user_info(info).unwrap_or_default() };
    while let Some(tag) = fields.u8() {
        match fields.bytes8() {
            Some(_) if tag == 0x09 => return true,
            Some(_) => {}
            None => return false,
        }
    }
    false
}

// IORs and objects

/// The first location of an IOR, if it has one; None outside where the IOR doesn't read.
fn ior_of(fields: &mut Fields<'_>) -> Option<Option<Location>> {
    if fields.u32()? != 4 {
        return None;
    }
    fields.take(4)?;
    let count = fields.u32()?;
    let mut found = None;
    for _ in 0..count {
        let tag = fields.u32()?;
        let length = fields.u32()? as usize;
        let profile = fields.within(length)?;
        if found.is_none() && tag == BIOP {
            found = location_of(profile);
        }
    }
    Some(found)
}

fn location_of(mut fields: Fields<'_>) -> Option<Location> {
    if fields.u8()? != 0 {
        return None;
    }
    let count = fields.u8()?;
    let (mut location, mut binder) = (None, None);
    for _ in 0..count {
        let tag = fields.u32()?;
        let bytes = fields.bytes8()?;
        match tag {
            LOCATION => location = location.or(Some(bytes)),
            BINDER => binder = binder.or(Some(bytes)),
            _ => {}
        }
    }
    let mut location = Fields { rest: location? };
    let (carousel, module) = (location.u32()?, location.u16()?);
    if location.u16()? != 0x0100 {
        return None;
    }
    let key = location.bytes8()?.to_vec();
    let taps = taps_of(&mut Fields { rest: binder? })?;
    let delivers = |&(use_code, selector): &Tap| use_code == 0x16 && selector.len() >= 10 && selector[..2] == [0, 1];
    let delivery = taps.into_iter().find(delivers).and_then(|(_, selector)| Fields { rest: &selector[2..] }.u32());
    Some(Location { carousel, module, key, delivery })
}

enum Object {
    File(usize, usize),
    Folder(Vec<(Vec<u8>, Option<Location>)>),
    Other,
}

/// The objects of a whole module by key, and where reading stopped, if it did.
struct Index {
    objects: HashMap<Vec<u8>, Object>,
    stopped: Option<usize>,
}

fn index_of(module: &[u8]) -> Index {
    let mut index = Index { objects: HashMap::new(), stopped: None };
    let mut fields = Fields { rest: module };
    while !fields.rest.is_empty() {
        let place = module.len() - fields.rest.len();
        let Some((key, object)) = object_of(module.len(), &mut fields) else {
            index.stopped = Some(place);
            break;
        };
        index.objects.entry(key.to_vec()).or_insert(object);
    }
    index
}

fn object_of<'a>(size: usize, fields: &mut Fields<'a>) -> Option<(&'a [u8], Object)> {
    if fields.take(4)? != b"BIOP" || fields.u32()? != 0x0100_0000 {
        return None;
    }
    let length = fields.u32()? as usize;
    let left = fields.rest.len().checked_sub(length)?;
    let mut message = fields.within(length)?;
    let key = message.bytes8()?;
    let kind_length = message.u32()? as usize;
    let kind = message.take(kind_length)?;
    message.bytes16()?;
    for _ in 0..message.u8()? {
        message.u32()?;
        message.bytes16()?;
    }
    let length = message.u32()? as usize;
    let after = message.rest.len().checked_sub(length)?;
    let mut body = message.within(length)?;
    let object = match kind {
        b"fil\0" => {
            let length = body.u32()? as usize;
            let first = size - left - after - body.rest.len();
            body.take(length)?;
            Object::File(first, length)
        }
        b"dir\0" | b"srg\0" => {
            let count = body.u16()?;
            Object::Folder((0..count).map(|_| binding_of(&mut body)).collect::<Option<_>>()?)
        }
        _ => Object::Other,
    };
    Some((key, object))
}

fn binding_of(fields: &mut Fields<'_>) -> Option<(Vec<u8>, Option<Location>)> {
    if fields.u8()? != 1 {
        return None;
    }
    let name = fields.bytes8()?;
    fields.bytes8()?;
    fields.u8()?;
    let target = ior_of(fields)?;
    fields.bytes16()?;
    Some((name.strip_suffix(b"\0").unwrap_or(name).to_vec(), target))
}

// What is held

enum State {
    Compressed,
    Partial { bytes: Vec<u8>, has: Vec<bool>, missing: u32 },
    Whole(Vec<u8>, Index),
}

struct Slot {
    line: Line,
    state: State,
}

impl Slot {
    fn new(line: &Line, block_size: u16) -> Slot {
        let blocks = line.size.div_ceil(block_size.into());
        let state = match (line.compressed, blocks) {
            (true, _) => State::Compressed,
            (_, 0) => State::Whole(Vec::new(), index_of(&[])),
            _ => State::Partial { bytes: Vec::new(), has: Vec::new(), missing: blocks },
        };
        Slot { line: line.clone(), state }
    }

    /// Whether the block is new.
    fn offer(&mut self, block_size: u16, block: u16, from: &[u8]) -> bool {
        let State::Partial { bytes, has, missing } = &mut self.state else { return false };
        let (size, block_size, block) = (self.line.size as usize, usize::from(block_size), usize::from(block));
        let first = block * block_size;
        if first >= size || from.len() != block_size.min(size - first) {
            return false;
        }
        if bytes.is_empty() {
            *bytes = vec![0; size];
            *has = vec![false; size.div_ceil(block_size)];
        }
        if has[block] {
            return false;
        }
        bytes[first..first + from.len()].copy_from_slice(from);
        has[block] = true;
        *missing -= 1;
        if *missing == 0 {
            let bytes = std::mem::take(bytes);
            let index = index_of(&bytes);
            self.state = State::Whole(bytes, index);
        }
        true
    }
}

/// A DII with what has come of its modules.
struct Part {
    dii: Dii,
    slots: HashMap<u16, Slot>,
}

impl Part {
    /// The part of a DII that comes, with what it describes as the DII of its identification did
    /// before it.
    fn new(dii: Dii, before: Option<Part>) -> Part {
        let is_alike = |it: &Part| (it.dii.download, it.dii.block_size) == (dii.download, dii.block_size);
        let mut old = before.filter(is_alike).map_or(HashMap::new(), |it| it.slots);
        let mut slots = HashMap::new();
        for line in &dii.lines {
            let stays = old.remove(&line.id).filter(|slot| slot.line == *line);
            slots.insert(line.id, stays.unwrap_or_else(|| Slot::new(line, dii.block_size)));
        }
        Part { dii, slots }
    }
}

/// The parts of the DIIs of one version, and those of the version before that still wait for their
/// DII.
#[derive(Default)]
pub struct Tuner {
    gateway: Option<Location>,
    held: Vec<Part>,
    waiting: Vec<Part>,
}

fn size_of(dii: &Dii) -> u64 {
    dii.lines.iter().map(|line| u64::from(line.size)).sum()
}

fn is_within(dii: &Dii) -> bool {
    let ids: HashSet<u16> = dii.lines.iter().map(|line| line.id).collect();
    (1..=4066).contains(&dii.block_size)
        && dii.lines.iter().all(|line| line.size <= 16_842_752 && line.size.div_ceil(dii.block_size.into()) <= 65_536)
        && size_of(dii) <= MOST_SUM
        && ids.len() == dii.lines.len()
}

impl Tuner {
    /// Hears a candidate. Where the answer is false, what is held is as it was.
    pub fn feed(&mut self, candidate: &[u8]) -> bool {
        if !is_section(candidate) {
            return false;
        }
        match message_of(candidate) {
            Some(Message::Dsi(gateway)) => {
                self.gateway = gateway.or(self.gateway.take());
                true
            }
            Some(Message::Dii(dii)) => self.hear(dii),
            Some(Message::Ddb { download, module, version, block, bytes }) => {
                let mut is_new = false;
                for part in self.held.iter_mut().filter(|it| it.dii.download == download) {
                    if let Some(slot) = part.slots.get_mut(&module)
                        && slot.line.version == version
                    {
                        is_new |= slot.offer(part.dii.block_size, block, bytes);
                    }
                }
                is_new
            }
            None => false,
        }
    }

    /// Whether it is held.
    fn hear(&mut self, dii: Dii) -> bool {
        if dii.identification == 0 || !is_within(&dii) {
            return false;
        }
        if let Some(held) = self.held.last() {
            let step = dii.version.wrapping_sub(held.dii.version) & 0x3FFF;
            if step == 0 && !self.has_room(&dii) {
                return false;
            }
            if step > 0 {
                let held = std::mem::take(&mut self.held);
                self.waiting = if step < 256 { held } else { Vec::new() };
            }
        }
        let place = self.waiting.iter().position(|it| it.dii.identification == dii.identification);
        let before = place.map(|place| self.waiting.swap_remove(place));
        self.held.push(Part::new(dii, before));
        true
    }

    /// Whether a DII can be held beside those of its version.
    fn has_room(&self, dii: &Dii) -> bool {
        let is_apart = |it: &Part| {
            it.dii.identification != dii.identification && !dii.lines.iter().any(|line| it.slots.contains_key(&line.id))
        };
        self.held.len() < MOST_HELD
            && self.held.iter().all(is_apart)
            && self.held.iter().map(|it| size_of(&it.dii)).sum::<u64>() + size_of(dii) <= MOST_SUM
    }
}

// Answers

pub enum Answer<'a> {
    File(&'a [u8]),
    Folder(&'a [(Vec<u8>, Option<Location>)]),
    Other(String),
}

impl Answer<'_> {
    pub fn text(&self) -> String {
        match self {
            Answer::File(bytes) => format!("file {}", bytes.len()),
            Answer::Folder(bindings) => format!("folder {}", bindings.len()),
            Answer::Other(text) => text.clone(),
        }
    }

    fn is_found(&self) -> bool {
        !matches!(self, Answer::Other(_))
    }
}

impl Tuner {
    /// The gateway's location, where there is a carousel.
    fn root(&self) -> Option<&Location> {
        self.gateway.as_ref().filter(|_| !self.held.is_empty())
    }

    fn at(&self, location: &Location) -> Answer<'_> {
        let Some(gateway) = self.root() else { return Answer::Other("no-carousel".into()) };
        let m = location.module;
        let by = location.delivery.map(|it| (it >> 1 & 0x7FFF) as u16);
        if location.carousel != gateway.carousel || by == Some(0) {
            return Answer::Other("elsewhere".into());
        }
        let mut asked = self.held.iter().filter(|it| by.is_none_or(|by| it.dii.identification == by)).peekable();
        let is_known = by.is_some() && asked.peek().is_some();
        let Some(slot) = asked.find_map(|it| it.slots.get(&m)) else {
            return Answer::Other(format!("{} {m}", if is_known { "dangling" } else { "not-yet" }));
        };
        let (bytes, index) = match &slot.state {
            State::Compressed => return Answer::Other(format!("compressed {m}")),
            State::Partial { .. } => return Answer::Other(format!("not-yet {m}")),
            State::Whole(bytes, index) => (bytes, index),
        };
        match (index.objects.get(&location.key), index.stopped) {
            (Some(Object::File(first, length)), _) => Answer::File(&bytes[*first..first + length]),
            (Some(Object::Folder(bindings)), _) => Answer::Folder(bindings),
            (Some(Object::Other), _) => Answer::Other(format!("other-kind {m}")),
            (None, Some(place)) => Answer::Other(format!("bad {m} {place}")),
            (None, None) => Answer::Other(format!("dangling {m}")),
        }
    }

    pub fn open(&self, path: &[Vec<u8>]) -> Answer<'_> {
        let Some(gateway) = self.root() else { return Answer::Other("no-carousel".into()) };
        let mut answer = self.at(gateway);
        for name in path {
            answer = match answer {
                Answer::File(_) => return Answer::Other("no-such".into()),
                Answer::Folder(bindings) => match bindings.iter().find(|(it, _)| it == name) {
                    None => return Answer::Other("no-such".into()),
                    Some((_, None)) => return Answer::Other("elsewhere".into()),
                    Some((_, Some(target))) => self.at(target),
                },
                other => return other,
            };
        }
        answer
    }
}

fn escaped(name: &[u8]) -> String {
    name.iter()
        .map(|&byte| match byte {
            b'%' | b'/' => format!("%{byte:02X}"),
            0x21..=0x7E => char::from(byte).to_string(),
            _ => format!("%{byte:02X}"),
        })
        .collect()
}

pub fn printed(path: &[Vec<u8>]) -> String {
    if path.is_empty() {
        return "/".into();
    }
    path.iter().map(|name| format!("/{}", escaped(name))).collect()
}

pub fn is_name(name: &[u8]) -> bool {
    (1..=254).contains(&name.len()) && !name.contains(&0) && !name.contains(&b'/')
}

pub fn write_opened(tuner: &Tuner, paths: &[Path], out: &mut impl Write) -> io::Result<bool> {
    let mut all = true;
    for path in paths {
        let answer = tuner.open(path);
        writeln!(out, "{} {}", printed(path), answer.text())?;
        match &answer {
            Answer::File(bytes) => {
                out.write_all(bytes)?;
                out.write_all(b"\n")?;
            }
            Answer::Folder(bindings) => bindings.iter().try_for_each(|(name, _)| writeln!(out, "{}", escaped(name)))?,
            Answer::Other(_) => {}
        }
        all &= answer.is_found();
    }
    Ok(all)
}

/// The lines of a list, at most 65,536 of them.
struct Listing<'a> {
    tuner: &'a Tuner,
    lines: Vec<String>,
    all: bool,
    more: bool,
}

impl<'a> Listing<'a> {
    fn line(&mut self, path: &mut Path, answer: Answer<'a>) {
        if self.lines.len() == 65_536 {
            self.more = true;
            return;
        }
        self.lines.push(format!("{} {}\n", printed(path), answer.text()));
        self.all &= answer.is_found();
        let Answer::Folder(bindings) = answer else { return };
        let mut seen = HashSet::new();
        for (name, target) in bindings {
            if path.len() == 16 || self.more || !is_name(name) || !seen.insert(name) {
                continue;
            }
            path.push(name.clone());
            let below = target.as_ref().map_or(Answer::Other("elsewhere".into()), |it| self.tuner.at(it));
            self.line(path, below);
            path.pop();
        }
    }
}

pub fn write_list(tuner: &Tuner, out: &mut impl Write) -> io::Result<bool> {
    let mut listing = Listing { tuner, lines: Vec::new(), all: true, more: false };
    listing.line(&mut Vec::new(), tuner.open(&[]));
    out.write_all(listing.lines.concat().as_bytes())?;
    if listing.more {
        out.write_all(b"more\n")?;
    }
    Ok(listing.all && !listing.more)
}

// Watching

/// An answer by itself, whatever is held now.
#[derive(PartialEq)]
enum Kept {
    File(Vec<u8>),
    Folder(Vec<Vec<u8>>),
    Other(String),
}

impl Kept {
    fn of(answer: &Answer) -> Kept {
        match answer {
            Answer::File(bytes) => Kept::File(bytes.to_vec()),
            Answer::Folder(bindings) => Kept::Folder(bindings.iter().map(|(name, _)| name.clone()).collect()),
            Answer::Other(text) => Kept::Other(text.clone()),
        }
    }

    fn is(&self, answer: &Answer) -> bool {
        match (self, answer) {
            (Kept::File(kept), Answer::File(bytes)) => kept == bytes,
            (Kept::Folder(names), Answer::Folder(bindings)) => names.iter().eq(bindings.iter().map(|(name, _)| name)),
            (Kept::Other(kept), Answer::Other(text)) => kept == text,
            _ => false,
        }
    }
}

/// A receiver, and paths with the last answers to them.
pub struct Watch {
    tuner: Tuner,
    watched: Vec<(Path, Kept)>,
    mark: u64,
}

impl Watch {
    pub fn new(paths: &[Path]) -> Watch {
        let mut seen = HashSet::new();
        let once = paths.iter().filter(|path| seen.insert(*path));
        let watched = once.map(|path| (path.clone(), Kept::Other("no-carousel".into()))).collect();
        Watch { tuner: Tuner::default(), watched, mark: 0 }
    }

    /// Hears a candidate, and writes a line for each watcher and each of its paths whose answer is
    /// another one now: the first watcher has all paths, and the second those of `now` and below.
    pub fn hear(&mut self, candidate: &[u8], out: &mut impl Write) -> io::Result<()> {
        self.mark += 1;
        if !self.tuner.feed(candidate) {
            return Ok(());
        }
        let mut changed = Vec::new();
        for (path, last) in &mut self.watched {
            let answer = self.tuner.open(path);
            if !last.is(&answer) {
                *last = Kept::of(&answer);
                changed.push((&*path, answer.text()));
            }
        }
        for watcher in 0..2 {
            for (path, text) in &changed {
                if watcher == 0 || path.first().is_some_and(|name| name == b"now") {
                    writeln!(out, "{watcher} {} {} {text}", self.mark, printed(path))?;
                }
            }
        }
        Ok(())
    }
}
