//! What is sent of a made carousel: good stretches of its sections, and forged ones with a right
//! CRC.

use super::carousels::Carousel;
use super::chance::Chance;
use super::writer::*;

type Sections = Vec<Vec<u8>>;

/// A module as it is sent now.
struct Sent {
    id: u16,
    version: u8,
    is_compressed: bool,
    bytes: Vec<u8>,
}

pub struct Sender<'a> {
    carousel: &'a Carousel,
    download: Download,
    now: Vec<Sent>,
    /// A careless one doesn't raise the version of a module that changes.
    is_careless: bool,
}

/// The kinds of stretches.
#[derive(Clone, Copy)]
enum Stretch {
    Cycle,
    Part,
    Commits,
    OtherByteAtEachPlace,
    CutAtEachPlace,
    ByteMoreAtEachPlace,
    Otherwise,
    Alternating,
    OddDiis,
    OddBlocks,
    OddDsis,
}

const STRETCHES: [Stretch; 15] = [
    Stretch::Cycle,
    Stretch::Cycle,
    Stretch::Cycle,
    Stretch::Part,
    Stretch::Part,
    Stretch::Commits,
    Stretch::Commits,
    Stretch::OtherByteAtEachPlace,
    Stretch::CutAtEachPlace,
    Stretch::ByteMoreAtEachPlace,
    Stretch::Otherwise,
    Stretch::Alternating,
    Stretch::OddDiis,
    Stretch::OddBlocks,
    Stretch::OddDsis,
];

/// The bytes of the longest section.
const MOST_SECTION: usize = 4096;

/// What is hurt at each place.
#[derive(Clone, Copy)]
enum Target {
    Dsi,
    Dii,
    Block,
}

/// The bytes of a block's section up to some of its contents.
const BLOCK_FRONT: usize = 40;

/// How many places of a message one stretch goes through.
const PLACES: usize = 64;

/// Bytes that are put where others belong: limits of numbers, and the tags of what is sought.
const TELLING: [u8; 8] = [0, 1, 0xFF, 0x80, 0x7F, 0x09, 0x16, 0x0F];

impl<'a> Sender<'a> {
    pub fn new(carousel: &'a Carousel, chance: &mut Chance) -> Sender<'a> {
        let download = Download {
            id: chance.pick(&[carousel.id, carousel.id, 0, 99]),
            block_size: chance.pick(&[4066, 4066, 4066, 4066, 4066, 4065, 1000, 183, 100]),
            version: chance.pick(&[0, 1, 1, 5, 16_380, 16_383]),
            identification: carousel.identification,
        };
        let now = carousel.modules.iter();
        let now = now.map(|it| Sent { id: it.id, version: chance.byte(), is_compressed: false, bytes: it.forms[0].clone() });
        let now = now.collect();
        Sender { carousel, download, now, is_careless: chance.one_in(8) }
    }

    /// The sections of some stretch.
    pub fn stretch(&mut self, chance: &mut Chance) -> Sections {
        match chance.pick(&STRETCHES) {
            Stretch::Cycle => self.cycle(),
            Stretch::Part => self.part(chance),
            Stretch::Commits => self.commits(chance),
            Stretch::OtherByteAtEachPlace => self.at_each_place(chance, with_another_byte),
            Stretch::CutAtEachPlace => self.at_each_place(chance, cut),
            Stretch::ByteMoreAtEachPlace => self.at_each_place(chance, with_a_byte_more),
            Stretch::Otherwise => self.otherwise(chance),
            Stretch::Alternating => self.alternating(chance),
            Stretch::OddDiis => self.odd_diis(chance),
            Stretch::OddBlocks => self.odd_blocks(chance),
            Stretch::OddDsis => self.odd_dsis(chance),
        }
    }

    // Good stretches

    fn lines(&self) -> Vec<Line> {
        let info = |it: &Sent| module_info(if it.is_compressed { COMPRESSED } else { b"" });
        self.now.iter().map(|it| Line { id: it.id, size: it.bytes.len() as u32, version: it.version, info: info(it) }).collect()
    }

    fn dsi(&self) -> Vec<u8> {
        dsi(&self.carousel.gateway)
    }

    fn dii(&self) -> Vec<u8> {
        dii(&self.download, &self.lines())
    }

    fn block(&self, module: usize, block: usize) -> Vec<u8> {
        let (sent, size) = (&self.now[module], usize::from(self.download.block_size));
        let bytes = &sent.bytes[block * size..sent.bytes.len().min((block + 1) * size)];
        ddb(self.download.id, sent.id, sent.version, block as u16, bytes)
    }

    /// The module and the number of each block.
    fn blocks(&self) -> Vec<(usize, usize)> {
        let size = usize::from(self.download.block_size);
        let count = |module: usize| self.now[module].bytes.len().div_ceil(size).min(65_536);
        (0..self.now.len()).flat_map(|module| (0..count(module)).map(move |block| (module, block))).collect()
    }

    pub fn cycle(&self) -> Sections {
        let blocks = self.blocks().into_iter().map(|(module, block)| self.block(module, block));
        [self.dsi(), self.dii()].into_iter().chain(blocks).collect()
    }

    /// The last sections of a piece: a good cycle, one of hurt modules, one with an odd DII, a DII
    /// of a far version that changes nothing else, or none.
    pub fn end(&mut self, chance: &mut Chance) -> Sections {
        match chance.below(12) {
            0 => Sections::new(),
            1 => {
                self.download.version = self.download.version.wrapping_add(chance.pick(&[255, 256, 257]));
                vec![self.dii()]
            }
            2..5 => {
                self.mend(chance);
                self.odd_cycle(chance)
            }
            5 | 6 => {
                self.spoil(chance);
                self.cycle()
            }
            _ => {
                self.mend(chance);
                self.cycle()
            }
        }
    }

    /// The first sections of a piece: mostly a good cycle.
    pub fn begin(&self, chance: &mut Chance) -> Sections {
        match chance.below(16) {
            0 => Sections::new(),
            1 => self.odd_cycle(chance),
            _ => self.cycle(),
        }
    }

    /// A cycle of a new version, with a DII that says something else of it.
    fn odd_cycle(&self, chance: &mut Chance) -> Sections {
        let (mut download, mut lines, mut sections) = (self.download.clone(), self.lines(), self.cycle());
        make_odd(&mut download, &mut lines, chance);
        sections[1] = dii(&download, &lines);
        sections
    }

    /// A cycle whose messages are spelled otherwise, and say the same.
    fn otherwise(&mut self, chance: &mut Chance) -> Sections {
        self.commit(chance);
        self.cycle().iter().map(|it| spelled_otherwise(it, chance)).collect()
    }

    /// Some of a cycle, in any order.
    fn part(&self, chance: &mut Chance) -> Sections {
        let mut blocks = self.blocks();
        chance.shuffle(&mut blocks);
        blocks.truncate(chance.below(blocks.len() + 1));
        let mut sections: Sections = blocks.into_iter().map(|(module, block)| self.block(module, block)).collect();
        if chance.one_in(2) {
            sections.insert(chance.below(sections.len() + 1), self.dii());
        }
        sections
    }

    // Commits

    /// Every module as it was made, or in its other form, under a version that wasn't sent before.
    pub fn mend(&mut self, chance: &mut Chance) {
        for (sent, module) in self.now.iter_mut().zip(&self.carousel.modules) {
            let bytes = chance.pick(&module.forms);
            if sent.bytes != bytes || sent.is_compressed {
                *sent = Sent { id: sent.id, version: sent.version.wrapping_add(1), is_compressed: false, bytes };
            }
        }
        self.download.version = self.download.version.wrapping_add(1);
    }

    /// Some modules hurt or compressed, under versions that weren't sent before.
    pub fn spoil(&mut self, chance: &mut Chance) {
        for (sent, module) in self.now.iter_mut().zip(&self.carousel.modules) {
            if chance.one_in(3) {
                let (is_compressed, bytes) = (chance.one_in(4), hurt(chance.pick(&module.forms), chance));
                *sent = Sent { id: sent.id, version: sent.version.wrapping_add(1), is_compressed, bytes };
            }
        }
        self.download.version = self.download.version.wrapping_add(1);
    }

    /// A new version: one step on or another number of them, with some modules changed.
    fn commit(&mut self, chance: &mut Chance) {
        let step = chance.pick(&[1, 1, 1, 1, 1, 2, 100, 255, 256, 257, 512, 8192, 16_383]);
        self.download.version = self.download.version.wrapping_add(step);
        for module in 0..self.now.len() {
            if chance.one_in(4) {
                self.change(module, chance);
            }
        }
    }

    fn change(&mut self, module: usize, chance: &mut Chance) {
        let (sent, forms) = (&mut self.now[module], &self.carousel.modules[module].forms);
        sent.is_compressed = chance.one_in(16);
        sent.bytes = match chance.below(8) {
            0 => hurt(forms[0].clone(), chance),
            1 if chance.one_in(4) => Vec::new(),
            _ => chance.pick(forms),
        };
        if !self.is_careless {
            sent.version = sent.version.wrapping_add(1);
        }
    }

    /// Commits one after another, each with its DII and some blocks.
    fn commits(&mut self, chance: &mut Chance) -> Sections {
        let mut sections = Sections::new();
        for _ in 0..chance.within(1..=4) {
            self.commit(chance);
            sections.push(self.dii());
            sections.append(&mut self.part(chance));
        }
        sections
    }

    // Forged sections

    /// A control message or blocks, hurt at one place after another.
    fn at_each_place(&mut self, chance: &mut Chance, hurts: fn(&[u8], usize, &mut Chance) -> Vec<u8>) -> Sections {
        let target = chance.pick(&[Target::Dsi, Target::Dii, Target::Block]);
        let length = match target {
            Target::Block => BLOCK_FRONT,
            _ => self.sound(target, chance).len(),
        };
        let first = if chance.one_in(2) { 0 } else { chance.below(length.saturating_sub(PLACES) + 1) };
        let mut sections = Sections::new();
        for place in first..length.min(first + PLACES) {
            let section = self.sound(target, chance);
            sections.push(hurts(&section, place.min(section.len() - 5), chance));
        }
        sections
    }

    /// A sound section of the kind. Each DII has a version of its own, so that it turns. Without
    /// blocks it is a DSI.
    fn sound(&mut self, target: Target, chance: &mut Chance) -> Vec<u8> {
        let blocks = self.blocks();
        match target {
            Target::Dii => {
                self.download.version = self.download.version.wrapping_add(1);
                self.dii()
            }
            Target::Block if !blocks.is_empty() => {
                let (module, block) = chance.pick(&blocks);
                self.block(module, block)
            }
            _ => self.dsi(),
        }
    }

    /// DIIs of two to four versions by turns, with nothing or some blocks between. The versions are
    /// near each other, or 255 to 257 apart.
    fn alternating(&mut self, chance: &mut Chance) -> Sections {
        let apart = chance.pick(&[1, 1, 255, 256, 256, 257, 16_127]);
        let between = chance.pick(&[0, 1, 5]);
        let first = self.download.version;
        let mut versions = Vec::new();
        for number in 0..chance.within(2..=4) as u16 {
            self.commit(chance);
            self.download.version = first.wrapping_add(number * apart);
            versions.push((self.dii(), self.some_blocks(chance)));
        }
        let mut sections = Sections::new();
        for _ in 0..chance.within(1..=40) {
            for (dii, blocks) in &versions {
                sections.push(dii.clone());
                for _ in 0..between.min(blocks.len()) {
                    sections.push(chance.pick(blocks));
                }
            }
        }
        sections
    }

    fn some_blocks(&self, chance: &mut Chance) -> Sections {
        let mut blocks = self.blocks();
        chance.shuffle(&mut blocks);
        blocks.truncate(30);
        blocks.into_iter().map(|(module, block)| self.block(module, block)).collect()
    }

    /// DIIs of another download, identification or block size, and with lines that belong in no
    /// DII.
    fn odd_diis(&mut self, chance: &mut Chance) -> Sections {
        let mut sections = Sections::new();
        for _ in 0..chance.within(1..=30) {
            self.download.version = self.download.version.wrapping_add(chance.pick(&[0, 1, 1, 1, 255, 256]));
            let (mut download, mut lines) = (self.download.clone(), self.lines());
            make_odd(&mut download, &mut lines, chance);
            sections.push(dii(&download, &lines));
            if chance.one_in(3) {
                sections.extend(self.some_blocks(chance).into_iter().take(3));
            }
        }
        sections
    }

    /// Blocks of a wrong length, place, module, version or download, and of other bytes. Mostly
    /// they come when every module has just changed, so that a block that is taken by mistake
    /// stays.
    fn odd_blocks(&mut self, chance: &mut Chance) -> Sections {
        let mut sections = Sections::new();
        if !chance.one_in(3) {
            (0..self.now.len()).for_each(|module| self.change(module, chance));
            self.download.version = self.download.version.wrapping_add(1);
            sections.push(self.dii());
        }
        let blocks = self.blocks();
        for _ in 0..if blocks.is_empty() { 0 } else { chance.within(1..=60) } {
            let (module, block) = chance.pick(&blocks);
            sections.push(self.odd_block(module, block, chance));
        }
        sections
    }

    fn odd_block(&self, module: usize, block: usize, chance: &mut Chance) -> Vec<u8> {
        let (sent, size) = (&self.now[module], usize::from(self.download.block_size));
        let right = &sent.bytes[block * size..sent.bytes.len().min((block + 1) * size)];
        let other = chance.bytes(right.len());
        let bytes = if chance.one_in(3) { right } else { &other };
        let (download, id, version, number) = (self.download.id, sent.id, sent.version, block as u16);
        match chance.below(9) {
            0 => ddb(download, id, version, number, &bytes[1..]),
            1 if bytes.len() < MOST_BLOCK => ddb(download, id, version, number, &bytes.to_vec().u8(0)),
            2 => ddb(download, id, version, number, &[]),
            3 => ddb(download, id, version, chance.pick(&[number ^ 1, number | 0x0100, 65_535]), bytes),
            4 => ddb(download, id ^ chance.pick(&[1, 0x0100]), version, number, bytes),
            5 => ddb(download, id, version ^ chance.pick(&[1, 0x20, 0x80]), number, bytes),
            6 => ddb(download ^ 1, id, version, number, bytes),
            7 => ddb(download, id, version, number, &other),
            _ => ddb(download, id, version, number, right),
        }
    }

    /// DSIs that name another gateway, or none.
    fn odd_dsis(&mut self, chance: &mut Chance) -> Sections {
        let transaction = self.download.transaction();
        let mut sections = Sections::new();
        for _ in 0..chance.within(1..=6) {
            let (id, sent) = (self.carousel.id, chance.below(self.now.len()));
            let key = (chance.within(1..=5) as u32).to_be_bytes();
            let gateway = match chance.below(6) {
                0 => ior(&[]),
                1 => ior(&[(0x1234_5678, vec![1, 2])]),
                2 => reference(id ^ 1, self.now[0].id, &key, transaction),
                3 => reference(id, self.now[sent].id, &key, transaction),
                4 => reference(id, self.now[0].id, &key, transaction ^ 2),
                _ => self.carousel.gateway.clone(),
            };
            sections.push(dsi(&gateway));
        }
        sections
    }
}

/// Turns a DII into one that is out of the ordinary, or beyond a limit, in one point.
fn make_odd(download: &mut Download, lines: &mut Vec<Line>, chance: &mut Chance) {
    let place = chance.below(lines.len());
    match chance.below(16) {
        0 => download.id ^= 1,
        1 => download.identification = chance.pick(&[0, download.identification ^ 1]),
        2 => download.block_size = chance.pick(&[0, 4067, 65_535]),
        3 => download.block_size = chance.pick(&[1, 100, 4065]),
        4 => lines.push(lines[place].clone()),
        5 => lines[place].size = chance.pick(&[16_842_752, 16_842_753, u32::MAX]),
        6 => lines[place].size = 65_536 * u32::from(download.block_size) + chance.pick(&[0, 1]),
        7 => lines.extend((40_000..).take(chance.within(15..=16)).map(|id| line(id, 16_842_752))),
        8 => lines[place].size ^= chance.pick(&[1, 0x0100]),
        9 => lines[place].version ^= chance.pick(&[1, 0x80]),
        10 | 15 => lines[place].info = odd_info(chance),
        11 => lines.truncate(place),
        12 => chance.shuffle(lines),
        13 => lines.extend((50_000..).take(100).map(|id| line(id, chance.pick(&[0, 5])))),
        14 => lines[place].size = 0,
        _ => {}
    }
}

fn line(id: u16, size: u32) -> Line {
    Line { id, size, version: 0, info: vec![] }
}

/// A moduleInfo in which a descriptor of a compressed module stands, or almost.
fn odd_info(chance: &mut Chance) -> Vec<u8> {
    let other = [0x70, 2, 9, 0];
    match chance.below(8) {
        0 => module_info(&other.to_vec().bytes(COMPRESSED)),
        1 => module_info(&[0x09, 0]),
        2 => module_info(&[0x09]),
        3 => module_info(&[0x09, 6, 1, 0, 0, 0, 0]),
        4 => module_info(&[0x70, 200, 9, 0]),
        5 => module_info(COMPRESSED).bytes(b"rear"),
        6 => module_info(COMPRESSED)[..chance.within(0..=27)].to_vec(),
        _ => vec![],
    }
}

// Damage to a section or a module

/// A place of a module is hurt: mostly near a message's begin.
fn hurt(mut bytes: Vec<u8>, chance: &mut Chance) -> Vec<u8> {
    let begins: Vec<usize> = bytes.windows(4).enumerate().filter(|(_, it)| *it == b"BIOP").map(|(place, _)| place).collect();
    if begins.is_empty() {
        return bytes;
    }
    let far = chance.pick(&[30, 60, 200]);
    let place = (chance.pick(&begins) + chance.below(far)).min(bytes.len() - 1);
    match chance.below(4) {
        0 => bytes.truncate(place),
        1 => bytes.insert(place, chance.byte()),
        2 => bytes[place] = chance.pick(&TELLING),
        _ => bytes[place] ^= 1 << chance.below(8),
    }
    bytes
}

/// The section with another byte at a place, and a right CRC over it.
fn with_another_byte(section: &[u8], place: usize, chance: &mut Chance) -> Vec<u8> {
    let mut section = section.to_vec();
    section[place] = match chance.below(4) {
        0 => chance.pick(&TELLING),
        1 => section[place].wrapping_add(1),
        2 => section[place].wrapping_sub(1),
        _ => section[place] ^ 1 << chance.below(8),
    };
    seal(&mut section);
    section
}

/// The section with bytes more in its message's adaptation, in its compatibility descriptor or
/// after its message, where there is room for them.
fn spelled_otherwise(section: &[u8], chance: &mut Chance) -> Vec<u8> {
    let mut longer = section.to_vec();
    let descriptor = match u16::from_be_bytes([section[10], section[11]]) {
        0x1006 => 40,
        0x1002 => 36,
        _ => 0,
    };
    let count = chance.below((MOST_SECTION - section.len()).min(20) + 1);
    let more = chance.bytes(count);
    let (place, is_inside) = match chance.below(3) {
        0 => {
            longer[17] = count as u8;
            (20, true)
        }
        1 if descriptor > 0 => {
            longer[descriptor + 1] = count as u8;
            (descriptor + 2, true)
        }
        _ => (section.len() - 4, false),
    };
    longer.splice(place..place, more);
    if is_inside {
        let length = u16::from_be_bytes([longer[18], longer[19]]) + count as u16;
        longer[18..20].copy_from_slice(&length.to_be_bytes());
    }
    close(&mut longer);
    longer
}

/// The section with its payload cut at a place, or as much of it as a section needs, with a right
/// length and CRC.
fn cut(section: &[u8], place: usize, chance: &mut Chance) -> Vec<u8> {
    let mut section = section[..place.max(3)].to_vec().u32(0);
    fit_message(&mut section, chance);
    close(&mut section);
    section
}

/// The section with a byte more at a place, with a right length and CRC.
fn with_a_byte_more(section: &[u8], place: usize, chance: &mut Chance) -> Vec<u8> {
    let mut longer = section.to_vec();
    longer.insert(place.max(3), chance.byte());
    fit_message(&mut longer, chance);
    close(&mut longer);
    longer
}

/// Now and then the message says how many bytes it has now, so that what doesn't fit is inside it.
fn fit_message(section: &mut [u8], chance: &mut Chance) {
    if section.len() >= 24 && chance.one_in(2) {
        let length = section.len() as u16 - 24;
        section[18..20].copy_from_slice(&length.to_be_bytes());
    }
}
