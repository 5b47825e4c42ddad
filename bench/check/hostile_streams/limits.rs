//! Carousels at the receiver's limits, and some beyond them by one.

use super::chance::Chance;
use super::writer::*;

const MOST_MODULE: u32 = 16_842_752;
const MOST_BLOCKS: u32 = 65_536;
const MOST_SUM: u32 = 268_435_456;

const GATEWAY_KEY: [u8; 4] = [0, 0, 0, 1];
const FILE_KEY: [u8; 4] = [0, 0, 0, 2];
const TRANSACTION: u32 = 0x8000_0002;

/// The sections of one carousel at a limit.
pub fn at_a_limit(chance: &mut Chance) -> Vec<Vec<u8>> {
    match chance.below(7) {
        0 => one_file(MOST_MODULE, MOST_BLOCK as u16, chance),
        1 => one_file(MOST_MODULE, (MOST_MODULE / MOST_BLOCKS) as u16, chance),
        2 => one_file(MOST_MODULE + 1, MOST_BLOCK as u16, chance),
        3 => one_file(MOST_BLOCKS, 1, chance),
        4 => one_file(MOST_BLOCKS + 1, 1, chance),
        5 => greatest_sum(chance),
        _ => most_lines(chance),
    }
}

fn gateway_dsi() -> Vec<u8> {
    dsi(&reference(1, 1, &GATEWAY_KEY, TRANSACTION))
}

/// The gateway's message, with the name `a` bound to an object of module 2.
fn gateway() -> Vec<u8> {
    let bindings = [binding(b"a\0", &reference(1, 2, &FILE_KEY, TRANSACTION))];
    object(&GATEWAY_KEY, GATEWAY, 0, &folder_body(&bindings), &[])
}

fn line(id: u16, size: u32) -> Line {
    Line { id, size, version: 0, info: vec![] }
}

fn listed(version: u16, block_size: u16, lines: &[Line]) -> Vec<u8> {
    dii(&Download { id: 1, block_size, version, identification: 1 }, lines)
}

/// As many blocks of a module as have a number.
fn blocks(id: u16, bytes: &[u8], block_size: u16) -> Vec<Vec<u8>> {
    let parts = bytes.chunks(block_size.into()).take(MOST_BLOCKS as usize);
    parts.enumerate().map(|(block, part)| ddb(1, id, 0, block as u16, part)).collect()
}

/// A gateway, and a module of one file that has so many bytes, in blocks of this size.
fn one_file(size: u32, block_size: u16, chance: &mut Chance) -> Vec<Vec<u8>> {
    let empty = object(&FILE_KEY, FILE, 0, &file_body(&[]), &[]).len();
    let content = chance.bytes(size as usize - empty);
    let (gateway, file) = (gateway(), object(&FILE_KEY, FILE, 0, &file_body(&content), &[]));
    let lines = [line(1, gateway.len() as u32), line(2, file.len() as u32)];
    let begin = vec![gateway_dsi(), listed(1, block_size, &lines)];
    [begin, blocks(1, &gateway, block_size), blocks(2, &file, block_size)].concat()
}

/// A DII whose modules' sum is the greatest, after one and before another that don't list the
/// gateway's module. The later one has a byte too many.
fn greatest_sum(chance: &mut Chance) -> Vec<Vec<u8>> {
    let (size, gateway) = (MOST_BLOCK as u16, gateway());
    let full: Vec<Line> = (2..).map(|id| line(id, MOST_MODULE)).take((MOST_SUM / MOST_MODULE) as usize).collect();
    let (last, rest) = (full.len() as u16 + 2, MOST_SUM % MOST_MODULE);
    let in_the_gateway = gateway.len() as u32;
    let greatest = [&full[..], &[line(last, rest - in_the_gateway), line(1, in_the_gateway)]].concat();
    let beyond = [&full[..], &[line(last, rest + 1)]].concat();
    let mut sections = vec![gateway_dsi(), listed(1, size, &full[..1]), listed(2, size, &greatest), ddb(1, 1, 0, 0, &gateway)];
    sections.extend((2..last).map(|id| ddb(1, id, 0, 7, &chance.bytes(MOST_BLOCK))));
    sections.push(listed(3, size, &beyond));
    sections
}

/// A DII of as many modules as a section has room for, most of which have no bytes.
fn most_lines(chance: &mut Chance) -> Vec<Vec<u8>> {
    let gateway = gateway();
    let mut lines = vec![line(1, gateway.len() as u32)];
    lines.extend((2..=506).map(|id| line(id, chance.below(2) as u32)));
    let begin = vec![gateway_dsi(), listed(1, 1, &lines)];
    [begin, blocks(1, &gateway, 1)].concat()
}
