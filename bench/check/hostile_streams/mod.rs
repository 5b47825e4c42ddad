//! Streams of transport packets with everything wrong in them that a receiver can meet, for
//! bench/check/hostile. What is sent and what befalls it comes from a number alone, so that each
//! stream can be made again.

mod carousels;
mod chance;
mod limits;
mod sender;
mod way;
mod writer;

use carousels::{Carousel, Size};
pub use chance::Chance;
use sender::Sender;
use way::{Lane, travelled};

use crate::receiver::Path;

/// A stream, the sections that were sent in it, the PID of its carousel, and paths to ask of it.
pub struct Piece {
    pub bytes: Vec<u8>,
    pub sections: Vec<u8>,
    pub pid: u16,
    pub paths: Vec<Path>,
}

/// One piece of so many is a carousel at a limit of the receiver.
const LIMITS_ONE_IN: usize = 60;
/// Pieces of at most so many bytes are small: none of them is at a limit.
pub const SMALL: usize = 60_000;
const MOST_PATHS: usize = 24;

/// The piece of a number, of at most about `most` bytes.
pub fn piece(number: u64, most: usize) -> Piece {
    let mut chance = Chance::new(number);
    let pid = chance.pick(&[256, 256, 256, 256, 0, 1, 33, 0x1000, 8190]);
    if most > SMALL && chance.one_in(LIMITS_ONE_IN) {
        limit_piece(pid, &mut chance)
    } else {
        carousel_piece(pid, most, &mut chance)
    }
}

fn limit_piece(pid: u16, chance: &mut Chance) -> Piece {
    let sections = limits::at_a_limit(chance);
    let bytes = Lane::new(pid, chance).packed(&sections).concat();
    let paths = vec![vec![], vec![b"a".to_vec()], vec![b"a".to_vec(), b"b".to_vec()]];
    Piece { bytes, sections: sections.concat(), pid, paths }
}

/// Stretches of a made carousel, good ones and forged ones, each with what befalls it, and an end
/// that arrives unhurt.
fn carousel_piece(pid: u16, most: usize, chance: &mut Chance) -> Piece {
    let is_small = most <= SMALL || chance.one_in(4);
    let length = chance.within(1..=if is_small { SMALL.min(most) } else { most });
    let size = size_of_files(is_small, chance);
    let carousel = carousels::made(chance, size);
    let mut sender = Sender::new(&carousel, chance);
    let (mut lane, begin) = (Lane::new(pid, chance), sender.begin(chance));
    let (mut bytes, mut sections) = (lane.apart(&begin).concat(), begin.concat());
    while bytes.len() < length {
        let stretch = sender.stretch(chance);
        let packets = lane.lay(&stretch, chance);
        bytes.append(&mut travelled(packets, pid, chance));
        sections.append(&mut stretch.concat());
    }
    let end = sender.end(chance);
    bytes.append(&mut lane.packed(&end).concat());
    sections.append(&mut end.concat());
    if chance.one_in(4) {
        let torn = chance.within(1..=187);
        bytes.append(&mut chance.bytes(torn));
    }
    Piece { bytes, sections, pid, paths: paths_to_ask(carousel, chance) }
}

fn size_of_files(is_small: bool, chance: &mut Chance) -> Size {
    if is_small {
        chance.pick(&[Size::Tiny, Size::Tiny, Size::Middle])
    } else {
        chance.pick(&[Size::Tiny, Size::Middle, Size::Large, Size::Large])
    }
}

/// The root, paths of objects, and some that lead below a file or nowhere.
fn paths_to_ask(carousel: Carousel, chance: &mut Chance) -> Vec<Path> {
    let mut paths = carousel.paths;
    for name in [&b"a"[..], b"e", b"l", b"no such"] {
        let mut path = chance.pick(&paths);
        path.push(name.to_vec());
        paths.push(path);
    }
    paths.retain(|it| it.len() <= 16);
    chance.shuffle(&mut paths);
    paths.truncate(MOST_PATHS);
    paths.push(Path::new());
    paths
}
