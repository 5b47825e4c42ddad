//! Plain readers under one `std::sync::Mutex`, for the comparison in bench/speed/opens alone:
//! `READERS ROUNDS`. In each round so many threads make 120,000 opens in all, by turns of a file,
//! of its folder and of a name that isn't there, while a feeder replaces the shot until all of them
//! are through. What is printed is how many opens answered the file.
//!
//! A shot stands behind `Arc` in the mutex. An open takes the lock for as long as it takes to clone
//! the `Arc`, and resolves its path on the shot that it got; answers on one shot are kept, up to 64
//! of them.

use std::collections::HashMap;
use std::sync::atomic::{AtomicU64, Ordering};
use std::sync::{Arc, Mutex};
use std::thread;

const OPENS: u64 = 120_000;
const KEPT: usize = 64;

type Path = Vec<Vec<u8>>;

enum Object {
    File(usize, usize),
    Folder(Vec<(Vec<u8>, [u8; 4])>),
}

#[allow(dead_code)]
struct Module {
    bytes: Vec<u8>,
    index: Vec<([u8; 4], Object)>,
}

#[allow(dead_code)]
struct Shot {
    number: u64,
    label: Option<u64>,
    gateway: Vec<u8>,
    table: Vec<(u16, Option<Arc<Module>>)>,
}

#[allow(dead_code)]
#[derive(Clone)]
enum Answer {
    File(Arc<Module>, usize, usize),
    Folder(Arc<Module>, usize),
    NoSuch,
    NotYet(u16),
}

#[allow(dead_code)]
struct Open {
    shot: u64,
    label: Option<u64>,
    path: Path,
    answer: Answer,
}

struct Reader<'a> {
    board: &'a Mutex<Arc<Shot>>,
    on: u64,
    kept: HashMap<Vec<u8>, Answer>,
    opens: Vec<Open>,
}

fn parse(text: &[u8]) -> Path {
    if text == b"/" { Vec::new() } else { text[1..].split(|byte| *byte == b'/').map(<[u8]>::to_vec).collect() }
}

fn print(path: &Path) -> Vec<u8> {
    if path.is_empty() { b"/".to_vec() } else { path.iter().flat_map(|name| [b"/", name.as_slice()].concat()).collect() }
}

fn number(bytes: &[u8]) -> usize {
    bytes.iter().fold(0, |all, byte| all << 8 | *byte as usize)
}

/// A module's index: keys of four bytes, files, and folders whose bindings have one component and
/// an IOR of 55 bytes.
fn read(bytes: Vec<u8>) -> Module {
    let (mut at, mut index) = (0, Vec::new());
    while at < bytes.len() {
        let size = number(&bytes[at + 8..at + 12]);
        let (key, kind) = (bytes[at + 13..at + 17].try_into().unwrap(), &bytes[at + 21..at + 25]);
        let body = at + 27 + number(&bytes[at + 25..at + 27]) + 1;
        let object = if kind == b"fil\0" {
            Object::File(body + 4 + 4, number(&bytes[body + 4..body + 8]))
        } else {
            let (mut place, mut bindings) = (body + 6, Vec::new());
            for _ in 0..number(&bytes[body + 4..body + 6]) {
                let length = bytes[place + 1] as usize;
                let name = bytes[place + 2..place + 1 + length].to_vec();
                let target = place + 2 + length + 5 + 1;
                bindings.push((name, bytes[target + 36..target + 40].try_into().unwrap()));
                place = target + 63 + 2;
            }
            Object::Folder(bindings)
        };
        index.push((key, object));
        at += 12 + size;
    }
    Module { bytes, index }
}

/// The gateway under key 1, and under key 2 the file `f` of five bytes.
fn module() -> Arc<Module> {
    let mut bytes = b"BIOP\x01\x00\x00\x00\x00\x00\x00\x61\x04\x00\x00\x00\x01\x00\x00\x00\x04srg\x00".to_vec();
    bytes.extend(b"\x00\x00\x00\x00\x00\x00\x4D\x00\x01\x01\x02f\x00\x04fil\x00\x01\x00\x00\x00\x04fil\x00");
    bytes.extend(b"\x00\x00\x00\x01\x49\x53\x4F\x06\x00\x00\x00\x2B\x00\x02\x49\x53\x4F\x50\x0D\x00\x00\x00\x01");
    bytes.extend(b"\x00\x01\x01\x00\x04\x00\x00\x00\x02\x49\x53\x4F\x40\x12\x01\x00\x00\x00\x16\x00\x01\x0A");
    bytes.extend(b"\x00\x01\x80\x00\x00\x02\xFF\xFF\xFF\xFF\x00\x00");
    bytes.extend(b"BIOP\x01\x00\x00\x00\x00\x00\x00\x1D\x04\x00\x00\x00\x02\x00\x00\x00\x04fil\x00");
    bytes.extend(b"\x00\x00\x00\x00\x00\x00\x09\x00\x00\x00\x05hello");
    Arc::new(read(bytes))
}

fn shot(number: u64, module: &Arc<Module>) -> Arc<Shot> {
    Arc::new(Shot { number, label: Some(number), gateway: vec![0, 0, 0, 1], table: vec![(1, Some(module.clone()))] })
}

fn resolve(shot: &Shot, path: &Path) -> Answer {
    let Some(Some(module)) = shot.table.iter().find(|(id, _)| *id == 1).map(|(_, module)| module) else {
        return Answer::NotYet(1);
    };
    let found = |key: &[u8]| module.index.iter().position(|(it, _)| it == key);
    let mut at = found(&shot.gateway);
    for name in path {
        at = at.and_then(|place| match &module.index[place].1 {
            Object::Folder(bindings) => bindings.iter().find(|(it, _)| it == name).and_then(|(_, key)| found(key)),
            Object::File(..) => None,
        });
    }
    match at.map(|place| (place, &module.index[place].1)) {
        Some((_, Object::File(first, length))) => Answer::File(module.clone(), *first, *length),
        Some((place, Object::Folder(_))) => Answer::Folder(module.clone(), place),
        None => Answer::NoSuch,
    }
}

impl Reader<'_> {
    fn open(&mut self, path: Path) {
        let shot = self.board.lock().unwrap().clone();
        if shot.number != self.on {
            self.kept.clear();
            self.on = shot.number;
        }
        let text = print(&path);
        let answer = match self.kept.get(&text) {
            Some(answer) => answer.clone(),
            None => {
                let answer = resolve(&shot, &path);
                if self.kept.len() < KEPT {
                    self.kept.insert(text, answer.clone());
                }
                answer
            }
        };
        self.opens.push(Open { shot: shot.number, label: shot.label, path, answer });
    }
}

/// How many opens of a round answered the file, and how many shots were shown.
fn opened_by(readers: u64) -> u64 {
    let module = module();
    let board = Mutex::new(shot(0, &module));
    let (through, files) = (AtomicU64::new(0), AtomicU64::new(0));
    thread::scope(|scope| {
        for _ in 0..readers {
            let (board, through, files) = (&board, &through, &files);
            scope.spawn(move || {
                let mut reader = Reader { board, on: 0, kept: HashMap::new(), opens: Vec::with_capacity(OPENS as usize) };
                for number in 0..OPENS / readers {
                    reader.open(parse([b"/f".as_slice(), b"/", b"/g"][number as usize % 3]));
                }
                through.fetch_add(1, Ordering::SeqCst);
                let found = reader.opens.iter().filter(|open| matches!(open.answer, Answer::File(..))).count();
                files.fetch_add(found as u64, Ordering::SeqCst);
            });
        }
        let mut number = 0;
        while through.load(Ordering::SeqCst) < readers {
            number += 1;
            let next = shot(number, &module);
            *board.lock().unwrap() = next;
        }
    });
    files.into_inner()
}

fn main() {
    let words: Vec<u64> = std::env::args().skip(1).map(|word| word.parse().unwrap()).collect();
    println!("{}", (0..words[1]).map(|_| opened_by(words[0])).sum::<u64>());
}
