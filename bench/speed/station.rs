//! A plain catalogue under `std::sync::Mutex`, for the comparison in bench/speed/station alone:
//! `EDITORS ROUNDS`. In each round so many threads make 16,000 commits in all, each a put of 8
//! bytes as the same file. With 0 editors there is no lock. What is printed is how many commits
//! were accepted.
//!
//! A commit makes the next tree, a sorted list of paths and bytes behind `Arc`, lays its files and
//! their folder out in a module as BIOP messages, and enters the edits with the number of the
//! generation.

use std::sync::{Arc, Mutex};
use std::thread;

const BLOCK: usize = 4066;
const COMMITS: u32 = 16_000;

type Path = Arc<[Vec<u8>]>;
type Bytes = Arc<[u8]>;

#[allow(dead_code)]
enum Edit {
    Put(Path, Bytes),
    Remove(Path),
}

#[allow(dead_code)]
struct Entry {
    editor: u32,
    edits: Vec<Edit>,
    outcome: Result<u64, usize>,
}

struct Generation {
    number: u64,
    tree: Vec<(Path, Bytes)>,
    module: Arc<Vec<u8>>,
    blocks: usize,
}

struct Catalogue {
    carousel: u32,
    entries: Vec<Entry>,
    current: Arc<Generation>,
}

fn parse(text: &str) -> Path {
    text[1..].split('/').map(|name| name.as_bytes().to_vec()).collect()
}

/// The tree after the edits, or the place of the first that removes no file.
fn apply(tree: &[(Path, Bytes)], edits: &[Edit]) -> Result<Vec<(Path, Bytes)>, usize> {
    let mut next = tree.to_vec();
    for (place, edit) in edits.iter().enumerate() {
        match edit {
            Edit::Put(path, bytes) => match next.binary_search_by(|(it, _)| it.cmp(path)) {
                Ok(at) => next[at].1 = bytes.clone(),
                Err(at) => next.insert(at, (path.clone(), bytes.clone())),
            },
            Edit::Remove(path) => match next.binary_search_by(|(it, _)| it.cmp(path)) {
                Ok(at) => drop(next.remove(at)),
                Err(_) => return Err(place),
            },
        }
    }
    Ok(next)
}

/// A BIOP message of an object: its key, its kind, what stands before the body, and the body.
fn message(module: &mut Vec<u8>, key: u32, kind: &[u8; 4], info: &[u8], body: &[u8]) {
    module.extend(b"BIOP\x01\x00\x00\x00");
    module.extend(u32::to_be_bytes(20 + (info.len() + body.len()) as u32));
    module.push(4);
    module.extend(key.to_be_bytes());
    module.extend(4u32.to_be_bytes());
    module.extend(kind);
    module.extend((info.len() as u16).to_be_bytes());
    module.extend(info);
    module.push(0);
    module.extend((body.len() as u32).to_be_bytes());
    module.extend(body);
}

/// The folder and the files of a tree of one folder, as they stand in its module.
fn laid_out(carousel: u32, tree: &[(Path, Bytes)]) -> Vec<u8> {
    let mut folder = (tree.len() as u16).to_be_bytes().to_vec();
    for (key, (path, bytes)) in (1u32..).zip(tree) {
        let name = path.last().unwrap();
        folder.extend([1, name.len() as u8 + 1]);
        folder.extend(name);
        folder.extend(b"\0\x04fil\0\x01\0\0\0\x04fil\0\0\0\0\x01ISO\x06\0\0\0\x2B\0\x02ISOP\x0D");
        folder.extend(carousel.to_be_bytes());
        folder.extend(b"\0\x01\x01\0\x04");
        folder.extend(key.to_be_bytes());
        folder.extend(b"ISO@\x12\x01\0\0\0\x16\0\x01\x0A\0\x01\x80\0\0\x02\xFF\xFF\xFF\xFF\0\x08");
        folder.extend((bytes.len() as u64).to_be_bytes());
    }
    let mut module = Vec::new();
    message(&mut module, 0, b"srg\0", &[], &folder);
    for (key, (_, bytes)) in (1u32..).zip(tree) {
        message(&mut module, key, b"fil\0", &(bytes.len() as u64).to_be_bytes(), bytes);
    }
    module
}

impl Catalogue {
    fn new(carousel: u32) -> Catalogue {
        let module = Arc::new(laid_out(carousel, &[]));
        let current = Arc::new(Generation { number: 0, tree: Vec::new(), module, blocks: 1 });
        Catalogue { carousel, entries: Vec::new(), current }
    }

    fn commit(&mut self, editor: u32, edits: Vec<Edit>) -> Result<u64, usize> {
        let outcome = apply(&self.current.tree, &edits).map(|tree| {
            let module = laid_out(self.carousel, &tree);
            let module = if module == *self.current.module { self.current.module.clone() } else { Arc::new(module) };
            let (number, blocks) = (self.current.number + 1, module.len().div_ceil(BLOCK));
            self.current = Arc::new(Generation { number, tree, module, blocks });
            number
        });
        self.entries.push(Entry { editor, edits, outcome });
        outcome
    }
}

fn put(editor: u32, number: u32) -> Vec<Edit> {
    let bytes = [editor.to_be_bytes(), number.to_be_bytes()].concat();
    vec![Edit::Put(parse("/file"), bytes.into())]
}

fn accepted_by(editors: u32) -> Catalogue {
    let shared = Mutex::new(Catalogue::new(1));
    thread::scope(|scope| {
        for editor in 0..editors {
            let shared = &shared;
            scope.spawn(move || {
                for number in 0..COMMITS / editors {
                    let edits = put(editor, number);
                    let _answer = shared.lock().unwrap().commit(editor, edits);
                }
            });
        }
    });
    shared.into_inner().unwrap()
}

fn accepted_alone() -> Catalogue {
    let mut catalogue = Catalogue::new(1);
    for number in 0..COMMITS {
        let _answer = catalogue.commit(0, put(0, number));
    }
    catalogue
}

fn main() {
    let words: Vec<u32> = std::env::args().skip(1).map(|word| word.parse().unwrap()).collect();
    let mut accepted = 0;
    for _ in 0..words[1] {
        let catalogue = if words[0] == 0 { accepted_alone() } else { accepted_by(words[0]) };
        assert!(catalogue.current.blocks == 1 && catalogue.entries.len() as u64 == catalogue.current.number);
        accepted += catalogue.current.number;
    }
    println!("{accepted}");
}
