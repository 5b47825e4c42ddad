//! Made carousels: objects in modules, most of which are sound, with bindings that lead in circles,
//! elsewhere or nowhere.

use super::chance::Chance;
use super::writer::*;
use crate::receiver::Path;

/// How large the files of a carousel are.
#[derive(Clone, Copy, PartialEq)]
pub enum Size {
    Tiny,
    Middle,
    Large,
}

pub struct Carousel {
    pub id: u32,
    pub identification: u16,
    /// The reference in its DSI.
    pub gateway: Vec<u8>,
    pub modules: Vec<Module>,
    /// Where its objects are, and some paths more.
    pub paths: Vec<Path>,
}

/// A module in two forms, with the same objects and mostly other contents.
pub struct Module {
    pub id: u16,
    pub forms: [Vec<u8>; 2],
}

#[derive(Clone, Copy, PartialEq)]
enum Kind {
    File,
    Folder,
    Other,
}

struct Object {
    /// Its module's place among the ids.
    module: usize,
    key: Vec<u8>,
    kind: Kind,
    path: Path,
    bindings: Vec<Vec<u8>>,
}

const NAMES: [&[u8]; 10] = [b"a", b"b", b"c", b"d", b"e", b"f", b"index.html", b"a b%", b"\xC3\xA9", b"l"];

/// What stands in a binding where a name should: empty, with zeros and slashes, too long, or
/// without the zero at its end.
const ODD_NAMES: [&[u8]; 9] = [b"", b"\0", b"x/y\0", b"z\0z\0", b"a\0\0", b"e", b"..\0", &[b'q'; 255], b"/\0"];

/// A binder whose tap says so much of the transaction that delivers the object, and of another kind
/// of selector.
fn odd_binder(selector_kind: u16, transaction: u32, length: usize) -> Vec<u8> {
    let selector = Vec::new().u16(selector_kind).u32(transaction).u32(0xFFFF_FFFF);
    Vec::new().u8(1).u16(0).u16(DELIVERY).u16(1).counted8(&selector[..length])
}

struct Maker<'a> {
    chance: &'a mut Chance,
    id: u32,
    identification: u16,
    size: Size,
    ids: Vec<u16>,
    objects: Vec<Object>,
    /// Paths that lead over odd bindings.
    odd_paths: Vec<Path>,
}

pub fn made(chance: &mut Chance, size: Size) -> Carousel {
    let id = chance.pick(&[1, 1, 7, 0, u32::MAX]);
    let identification = chance.pick(&[1, 1, 1, 1, 1, 2, 0x7FFF]);
    let ids = module_ids(chance);
    let mut maker = Maker { chance, id, identification, size, ids, objects: Vec::new(), odd_paths: Vec::new() };
    maker.put_objects();
    maker.put_odd_bindings();
    maker.finish()
}

/// Module ids that differ: those that follow each other from 1 on, or any.
fn module_ids(chance: &mut Chance) -> Vec<u16> {
    let count = chance.within(1..=20) as u16;
    if !chance.one_in(4) {
        return (1..=count).collect();
    }
    let mut ids: Vec<u16> = (0..count).map(|_| chance.number() as u16).collect();
    ids[0] = chance.pick(&[0, 1, 255, 256, 65_535]);
    ids.sort();
    ids.dedup();
    ids
}

impl Maker<'_> {
    fn transaction(&self) -> u32 {
        0x8000_0000 | u32::from(self.identification) << 1
    }

    fn reference_to(&self, object: usize) -> Vec<u8> {
        let it = &self.objects[object];
        reference(self.id, self.ids[it.module], &it.key, self.transaction())
    }

    // Objects

    fn put_objects(&mut self) {
        self.put(None, b"", Kind::Folder);
        for _ in 0..self.chance.within(2..=if self.size == Size::Large { 20 } else { 40 }) {
            let (name, kind) = (self.name(), self.kind());
            let folder = self.some(Kind::Folder);
            self.put(Some(folder), &name, kind);
        }
        if self.chance.one_in(6) {
            self.put_chain();
        }
        if self.chance.one_in(30) {
            self.put_many_names();
        }
    }

    fn name(&mut self) -> Vec<u8> {
        if self.chance.one_in(40) { vec![b'n'; 254] } else { self.chance.pick(&NAMES).to_vec() }
    }

    fn kind(&mut self) -> Kind {
        self.chance.pick(&[Kind::File, Kind::File, Kind::File, Kind::File, Kind::File, Kind::Folder, Kind::Folder, Kind::Other])
    }

    /// The place of some object of a kind. The gateway is the first folder.
    fn some(&mut self, kind: Kind) -> usize {
        let places: Vec<usize> = (0..self.objects.len()).filter(|&it| self.objects[it].kind == kind).collect();
        if places.is_empty() { 0 } else { self.chance.pick(&places) }
    }

    /// Adds an object, and binds a name of a folder to it.
    fn put(&mut self, folder: Option<usize>, name: &[u8], kind: Kind) -> usize {
        let place = self.objects.len();
        let module = if place == 0 { 0 } else { self.chance.below(self.ids.len()) };
        let mut path = folder.map_or(Vec::new(), |it| self.objects[it].path.clone());
        let key = self.key(place);
        if let Some(folder) = folder {
            path.push(name.to_vec());
            let bound = binding(&name.to_vec().u8(0), &reference(self.id, self.ids[module], &key, self.transaction()));
            self.objects[folder].bindings.push(bound);
        }
        self.objects.push(Object { module, key, kind, path, bindings: Vec::new() });
        place
    }

    /// Mostly the object's number; now and then a key of another length, or one that stands twice.
    fn key(&mut self, place: usize) -> Vec<u8> {
        let number = (place as u32 + 1).to_be_bytes().to_vec();
        match self.chance.below(40) {
            0 => vec![],
            1 => vec![7; 150],
            2 => 1u32.to_be_bytes().to_vec(),
            _ => number,
        }
    }

    /// Folders in each other, as deep as a path may be or a name deeper, and a file in the last.
    fn put_chain(&mut self) {
        let mut folder = 0;
        for _ in 0..self.chance.within(13..=17) {
            folder = self.put(Some(folder), b"d", Kind::Folder);
        }
        self.put(Some(folder), b"f", Kind::File);
    }

    /// A folder with thousands of names of one file.
    fn put_many_names(&mut self) {
        let folder = self.put(Some(0), b"many", Kind::Folder);
        let file = self.put(Some(folder), b"0", Kind::File);
        let target = self.reference_to(file);
        for number in 1..self.chance.within(300..=3000) {
            self.objects[folder].bindings.push(binding(format!("{number}\0").as_bytes(), &target));
        }
    }

    // Bindings that lead in circles, elsewhere or nowhere

    fn put_odd_bindings(&mut self) {
        for _ in 0..self.chance.below(10) {
            self.put_odd_binding();
        }
        if self.chance.one_in(5) {
            self.put_circle();
        }
        if self.chance.one_in(15) {
            self.put_broken_binding();
        }
    }

    /// A binding with an odd reference, and now and then with an odd name, at any place of some
    /// folder.
    fn put_odd_binding(&mut self) {
        let folder = self.some(Kind::Folder);
        let (target, name) = (self.odd_reference(), self.name());
        let mut path = self.objects[folder].path.clone();
        path.push(name.clone());
        self.odd_paths.push(path);
        let id = if self.chance.one_in(3) { self.chance.pick(&ODD_NAMES).to_vec() } else { name.u8(0) };
        let place = self.chance.below(self.objects[folder].bindings.len() + 1);
        self.objects[folder].bindings.insert(place, binding(&id, &target));
    }

    /// A binding of two name components, or with a reference whose type says that it takes five
    /// bytes, and does or doesn't. Its folder doesn't read.
    fn put_broken_binding(&mut self) {
        let (folder, target) = (self.some(Kind::Folder), self.reference_to(0));
        let broken = match self.chance.below(3) {
            0 => vec![2].bytes(&binding(b"a\0", &target)[1..]),
            1 => binding(b"a\0", &Vec::new().u32(5).u8(b'l').bytes(&target[4..])),
            _ => binding(b"a\0", &Vec::new().u32(5).bytes(&target[4..])),
        };
        self.objects[folder].bindings.push(broken);
    }

    /// A folder in itself, or in one that lies in it.
    fn put_circle(&mut self) {
        let (folder, target) = (self.some(Kind::Folder), self.some(Kind::Folder));
        let target = self.reference_to(target);
        self.objects[folder].bindings.push(binding(b"l\0", &target));
    }

    /// A reference in one of the forms that are read in a way of their own.
    fn odd_reference(&mut self) -> Vec<u8> {
        let object = self.chance.below(self.objects.len());
        let (module, key) = (self.ids[self.objects[object].module], self.objects[object].key.clone());
        let other = self.transaction() ^ 0x0000_0100;
        let place = (LOCATION, location(self.id, module, &key));
        let delivered = (BINDER, binder(DELIVERY, self.transaction()));
        let sound = profile(&[place.clone(), delivered.clone()]);
        let stray = (0x1234_5678, b"stray".to_vec());
        let length = self.chance.below(10);
        match self.chance.below(20) {
            0 => reference(self.id ^ 1, module, &key, self.transaction()),
            1 => reference(self.id, module, &key, other),
            2 => reference(self.id, module ^ 0x0800, &key, self.transaction()),
            3 => reference(self.id, module, b"no such key", self.transaction()),
            4 => reference(self.id, module, &key, self.transaction() ^ 0x4001_0001),
            5 => ior(&[]),
            6 => ior(&[stray]),
            7 => ior(&[stray, (BIOP, sound)]),
            8 => ior(&[(BIOP, profile(&[place.clone()])), (BIOP, sound)]),
            9 => ior(&[(BIOP, profile(&[delivered, place]))]),
            10 => ior(&[(BIOP, profile(&[stray, place.clone(), delivered, place]))]),
            11 => ior(&[(BIOP, profile(&[place, (LOCATION, location(self.id, !module, &key)), delivered]))]),
            12 => ior(&[(BIOP, profile(&[place, (BINDER, binder(0x17, other))]))]),
            13 => ior(&[(BIOP, profile(&[place, (BINDER, odd_binder(1, other, length))]))]),
            14 => ior(&[(BIOP, profile(&[place, (BINDER, vec![0])]))]),
            15 => ior(&[(BIOP, profile(&[place, (BINDER, vec![9, 0, 0])]))]),
            16 => ior(&[(BIOP, sound.bytes(b"rear"))]),
            17 => ior(&[(BIOP, profile(&[place, (BINDER, odd_binder(2, other, 10))]))]),
            18 => ior(&[(BIOP, sound), (BIOP, profile(&[(LOCATION, location(self.id, !module, &key)), delivered]))]),
            _ => {
                let mut turned = sound;
                let place = self.chance.pick(&[0, 1, 2, 6, 13, 14, 15]);
                turned[place] ^= 1;
                ior(&[(BIOP, turned)])
            }
        }
    }

    // Modules

    fn finish(mut self) -> Carousel {
        let gateway = if self.chance.one_in(12) { self.odd_reference() } else { self.reference_to(0) };
        let mut modules: Vec<Module> = self.ids.iter().map(|&id| Module { id, forms: [Vec::new(), Vec::new()] }).collect();
        let objects = std::mem::take(&mut self.objects);
        for object in &objects {
            let forms = &mut modules[object.module].forms;
            let (mut first, mut second) = (self.written(object), self.written(object));
            forms[0].append(&mut first);
            forms[1].append(&mut second);
        }
        let paths = objects.into_iter().map(|it| it.path).chain(self.odd_paths);
        let mut paths: Vec<Path> = paths.filter(|it| it.len() <= 16).collect();
        paths.extend((1..=16).step_by(5).map(|depth| vec![b"l".to_vec(); depth]));
        Carousel { id: self.id, identification: self.identification, gateway, modules, paths }
    }

    /// An object's message. It has new contents with each call, and the same bindings.
    fn written(&mut self, object: &Object) -> Vec<u8> {
        let contexts = if self.chance.one_in(10) { 2 } else { 0 };
        let rear: &[u8] = if self.chance.one_in(10) { b"rear" } else { b"" };
        match object.kind {
            Kind::File => {
                let length = self.file_length();
                let body = file_body(&self.chance.bytes(length)).bytes(rear);
                super::writer::object(&object.key, FILE, contexts, &body, rear)
            }
            Kind::Folder => {
                let kind = if object.path.is_empty() { GATEWAY } else { FOLDER };
                super::writer::object(&object.key, kind, contexts, &folder_body(&object.bindings).bytes(rear), rear)
            }
            Kind::Other => {
                let kind = self.chance.pick(&[&b"str\0"[..], b"ste\0", b"fil", b"", b"dir\0\0"]);
                super::writer::object(&object.key, kind, contexts, b"another kind", rear)
            }
        }
    }

    fn file_length(&mut self) -> usize {
        let most = match self.size {
            Size::Tiny => 300,
            Size::Middle => 9000,
            Size::Large => 80_000,
        };
        if self.chance.one_in(8) { self.chance.pick(&[0, 1, 2]) } else { self.chance.below(most) }
    }
}
