//! How sections are laid into packets, and what befalls the packets on their way.

use super::chance::Chance;
use crate::receiver::PACKET;

pub type Packet = [u8; PACKET];

const ROOM: usize = PACKET - 4;

/// What befalls packets of a stretch.
#[derive(Clone, Copy)]
enum Harm {
    Flipped,
    Lost,
    Burst,
    Repeated,
    Again,
    Swapped,
    Spliced,
    Stray,
    Fielded,
    Pointed,
    Counted,
    Started,
    Noise,
}

const HARMS: [Harm; 13] = [
    Harm::Flipped,
    Harm::Lost,
    Harm::Burst,
    Harm::Repeated,
    Harm::Again,
    Harm::Swapped,
    Harm::Spliced,
    Harm::Stray,
    Harm::Fielded,
    Harm::Pointed,
    Harm::Counted,
    Harm::Started,
    Harm::Noise,
];

// Laying

/// The packets of a PID. The counter goes on from call to call.
pub struct Lane {
    pub pid: u16,
    counter: u8,
}

impl Lane {
    pub fn new(pid: u16, chance: &mut Chance) -> Lane {
        Lane { pid, counter: chance.byte() & 15 }
    }

    fn packet(&mut self, is_start: bool, bytes: &[u8], more: &[u8]) -> Packet {
        let mut packet = [0xFF; PACKET];
        let [high, low] = self.pid.to_be_bytes();
        packet[..4].copy_from_slice(&[0x47, high | u8::from(is_start) << 6, low, 0x10 | self.counter]);
        packet[4..4 + bytes.len()].copy_from_slice(bytes);
        packet[4 + bytes.len()..4 + bytes.len() + more.len()].copy_from_slice(more);
        self.counter = (self.counter + 1) & 15;
        packet
    }

    /// Each section begins a packet.
    pub fn apart(&mut self, sections: &[Vec<u8>]) -> Vec<Packet> {
        let mut packets = Vec::new();
        for section in sections {
            let (begin, rest) = section.split_at(section.len().min(ROOM - 1));
            packets.push(self.packet(true, &[0], begin));
            packets.extend(rest.chunks(ROOM).map(|it| self.packet(false, it, &[])));
        }
        packets
    }

    /// Each section begins a packet, and now and then a start packet that belongs to none comes
    /// between its packets: with nothing but filling, with a section behind filling, or with a
    /// pointer that leads out of it.
    pub fn interrupted(&mut self, sections: &[Vec<u8>], chance: &mut Chance) -> Vec<Packet> {
        let short = sections.iter().find(|it| it.len() <= 170).map_or(&[][..], |it| it);
        let hidden = [&[0, 0xFF, 0, 0], short].concat();
        let mut packets = Vec::new();
        for section in sections {
            for (place, part) in [&[0], &section[..]].concat().chunks(ROOM).enumerate() {
                packets.push(self.packet(place == 0, part, &[]));
                if chance.one_in(40) {
                    let stray = chance.pick(&[&[0][..], &[183], &[184], &[255], &hidden]);
                    packets.push(self.packet(true, stray, &[]));
                }
            }
        }
        packets
    }

    /// Each section begins a packet, and each packet has an adaptation field and few bytes of the
    /// section.
    pub fn thin(&mut self, sections: &[Vec<u8>], chance: &mut Chance) -> Vec<Packet> {
        let mut packets = Vec::new();
        for section in sections {
            let bytes = [&[0], &section[..]].concat();
            let mut at = 0;
            while at < bytes.len() {
                let taken = chance.pick(&[1, 2, 3, 100, 182, 183]).min(bytes.len() - at);
                packets.push(self.with_field(at == 0, &bytes[at..at + taken]));
                at += taken;
            }
        }
        packets
    }

    /// A packet of at most 183 bytes, after an adaptation field that takes what is left.
    fn with_field(&mut self, is_start: bool, bytes: &[u8]) -> Packet {
        let mut packet = self.packet(is_start, &[], &[]);
        packet[3] |= 0x20;
        packet[4] = (PACKET - 5 - bytes.len()) as u8;
        packet[PACKET - bytes.len()..].copy_from_slice(bytes);
        packet
    }

    /// Lays sections in one of the ways.
    pub fn lay(&mut self, sections: &[Vec<u8>], chance: &mut Chance) -> Vec<Packet> {
        match chance.below(10) {
            0..4 => self.apart(sections),
            4 => self.interrupted(sections, chance),
            5 if sections.len() < 200 => self.thin(sections, chance),
            _ => self.packed(sections),
        }
    }

    /// Sections back to back: a packet in which one begins says where.
    pub fn packed(&mut self, sections: &[Vec<u8>]) -> Vec<Packet> {
        let bytes = sections.concat();
        let mut begins = sections.iter().scan(0, |at, it| {
            *at += it.len();
            Some(*at - it.len())
        });
        let (mut packets, mut at, mut next) = (Vec::new(), 0, begins.next());
        while at < bytes.len() {
            let left = bytes.len() - at;
            let begins_after = next.map_or(usize::MAX, |it| it - at);
            let taken = match begins_after {
                0..183 => 183.min(left),
                183 => 183,
                _ => ROOM.min(left),
            };
            let pointer = [begins_after as u8];
            let is_start = begins_after < 183;
            packets.push(self.packet(is_start, if is_start { &pointer } else { &[] }, &bytes[at..at + taken]));
            at += taken;
            while next.is_some_and(|it| it < at) {
                next = begins.next();
            }
        }
        packets
    }
}

// The way

/// What arrives of a stretch's packets: all, or what one or two kinds of harm leave of them.
pub fn travelled(packets: Vec<Packet>, pid: u16, chance: &mut Chance) -> Vec<u8> {
    let mut arrived = packets;
    if !chance.one_in(2) {
        for _ in 0..chance.within(1..=2) {
            arrived = harmed(&arrived, pid, chance);
        }
    }
    let bytes = arrived.concat();
    if chance.one_in(16) { shifted(bytes, chance) } else { bytes }
}

/// One kind of harm befalls each packet alike.
fn harmed(packets: &[Packet], pid: u16, chance: &mut Chance) -> Vec<Packet> {
    let (harm, rarity) = (chance.pick(&HARMS), chance.pick(&[4, 20, 100, 400]));
    let mut arrived = Vec::with_capacity(packets.len());
    let mut place = 0;
    while place < packets.len() {
        place += if chance.one_in(rarity) {
            befall(harm, &packets[place..], pid, &mut arrived, chance)
        } else {
            arrived.push(packets[place]);
            1
        };
    }
    arrived
}

/// What a harm leaves of the first packets, and how many it took.
fn befall(harm: Harm, packets: &[Packet], pid: u16, arrived: &mut Vec<Packet>, chance: &mut Chance) -> usize {
    let packet = packets[0];
    match harm {
        Harm::Lost => return 1,
        Harm::Burst => return chance.pick(&[1, 3, 15, 16, 16, 17, 32]).min(packets.len()),
        Harm::Swapped if packets.len() > 1 => {
            let far = chance.pick(&[1, 1, 1, 2, 7]).min(packets.len() - 1);
            arrived.push(packets[far]);
            arrived.extend_from_slice(&packets[1..far]);
            arrived.push(packet);
            return far + 1;
        }
        Harm::Repeated => arrived.extend(std::iter::repeat_n(packet, chance.within(2..=3))),
        Harm::Again => again(packet, arrived, chance),
        Harm::Spliced => arrived.push(spliced(&packet, &packets[chance.below(packets.len().min(40))], chance)),
        Harm::Stray => arrived.extend([stray(pid, chance), packet]),
        Harm::Fielded => arrived.push(with_field(&packet, chance)),
        Harm::Noise => arrived.push(noise(&packet, chance)),
        _ => arrived.push(altered(harm, packet, chance)),
    }
    1
}

/// The packet, and one that has arrived before.
fn again(packet: Packet, arrived: &mut Vec<Packet>, chance: &mut Chance) {
    arrived.push(packet);
    let back = chance.within(1..=arrived.len().min(40));
    arrived.push(arrived[arrived.len() - back]);
}

/// The packet with some bits, its pointer, its counter or its start indicator changed.
fn altered(harm: Harm, mut packet: Packet, chance: &mut Chance) -> Packet {
    match harm {
        Harm::Flipped => {
            for _ in 0..chance.pick(&[1, 1, 1, 2, 8]) {
                packet[chance.below(PACKET)] ^= 1 << chance.below(8);
            }
        }
        Harm::Pointed => packet[4] = chance.pick(&[0, 1, 182, 183, 184, 255, packet[4].wrapping_add(1)]),
        Harm::Counted => packet[3] = packet[3] & 0xF0 | chance.byte() & 15,
        Harm::Started => packet[1] ^= 0x40,
        _ => {}
    }
    packet
}

/// The front of one packet and the rear of another.
fn spliced(front: &Packet, rear: &Packet, chance: &mut Chance) -> Packet {
    let at = chance.below(PACKET);
    let mut packet = *rear;
    packet[..at].copy_from_slice(&front[..at]);
    packet
}

/// The packet's header with a payload of any bytes.
fn noise(packet: &Packet, chance: &mut Chance) -> Packet {
    let mut noisy = *packet;
    chance.fill(&mut noisy[4..]);
    noisy
}

/// A packet that says nothing of the carousel, or nothing that reads.
fn stray(pid: u16, chance: &mut Chance) -> Packet {
    let mut packet = [0; PACKET];
    chance.fill(&mut packet);
    let [high, low] = pid.to_be_bytes();
    let (counter, field) = (packet[3] & 15, packet[4]);
    let header = match chance.below(9) {
        0 => [0x47, 0x1F, 0xFF, 0x10, field],
        1 => [0x47, (high | 0x40) ^ 1, low, 0x10, field],
        2 => [0x47, high, low, 0x90 | counter, field],
        3 => [0x47, high | 0x80, low, 0x10 | counter, field],
        4 => [0x47, high, low, counter, field],
        5 => [0x47, high, low, 0x20 | counter, 183],
        6 => [0x47, high, low, 0x30 | counter, field | 183],
        7 => [0x46, high, low, 0x10 | counter, field],
        _ => return packet,
    };
    packet[..5].copy_from_slice(&header);
    packet
}

/// The packet with an adaptation field before its payload where the payload ends in filling, and
/// else as it is.
fn with_field(packet: &Packet, chance: &mut Chance) -> Packet {
    let kept = PACKET - packet[4..].iter().rev().take_while(|&&byte| byte == 0xFF).count();
    if packet[3] >> 4 != 1 || kept == PACKET {
        return *packet;
    }
    let length = chance.below(PACKET - kept);
    let mut fielded = *packet;
    fielded[3] |= 0x20;
    fielded[4] = length as u8;
    chance.fill(&mut fielded[5..5 + length]);
    fielded[5 + length..].copy_from_slice(&packet[4..PACKET - 1 - length]);
    fielded
}

/// Bytes are missing or too many in one place, until a later one makes up for it.
fn shifted(bytes: Vec<u8>, chance: &mut Chance) -> Vec<u8> {
    let first = chance.below(bytes.len() + 1);
    let last = first + chance.below((bytes.len() - first).min(40 * PACKET) + 1);
    let odd = chance.within(1..=PACKET - 1);
    let more = chance.bytes(odd);
    if last - first >= odd && chance.one_in(2) {
        return [&bytes[..first], &bytes[first + odd..last], &more, &bytes[last..]].concat();
    }
    let make_up = chance.bytes(PACKET - odd);
    [&bytes[..first], &more, &bytes[first..last], &make_up, &bytes[last..]].concat()
}
