"""PAT and PMT by themselves: a writer, packets of several PIDs, and a model that looks back over
all packets for a carousel's PID."""

from models import streams


# ---- a writer of tables


def section(table, extension, version, number, last, body, current=1, syntax=1):
    length = len(body) + 9
    front = bytes([table, syntax << 7 | 0x30 | length >> 8, length & 0xFF, extension >> 8, extension & 0xFF])
    front += bytes([0xC0 | version << 1 | current, number, last]) + body
    return front + streams.crc(front).to_bytes(4, "big")


def pat(lines, version=0, number=0, last=0, **rest):
    body = b"".join(program.to_bytes(2, "big") + (0xE000 | pid).to_bytes(2, "big") for program, pid in lines)
    return section(0x00, 1, version, number, last, body, **rest)


def descriptor(tag, content):
    return bytes([tag, len(content)]) + content


def names(carousel):
    return descriptor(0x13, carousel.to_bytes(4, "big") + b"\0")


def pmt(program, streams_of, info=b"", **rest):
    body = (0xFFFF).to_bytes(2, "big") + (0xF000 | len(info)).to_bytes(2, "big") + info
    for kind, pid, descriptors in streams_of:
        body += bytes([kind]) + (0xE000 | pid).to_bytes(2, "big") + (0xF000 | len(descriptors)).to_bytes(2, "big") + descriptors
    return section(0x02, program, 0, 0, 0, body, **rest)


class Sender:
    """Packets of one stream, with a continuity counter for each PID."""

    def __init__(self):
        self.counters = {}

    def packets(self, pid, section_bytes):
        rest, start = b"\0" + section_bytes, 0x40
        while rest:
            counter = self.counters.get(pid, 0)
            self.counters[pid] = (counter + 1) % 16
            piece, rest = rest[:184], rest[184:]
            yield bytes([0x47, start | pid >> 8, pid & 0xFF, 0x10 | counter]) + piece.ljust(184, b"\xff")
            start = 0

    def stream(self, items):
        return [packet for pid, one in items for packet in self.packets(pid, one)]


# ---- a model that looks back over all packets


def cut(packets, pid):
    """The sections of a PID, each with the number of packets up to the one that completed it. These
    streams lose nothing."""
    out, held = [], None
    for number, packet in enumerate(packets, 1):
        if (packet[1] & 0x1F) << 8 | packet[2] != pid:
            continue
        payload = packet[4:]
        if packet[1] & 0x40:
            held = payload[1:]
        elif held is not None:
            held += payload
        if held is not None and len(held) >= 3 and len(held) >= 3 + ((held[1] & 0x0F) << 8 | held[2]):
            out.append((held[: 3 + ((held[1] & 0x0F) << 8 | held[2])], number))
            held = None
    return out


def accepted(table, one):
    length = (one[1] & 0x0F) << 8 | one[2] if len(one) >= 3 else 0
    good = len(one) >= 12 and one[0] == table and one[1] & 0x80 and length <= 1021 and len(one) == 3 + length and one[5] & 1
    return bool(good) and streams.crc(one) == 0


def read_pat(one):
    body = one[8:-4]
    if not accepted(0x00, one) or len(body) % 4:
        return None
    lines = [(int.from_bytes(body[i : i + 2], "big"), int.from_bytes(body[i + 2 : i + 4], "big") & 0x1FFF) for i in range(0, len(body), 4)]
    return (one[5] >> 1 & 31, one[6], lines)


def carousels(info):
    out = []
    while len(info) >= 2 and len(info) >= 2 + info[1]:
        tag, content, info = info[0], info[2 : 2 + info[1]], info[2 + info[1] :]
        if tag == 0x13 and len(content) >= 4:
            out.append(int.from_bytes(content[:4], "big"))
    return out


def read_pmt(one):
    if not accepted(0x02, one):
        return None
    body = one[8:-4]
    if len(body) < 4:
        return None
    info = (body[2] & 0x0F) << 8 | body[3]
    if len(body) < 4 + info:
        return None
    rest, lines = body[4 + info :], []
    while rest:
        size = (rest[3] & 0x0F) << 8 | rest[4] if len(rest) >= 5 else 0
        if len(rest) < 5 + size:
            return None
        if rest[0] == 0x0B:
            lines.append((int.from_bytes(rest[1:3], "big") & 0x1FFF, carousels(rest[5 : 5 + size])))
        rest = rest[5 + size :]
    return (int.from_bytes(one[3:5], "big"), lines)


def found(packets, carousel):
    """`no-pat`, `not-named` or a PID."""
    pats = [(read_pat(one), at) for one, at in cut(packets, 0)]
    pats = [(table, at) for table, at in pats if table]
    if not pats:
        return "no-pat"
    since = {}
    for (_, _, lines), at in pats:
        for program, pid in lines:
            if program and pid and pid not in since and len(since) < 64:
                since[pid] = at
    version = pats[-1][0][0]
    sections = {table[1]: table[2] for table, _ in pats if table[0] == version}
    for program, pid in (line for number in sorted(sections) for line in sections[number]):
        if program and pid and pid in since:
            tables = [read_pmt(one) for one, _ in cut(packets[since[pid] :], pid)]
            tables = [table for table in tables if table and table[0] == program]
            for stream, named in tables[-1][1] if tables else []:
                if carousel in named:
                    return str(stream)
    return "not-named"


def first_found(packets, carousel):
    """The number of packets up to the first one behind which the PID is known, and that PID; None
    where there is none."""
    for n in range(1, len(packets) + 1):
        answer = found(packets[:n], carousel)
        if answer.isdigit():
            return n, int(answer)
    return None


def announced(packets, cycles, carousel):
    """The packets of so many cycles, each cycle after the packets of the PAT and of the map table
    that are sent with it."""
    sender, size = Sender(), len(packets) // cycles
    stream = (0x0B, 256, names(carousel) + descriptor(0x52, b"\1"))
    for first in range(0, len(packets), size):
        yield from sender.stream([(0, pat([(1, 32)])), (32, pmt(1, [stream]))])
        yield from packets[first : first + size]
