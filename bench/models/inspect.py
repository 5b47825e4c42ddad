"""What a receiver holds and passed over, line by line: by looking back over all that it heard."""

from collections import Counter

from models import receiver
from models.paths import printed
from models.receiver import Dii, Dsi

COUNTS = (
    "packets no_sync errored scrambled reserved bad_field other_pid no_payload duplicates jumps orphans bad_pointer cut oversize short_tail"
).split()
OUTCOMES = (
    "changed short length other-table no-syntax not-current bad-crc not-control not-ddb no-gateway same-dsi other-dii dii-over-limit same-dii "
    "block-no-dii block-other-download block-unlisted block-other-version block-compressed block-wrong-place block-wrong-length block-again"
).split()
SKIPS = {
    "Short": "short", "Length": "length", "OtherTable": "other-table", "NoSyntax": "no-syntax", "NotCurrent": "not-current", "BadCrc": "bad-crc",
}


class Heard:
    """What was heard so far, and what becomes of the next message, by looking back alone."""

    def __init__(self):
        self.messages = []

    def outcome(self, candidate):
        message = receiver.read(candidate)
        outcome = self.outcome_of(candidate, message)
        self.messages.append(message)
        return outcome

    def outcome_of(self, candidate, message):
        skip = receiver.skip_of(candidate)
        if skip:
            return SKIPS[skip]
        if message is None:
            return "not-control" if candidate[0] == 0x3B else "not-ddb"
        if isinstance(message, Dsi):
            held = next((it.gateway for it in reversed(self.messages) if isinstance(it, Dsi) and it.gateway), None)
            return "no-gateway" if not message.gateway else "same-dsi" if message.gateway == held else "changed"
        return self.dii(message) if isinstance(message, Dii) else self.block(message)

    def beside(self):
        spans = receiver.spans_of(self.messages)
        return [self.messages[k] for k in spans[-1]] if spans else []

    def dii(self, dii):
        beside = self.beside()
        if not dii.identification:
            return "other-dii"
        if not receiver.is_within(dii):
            return "dii-over-limit"
        if not beside or beside[-1].version != dii.version:
            return "changed"
        if dii.identification in {it.identification for it in beside}:
            return "same-dii"
        if len(beside) == receiver.MOST_HELD:
            return "other-dii"
        return "changed" if receiver.joins(dii, beside) else "dii-over-limit"

    def block(self, block):
        beside = self.beside()
        if not beside:
            return "block-no-dii"
        of_download = [dii for dii in beside if dii.download == block.download]
        if not of_download:
            return "block-other-download"
        dii = next((dii for dii in of_download if receiver.line_of(dii, block.module)), None)
        if dii is None:
            return "block-unlisted"
        line = receiver.line_of(dii, block.module)
        if line.version != block.version:
            return "block-other-version"
        if line.compressed:
            return "block-compressed"
        if block.block >= receiver.block_count(line.size, dii.block_size):
            return "block-wrong-place"
        if len(block.data) != receiver.block_span(line.size, dii.block_size, block.block):
            return "block-wrong-length"
        return "block-again" if block.block in blocks_there(self.messages, dii, line) else "changed"


def blocks_there(messages, dii, line):
    return receiver.blocks_held(receiver.stretch(messages, receiver.spans_of(messages), dii, line.id), dii, line)


def runs(numbers):
    """Runs of numbers that follow each other."""
    found = []
    for n in numbers:
        if found and found[-1][1] == n - 1:
            found[-1][1] = n
        else:
            found.append([n, n])
    return " ".join(str(a) if a == b else f"{a}-{b}" for a, b in found)


def module_line(messages, dii, line):
    count = receiver.block_count(line.size, dii.block_size)
    there = {} if line.compressed else blocks_there(messages, dii, line)
    missing = [b for b in range(count) if b not in there]
    state = "compressed" if line.compressed else f"missing {runs(missing)}" if missing else "whole"
    return f"module {line.id} version {line.version} size {line.size} blocks {len(there)} of {count} {state}"


def homes(held):
    """The last location of each path that may be listed, beside path and answer: `listed` once
    more."""
    def at(path, location):
        answer = receiver.walk(held, location, ()) if location else receiver.ELSEWHERE
        yield path, answer, location
        if answer.names is None or len(path) >= receiver.DEEPEST:
            return
        seen = set()
        for name, target in receiver.object_at(held, location).bindings:
            if receiver.is_name(name) and name not in seen:
                yield from at(path + (name,), target)
            seen.add(name)

    if receiver.has_carousel(held):
        yield from at((), held.gateway)
    else:
        yield (), receiver.NO_CAROUSEL, None


def report(stream, pid):
    packets = receiver.packets_of(stream)
    demux, heard, outcomes = receiver.Demux(pid), Heard(), Counter()
    for packet in packets:
        for _, candidate in demux.feed(packet):
            outcomes[heard.outcome(candidate)] += 1
    demux.counts["short_tail"] = int(len(stream) % receiver.PACKET > 0)
    held = receiver.look_back(heard.messages)
    yield " ".join(f"{name.replace('_', '-')} {demux.counts[name]}" for name in COUNTS)
    yield " ".join([f"candidates {len(heard.messages)}", *(f"{name} {outcomes[name]}" for name in OUTCOMES)])
    root = held.gateway
    yield f"gateway carousel {root.carousel} module {root.module} key {root.key.hex()}" if root else "gateway none"
    for dii in held.diis:
        yield (
            f"dii identification {dii.identification} version {dii.version} download {dii.download} "
            f"block-size {dii.block_size} modules {len(dii.lines)}"
        )
    if not held.diis:
        yield "dii none"
    yield f"label {'none' if held.label is None else held.label} epoch {held.epoch}"
    for dii, line in sorted(((dii, line) for dii in held.diis for line in dii.lines), key=lambda it: it[1].id):
        yield module_line(heard.messages, dii, line)
    for number, (path, answer, location) in enumerate(homes(held)):
        if number == receiver.MOST_LINES:
            yield "more"
            return
        yield f"path {printed(path).decode()} {answer.text}" + (f" module {location.module}" if location else "")


def sync_of(packets):
    """Where the sync byte stands in what isn't packets, by the first 24 pieces of 188 bytes."""
    front = b"".join(packets[:24])
    for distance in (188, 192, 204):
        count = len(front) // distance
        for place in range(distance):
            if count > 1 and all(front[i * distance + place] == 0x47 for i in range(count)):
                return f"at the front 0x47 stands at byte {place} of each {distance}"
    return "at the front 0x47 stands at no byte of each 188, 192 or 204"


def inspected(stream, pid):
    """What `inspect` writes, its status, and its line on standard error."""
    text = "".join(f"{line}\n" for line in report(stream, pid)).encode()
    packets = receiver.packets_of(stream)
    lacking = sum(packet[0] != 0x47 for packet in packets)
    if 2 * lacking > len(packets) or (stream and not packets):
        return 1, text, f"carousel: not packets: {sync_of(packets)}\n".encode()
    return 0, text, b""
