"""Receptions are held against what the models owe by themselves, and what the program writes of
each against the independent receiver, for bench/check/receptions.

The packet by packet rules have to cut what the definition cuts, taking a turn after the other to
hold what the look back holds, and under the premises a lawful carousel's answers are those of its
trees.
"""

from models import receiver, receptions
from models.paths import printed
from models.rehearse import Tuner
from tools import program


def model_holds(case, looks):
    """The faults of the models on a case, in words."""
    demux, tuner, premises, label = receiver.Demux(receptions.PID), Tuner(), receptions.Premises(case), -1
    found = []
    for arrived, packet in enumerate(case.packets, 1):
        given = demux.feed(packet)
        found += given
        for _, candidate in given:
            tuner.feed(candidate)
        premises.hear(packet)
        if arrived not in looks:
            continue
        if found != receiver.cuts(case.packets[:arrived], receptions.PID):
            yield f"the cuts of {arrived} packets"
        held = receiver.look_back(premises.messages)
        if tuner.held() != held:
            yield f"what is held after {arrived} packets"
        if case.trees and premises.near:
            yield from owed(case, premises, held, arrived)
            if held.label is not None and held.label < label:
                yield f"the label fell after {arrived} packets"
            label = held.label if held.label is not None else label
    if case.whole is not None and premises.near:
        yield from whole(case, premises, held)


def owed(case, premises, held, arrived):
    """An answer is the tree's own, or not there yet, or there is no carousel yet."""
    heard = (held.gateway is not None, held.label is not None)
    for path in case.paths:
        answer = receiver.resolve(held, path)
        waits = answer.text.startswith("not-yet ") if all(heard) else answer == receiver.NO_CAROUSEL
        if not waits and (not all(heard) or answer != receptions.looked_up(case.trees[premises.generation(held.label)], path)):
            yield f"{printed(path)} after {arrived} packets"


def whole(case, premises, held):
    """After a whole cycle each answer is the tree's own."""
    if held.label is None or premises.generation(held.label) != case.whole or held.gateway is None:
        yield "the label after a whole cycle"
        return
    for path in case.paths:
        if receiver.resolve(held, path) != receptions.looked_up(case.trees[case.whole], path):
            yield f"{printed(path)} after a whole cycle"


def heard_of(arrived):
    """What is held of the packets that arrived."""
    return receiver.held_of([candidate for _, candidate in receiver.cuts(arrived, receptions.PID)])


def compare(again, case, looks, found, tally):
    """Compares one case after each of these numbers of packets; where there is no program, the
    models alone. `again` makes it once more."""
    for fault in model_holds(case, looks):
        tally.differ(f"{again}: of the models: {fault}, input {{}}", b"".join(case.packets))
    for arrived in looks if found else []:
        stream, held = b"".join(case.packets[:arrived]), heard_of(case.packets[:arrived])
        opening = ["open", "256", *(printed(path).decode() for path in case.paths)]
        opened, listed = receiver.open_text(held, case.paths), receiver.list_text(held)
        for asked, (text, status) in [(opening, opened), (["list", "256"], listed)]:
            wanted = program.Ended(status, text, b"")
            tally.compare(again, asked, stream, wanted, program.run(found, stream, *asked))
