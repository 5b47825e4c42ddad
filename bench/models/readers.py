"""Readers of other makers, for the scripts of this folder: the sections on each PID of a stream as
they read them."""

import json
import os
import shutil
import subprocess

from models import receiver
from tools import program

DVBPSI = r"""
#include <stdbool.h>
#include <stdint.h>
#include <stdio.h>
#include <stdlib.h>
#include <dvbpsi/dvbpsi.h>
#include <dvbpsi/psi.h>
typedef struct { DVBPSI_DECODER_COMMON } reader_t;
static void on_section(dvbpsi_t *reader, dvbpsi_psi_section_t *section) {
    if (dvbpsi_ValidPSISection(section))
        fwrite(section->p_data, 1, section->i_length + 3, stdout);
    dvbpsi_DeletePSISections(section);
}
int main(int count, char **words) {
    uint8_t packet[188]; dvbpsi_t *reader = dvbpsi_new(NULL, DVBPSI_MSG_NONE);
    reader->p_decoder = dvbpsi_decoder_new(on_section, 4096, true, sizeof(reader_t));
    while (count == 2 && fread(packet, 188, 1, stdin) == 1)
        if (((packet[1] & 31) << 8 | packet[2]) == atoi(words[1])) dvbpsi_packet_push(reader, packet);
    return 0;
}
"""


def by_libdvbpsi(built):
    """The sections with a right CRC, by the program that is built over libdvbpsi's own packets and
    sections."""
    def read(stream, pids):
        return {pid: receiver.back_to_back(program.run(built, stream, str(pid)).out) for pid in pids}

    return read


def by_tshark(room):
    """The sections that tshark cuts, whatever their CRC. Its reading of DSM-CC messages is off: it
    calls a DII malformed after its first moduleInfo, and then drops what follows in the packet.
    Some PIDs have a protocol of their own there: 0 to 31, and 8190."""
    path = os.path.join(room, "read.ts")

    def read(stream, pids):
        with open(path, "wb") as out:
            out.write(stream)
        words = ["tshark", "-r", path, "--disable-protocol", "mpeg_dsmcc", "-T", "jsonraw"]
        said = subprocess.run(words, stdout=subprocess.PIPE, stderr=subprocess.DEVNULL, check=True).stdout
        found = {pid: [] for pid in pids}
        for frame in json.loads(said, object_pairs_hook=list):
            layers = dict(dict(frame)["_source"])["layers"]
            header = dict(dict(dict(layers)["mp2t"])["mp2t.header_tree"])
            sections = [bytes.fromhex(value[0]) for name, value in layers if name == "mpeg_sect_raw"]
            found.setdefault(int(header["mp2t.pid_raw"][0], 16), []).extend(sections)
        return {pid: found[pid] for pid in pids}

    return read


def installed(room):
    """Each reader that is there, with its name; those that are missing are named. `room` is a
    folder for what they need."""
    built = program.over_libdvbpsi(DVBPSI, room)
    if built:
        yield "libdvbpsi", by_libdvbpsi(built)
    else:
        print("reader libdvbpsi: its header or a C compiler isn't installed, passed over")
    if shutil.which("tshark"):
        yield "tshark", by_tshark(room)
    else:
        print("reader tshark: not installed, passed over")
