#!/usr/bin/env python3
"""Writes a network at the limits, and a journal of 4,096 services on it, byte by byte as docs/FORMATS.md says.

usage: journals.py live|room NET JOURNAL

The network has 64 nodes in a ring of 64 fibres, and a second ring beside it, each fibre in a group of its own: 256 groups.
live: each service is shared, and works on one fibre of the first ring, with a backup round the second one.
room: each service is bare, and takes two fibres of the first ring in a row. They lie like bricks, over 256 units in mid-band.
"""
import hashlib
import struct
import sys

NODES = 64
EACH = 64  # services that begin at a node
RATE = 50
BARE, SHARED = 0, 1


def network():
    names = [f"n{i:02d}" for i in range(NODES)]
    lines = ["net 1", "band -512 511", "guard 0", "k 1", "services 4096", "journal 2000000", f"format q16 100000 {RATE}"]
    lines += [f"node {name}" for name in names]
    lines += [f"fibre {ring}{i:02d} {names[i]} {names[(i + 1) % NODES]} 10" for ring in "ab" for i in range(NODES)]
    lines += [f"group {ring}{i:02d}d {ring}{i:02d}" for ring in "ab" for i in range(NODES)]
    return ("\n".join(lines + ["end"]) + "\n").encode()


def path(fibres, centre):
    """The path on these fibres, of width 1."""
    return bytes([len(fibres), *fibres]) + struct.pack(">hH", centre, 1)


def enter(i, j, ends, kind, *paths):
    """The event with which service j that begins at node i enters."""
    name = f"s{i:02d}x{j:02d}".encode()
    return bytes([1, len(name)]) + name + bytes(ends) + struct.pack(">IB", RATE, kind) + b"".join(paths)


def protected(i, j):
    """A service on fibre i. The backups of one j share their units, since their working paths are in no common group."""
    backup = [NODES + (i - 1 - step) % NODES for step in range(NODES - 1)]
    centre = 2 * j - 511
    return enter(i, j, [i, (i + 1) % NODES], SHARED, path([i], centre), path(backup, centre))


def brick(i, j):
    """A service on fibre i and the next one. Those that begin at even nodes and those at odd ones take turns, layer by layer."""
    return enter(i, j, [i, (i + 2) % NODES], BARE, path([i, (i + 1) % NODES], 4 * j + 2 * (i % 2) - 127))


def journal(text, events):
    """A journal of these events, bound to the network of this text."""
    records = [struct.pack(">BHI", 1, len(event), number) + event for number, event in enumerate(events, 1)]
    return b"EONJRNL1" + hashlib.sha256(text).digest() + b"".join(records) + b"\0"


def main():
    state, net, kept = sys.argv[1:]
    text = network()
    service = {"live": protected, "room": brick}[state]
    with open(net, "wb") as file:
        file.write(text)
    with open(kept, "wb") as file:
        file.write(journal(text, [service(i, j) for j in range(EACH) for i in range(NODES)]))


if __name__ == "__main__":
    main()
