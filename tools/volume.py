#!/usr/bin/env python3
"""Writes a romfs volume of a folder's files and folders, padded to whole blocks, for benchmarks and examples.

usage: volume.py FOLDER IMAGE [BLOCK]     BLOCK is the length of a block, 4096 if it is not given
"""

import sys
from pathlib import Path

DIRECTORY, FILE, EXECUTABLE = 1, 2, 8


def padded(data, size):
    return data + bytes(-len(data) % size)


def checksum(data):
    words = (int.from_bytes(data[i : i + 4], "big") for i in range(0, len(data), 4))
    return -sum(words) % 2**32


def header(following, kind, info, size, name):
    """The words next, info, size and checksum, and the name; the words sum to 0 modulo 2^32."""
    padded_name = padded(name.encode() + b"\0", 16)
    words = [following | kind, info, size, 0]
    bare = b"".join(word.to_bytes(4, "big") for word in words) + padded_name
    words[3] = checksum(bare)
    return b"".join(word.to_bytes(4, "big") for word in words) + padded_name


def entries(folder, at):
    """The bytes of the list of a folder's entries, which begins at an offset."""
    out = b""
    paths = sorted(folder.iterdir())
    for path in paths:
        here = at + len(out)
        front = 16 + len(padded(path.name.encode() + b"\0", 16))
        inside = entries(path, here + front) if path.is_dir() else padded(path.read_bytes(), 16)
        following = 0 if path == paths[-1] else here + front + len(inside)
        if path.is_dir():
            info = here + front if inside else 0
            out += header(following, DIRECTORY | EXECUTABLE, info, 0, path.name) + inside
        else:
            out += header(following, FILE, 0, path.stat().st_size, path.name) + inside
    return out


def volume(folder):
    """The text, the full size, the checksum of the first 512 bytes, an empty name, and the root's list."""
    body = bytes(16) + entries(folder, 32)
    size = 16 + len(body)
    start = b"-rom1fs-" + size.to_bytes(4, "big")
    sum_of = checksum((start + bytes(4) + body)[:512])
    return start + sum_of.to_bytes(4, "big") + body


def main():
    if len(sys.argv) not in (3, 4):
        sys.exit(__doc__.strip())
    block = int(sys.argv[3]) if len(sys.argv) == 4 else 4096
    Path(sys.argv[2]).write_bytes(padded(volume(Path(sys.argv[1])), block))


main()
