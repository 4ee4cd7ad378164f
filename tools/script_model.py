#!/usr/bin/env python3
"""Answers a script of calls as docs/VOLUME.md, docs/DEVICES.md and docs/CARD.md say, to compare with `card run`.

usage: script_model.py LABEL IMAGE TREE [N IMAGE2 TREE2] < SCRIPT

It shares no code with the program. The second pair answers from question N on.
"""
import hashlib
import re
import struct
import sys


class Refused(Exception):
    """A refusal, in its short form."""


def number(pattern, text):
    return int(re.search(pattern + r"\s+(\d+)", text).group(1))


class Label:
    def __init__(self, text):
        self.hash = hashlib.new(re.search(r"Hash algorithm:\s+(\w+)", text).group(1)).copy
        self.blocks = number("Data blocks:", text)
        self.data = number("Data block size:", text)
        self.tree = number("Hash block size:", text)
        salt = re.search(r"Salt:\s+(\S+)", text).group(1)
        self.salt = b"" if salt == "-" else bytes.fromhex(salt)
        self.root = bytes.fromhex(re.search(r"Root hash:\s+(\w+)", text).group(1))
        self.size = len(self.root)
        fanout = self.tree // self.size
        self.fanout, self.levels, span = fanout, 0, 1
        while span < self.blocks:
            span, self.levels = span * fanout, self.levels + 1
        widths = [-(-self.blocks // fanout ** (i + 1)) for i in range(self.levels)]
        self.starts = [sum(widths[i + 1:]) for i in range(self.levels)]

    def digest(self, block):
        state = self.hash()
        state.update(self.salt + block)
        return state.digest()


class Store:
    """The cache over the path check over a card that turns."""

    def __init__(self, label, first, second, turn):
        self.label, self.first, self.second, self.turn = label, first, second, turn
        self.asked, self.rows, self.next = 0, [None] * 4, 0

    def ask(self, area, block, length):
        areas = self.first if self.asked < self.turn else self.second
        self.asked += 1
        found = areas[area][block * length:(block + 1) * length]
        return found if len(found) == length else None

    def check(self, area, level, block, length, wanted):
        found = self.ask(area, block, length)
        place = f"[level {level} block {block}]"
        if found is None:
            raise Refused(f"10{place}(8[{area} {block}])")
        if self.label.digest(found) != wanted:
            raise Refused(f"11{place}")
        return found

    def block(self, k):
        for row in self.rows:
            if row and row[0] == k:
                return row[1]
        label, wanted = self.label, self.label.root
        for level in reversed(range(label.levels)):
            at = label.starts[level] + k // label.fanout ** (level + 1)
            tree = self.check("tree", level, at, label.tree, wanted)
            slot = k // label.fanout ** level % label.fanout * label.size
            wanted = tree[slot:slot + label.size]
        found = self.check("data", "data", k, label.data, wanted)
        self.rows[self.next], self.next = (k, found), (self.next + 1) % 4
        return found

    def fetch(self, at, count):
        size = self.label.data
        if count == 0:
            return b""
        try:
            blocks = range(at // size, (at + count - 1) // size + 1)
            found = b"".join(self.block(k) for k in blocks)
        except Refused as why:
            raise Refused(f"volume@{at}({why})")
        return found[at % size:][:count]


def words_sum(found):
    return sum(struct.unpack(f">{len(found) // 4}I", found)) % 2 ** 32


def rounded(count):
    return -(-count // 16) * 16


def rule(at, broken):
    return Refused(f"volume@{at}:{broken}")


class Header:
    def __init__(self, volume, at):
        size, first = volume.start
        if at < first or at + 32 > size:
            raise rule(at, 30)
        found = volume.store.fetch(at, min(at + 144, size) - at)
        name = found[16:].split(b"\0")[0]
        if b"\0" not in found[16:] or not name or any(c == 0x2F or not 0x20 <= c <= 0x7E for c in name):
            raise rule(at, 31)
        self.length = 16 + rounded(len(name) + 1)
        if words_sum(found[:self.length]):
            raise rule(at, 32)
        word, self.info, self.size = struct.unpack(">3I", found[:12])
        self.at, self.name, self.next, self.kind, self.executable = at, name, word & ~15, word & 7, word >> 3 & 1
        if self.next and self.next <= at:
            raise rule(at, 33)


class Volume:
    def __init__(self, store):
        self.store, self.start = store, None

    def begin(self):
        if self.start:
            return self.start
        found = self.store.fetch(0, 512)
        if found[:8] != b"-rom1fs-":
            raise rule(0, 20)
        size = struct.unpack(">I", found[8:12])[0]
        if size % 16 or size > self.store.label.blocks * self.store.label.data:
            raise rule(8, 21)
        if words_sum(found[:min(512, size)]):
            raise rule(12, 22)
        end = found[16:144].find(b"\0")
        first = 16 + rounded(end + 1)
        if end < 0 or first + 32 > size:
            raise rule(16, 23)
        self.start = size, first
        return self.start

    def walk(self, at):
        while at:
            header = Header(self, at)
            if header.name not in (b".", b".."):
                yield header
            at = header.next

    def components(self, path):
        at = 0
        for name in path.split(b"/") if path else []:
            if name in (b"", b".", b".."):
                raise Refused(f"path@{at}:40")
            yield at, name
            at += len(name) + 1

    def within(self, at, program):
        """Runs a program, and puts a fault of the volume with the place in the path."""
        try:
            return program()
        except Refused as why:
            raise Refused(f"path@{at}({why})" if str(why).startswith("volume") else str(why))

    def find(self, first, at, name):
        found = self.within(at, lambda: next((h for h in self.walk(first) if h.name == name), None))
        if not found:
            raise Refused(f"path@{at}:41")
        return found

    def enter(self, header, at):
        if header.kind != 1:
            raise Refused(f"path@{at}:42")
        if header.info % 16 or 0 < header.info <= header.at:
            raise Refused(f"path@{at}({rule(header.at, 34)})")
        return header.info

    def follow(self, header, at):
        links = 0
        while header.kind == 0:
            if header.info % 16:
                raise rule(header.at, 34)
            if links == 8:
                raise rule(header.at, 36)
            links, header = links + 1, Header(self, header.info)
        if header.kind == 1 and links:
            raise rule(header.at, 37)
        if header.kind != 2:
            raise Refused(f"path@{at}:43")
        if header.info:
            raise rule(header.at, 34)
        if header.at + header.length + header.size > self.start[0]:
            raise rule(header.at, 35)
        return header.at + header.length, header.size

    def open(self, path):
        parts = list(self.components(path))
        if not parts:
            raise Refused("path@0:40")
        first = self.start[1]
        for at, name in parts[:-1]:
            first = self.enter(self.find(first, at, name), at)
        at, name = parts[-1]
        header = self.find(first, at, name)
        return self.within(at, lambda: self.follow(header, at))

    def list(self, path, index):
        first = self.start[1]
        for at, name in list(self.components(path)):
            first = self.enter(self.find(first, at, name), at)
        at = len(path)
        found = self.within(at, lambda: next((h for i, h in enumerate(self.walk(first)) if i == index), None))
        if not found:
            raise Refused(f"path@{at}:41")
        return found


class Script:
    def __init__(self, volume):
        self.volume, self.files, self.opened = volume, {}, 0

    def begun(self):
        if not self.volume.start:
            raise Refused("54")

    def begin(self):
        return "%d %d" % self.volume.begin()

    def open(self, path):
        self.begun()
        if len(self.files) == 65535:
            raise Refused("53")
        self.files[self.opened] = self.volume.open(path)
        self.opened += 1
        return "%d %d %d" % (self.opened - 1, *self.files[self.opened - 1])

    def read(self, handle, at, count):
        start, size = self.files[handle]
        if at > size:
            raise Refused("51")
        given = min(count, size - at)
        return f"{given} {self.volume.store.fetch(start + at, given).ljust(count, bytes(1)).hex()}"

    def whole(self, handle, count):
        start, size = self.files[handle]
        if count != size:
            raise Refused("52")
        found = self.volume.store.fetch(start, size).hex()
        del self.files[handle]
        return found

    def list(self, index, count, path):
        self.begun()
        if count != 128:
            raise Refused("52")
        found = self.volume.list(path, index)
        letter, bit = "hd-lbcsp"[found.kind], "-x"[found.executable]
        return f"{letter} {bit} {found.size} {found.name.ljust(128, bytes(1)).hex()}"

    def close(self, handle):
        del self.files[handle]

    def answer(self, line):
        forms = {"begin": "", "open": "p", "read": "hnn", "whole": "hn", "list": "nnp", "close": "h"}
        name, _, rest = line.partition(" ")
        try:
            words = []
            for at, form in enumerate(forms[name]):
                if form == "p":
                    if rest.startswith("=") and not re.fullmatch("=([0-9A-Fa-f]{2})*", rest):
                        raise ValueError
                    words.append(bytes.fromhex(rest[1:]) if rest.startswith("=") else rest.encode())
                    rest = ""
                else:
                    last = at + 1 == len(forms[name])
                    word, _, rest = (rest, "", "") if last else rest.partition(" ")
                    if not re.fullmatch("[0-9]+", word) or int(word) >= 2 ** 64:
                        raise ValueError
                    words.append(int(word))
            if rest:
                raise ValueError
        except (KeyError, ValueError):
            return f"unknown line: {line}"
        handle = words[0] if forms[name].startswith("h") else None
        if handle is not None and handle not in self.files:
            return f"{name} no handle {handle}"
        try:
            given = getattr(self, name)(*words)
            return f"{name} ok" if given is None else f"{name} ok {given}"
        except Refused as why:
            length = {"read": 2, "whole": 1, "list": 1}.get(name)
            return f"{name} refused {why}" + (f" buf {'00' * words[length]}" if length else "")


def areas(image, tree):
    return {"data": open(image, "rb").read(), "tree": open(tree, "rb").read()}


def main(words):
    label = Label(open(words[0]).read())
    first = areas(words[1], words[2])
    turn, second = (int(words[3]), areas(words[4], words[5])) if len(words) > 3 else (2 ** 64, first)
    store = Store(label, first, second, turn)
    script = Script(Volume(store))
    for line in sys.stdin:
        print(script.answer(line.removesuffix("\n")))
    print("questions:", store.asked, file=sys.stderr)


if __name__ == "__main__":
    main(sys.argv[1:])
