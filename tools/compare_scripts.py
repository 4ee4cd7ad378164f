#!/usr/bin/env python3
"""Runs random scripts by `card run` and by script_model.py, over cards that are broken and cards that turn.

usage: compare_scripts.py SEED ROUNDS    (after `rt run` in crates/card)

Each round takes an image of the repository, changes some words of it, builds a tree over it, and turns to a card with
other bytes, at a random question. Every line and the number of questions have to be equal.
"""
import os
import random
import re
import struct
import subprocess
import sys
import tempfile

import script_model as model

HOME = os.path.join(os.path.dirname(os.path.abspath(__file__)), "..", "crates")
CARD = os.path.join(HOME, "card", "out", "card")
IMAGES = ["story/data/foods.image"] + [f"folders/data/{name}.image" for name in ("small1k", "mixed", "many")]
PATHS = """dir dir/sub dir/sub/menu.csv a run foods foods/iron.csv f000 dir_with_space/l3 empty sym noexec/f
dir/hardpipe / a/ .. dir//x zero dir/big ...""".replace("_", " ").split("\n")
PATHS = [word.encode() for line in PATHS for word in re.split(r" (?!with|space)", line)] + [b""]


def broken(pick, image):
    """Changes some words, and mostly the word that makes a header's sum right again."""
    image = bytearray(image)
    for _ in range(pick.choice([0, 0, 1, 2, 5])):
        at = pick.randrange(min(len(image), 4096)) // 4 * 4
        old = struct.unpack_from(">I", image, at)[0]
        near = pick.randrange(len(image))
        new = pick.choice([0, old ^ 16, old ^ 1, pick.getrandbits(32), (old + 16) % 2 ** 32, near])
        struct.pack_into(">I", image, at, new)
        mend = at // 16 * 16 + 12
        if at != mend and pick.random() < 0.8:
            word = struct.unpack_from(">I", image, mend)[0]
            struct.pack_into(">I", image, mend, (word + old - new) % 2 ** 32)
    return bytes(image)


def script(pick, image, length):
    found = re.findall(rb"[ -.0-~]{1,30}(?=\0)", image)
    paths = PATHS + pick.sample(found, min(6, len(found)))

    def path():
        text = pick.choice(paths) + (b"/" + pick.choice(paths) if pick.random() < 0.1 else b"")
        return "=" + text.hex() if pick.random() < 0.3 or text.startswith(b"=") else text.decode()

    def line():
        handle, big = pick.randrange(8), 2 ** 64 - 1
        at = pick.choice([0, 1, 3, 200, 512, big, pick.randrange(6000)])
        return pick.choice([
            "begin", f"open {path()}", f"open {path()}", f"read {handle} {at} {pick.choice([0, 1, 4, 100, 6000])}",
            f"read {handle} {at} 9", f"whole {handle} {pick.choice([0, 3, 4, 10, 200, 417, 513, 5000])}",
            f"list {pick.choice([0, 1, 2, 5, 300, big])} {pick.choice([128] * 9 + [127])} {path()}", f"close {handle}"])

    return (["begin"] if pick.random() < 0.9 else []) + [line() for _ in range(length)]


def write(name, found):
    with open(name, "wb") as out:
        out.write(found)


def round_of(pick):
    image = broken(pick, open(os.path.join(HOME, pick.choice(IMAGES)), "rb").read())
    write("image", image)
    block = pick.choice(["512", "1024"] if len(image) % 1024 == 0 else ["512"])
    words = ["--hash", pick.choice(["sha256", "sha512"]), "--data-block-size", block]
    words += ["--hash-block-size", pick.choice(["512", "1024", "4096"]), "--salt", pick.choice(["-", "aa55"])]
    write("label", subprocess.run([CARD, "build", *words, "image", "tree"], capture_output=True, check=True).stdout)
    other, tree = bytearray(image), bytearray(open("tree", "rb").read())
    other[pick.randrange(len(other))] ^= 1 << pick.randrange(8)
    if tree and pick.random() < 0.4:
        tree[pick.randrange(len(tree))] ^= 1
    write("image2", other[:pick.randrange(len(other))] if pick.random() < 0.2 else other)
    write("tree2", tree[:pick.randrange(len(tree) + 1)] if pick.random() < 0.1 else tree)
    turn = pick.choice([0, 2 ** 63, pick.randrange(80), pick.randrange(80)])
    lines = script(pick, image, 60)
    store = model.Store(model.Label(open("label").read()), model.areas("image", "tree"), model.areas("image2", "tree2"), turn)
    wanted = model.Script(model.Volume(store))
    run = [CARD, "run", "--turn", str(turn), "label", "image", "tree", "image2", "tree2"]
    given = subprocess.run(run, input="\n".join(lines) + "\n", capture_output=True, text=True)
    for asked, answer in zip(lines, given.stdout.split("\n")):
        expected = wanted.answer(asked)
        if answer != expected:
            sys.exit(f"{asked}\n  card:  {answer}\n  model: {expected}\n  in {os.getcwd()}")
    if given.stderr != f"questions: {store.asked}\n" or given.stdout.count("\n") != len(lines):
        sys.exit(f"{given.stderr}the model asked {store.asked}")
    return len(lines), store.asked


def main(seed, rounds):
    pick = random.Random(seed)
    os.chdir(tempfile.mkdtemp())
    counts = [round_of(pick) for _ in range(rounds)]
    print(f"{sum(c[0] for c in counts)} lines and {sum(c[1] for c in counts)} questions are equal")


if __name__ == "__main__":
    main(int(sys.argv[1]), int(sys.argv[2]))
