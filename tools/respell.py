#!/usr/bin/env python3
"""Respells this repository's own definitions and lemmas, once, after the kit's port.py.

Words become snake case, a dash joins two names only (`length-extended`), and the crate `sha2`, whose name is
now a library's of the kit, becomes `sha2_block`. Functions of src/, strings, inputs, outputs and must-fail
edits keep their text. Run it at the top of the repository; it stops, and writes nothing, where two names of
one file would fall together.
"""

import os
import re
import sys

# Names whose words were joined by capitals.
CAPITALS = """
bigEndian bigSigma0 bigSigma1 smallSigma0 smallSigma1 blockBytes blockStep dataBlock hashBlock digitOf fanoutOf
forRoot forTree hashOf hexOf inImage isBlockSize isCount isPrime isSlot lastState leastLevels lengthBytes
lengthsFit levelsFrom levelsOf limitsMet nextWord numberAfter oneMore oneRound primesBelow rootAfter rootFrom
rotationsAndShift roundConstants roundsFrom roundsLeft saltedBy shapeFor startingWords startsOf stateAfter
stateBytes treeAfter treeBlocks treeBlocksOf twoDigits upperBits windowAfter
""".split()

# Names whose plain words were joined by a dash.
DASHES = """
above-data all-counted all-data all-rounds and-half xor-half at-most-seven below-ends block-front block-is
block-sizes blocks-bound blocks-next blocks-none blocks-some choice-bits majority-bits data-high data-low
hash-high hash-low data-sizes hash-sizes eight-bytes eight-words eight-writes four-writes from-test held-above
held-is in-level in-range-at in-width inside-ends joined-more joined-rows joined-shift joined-split
joined-zeros least-is length-pieces level-flat level-none next-block next-counted next-reach next-turn
no-rounds none-counted none-divides nth-prime one-divisor one-round one-step one-top over-slot partly-below
partly-ends partly-inside partly-place partly-room power-above prime-from-test put-behind reach-bounds
root-room root-written rotations-nested rotr-lt round-rule rounded-le rounds-done same-words set-bit
shifted-mod sixteen-bytes slot-empty slot-full slot-room slots-more slots-room sound-salted stage-ends start-at
start-rule state-front step-by-step step-up then-rounds three-bits top-ends top-inside top-root tree-bound
tree-bytes tree-ends tree-none tree-room tree-written under-width width-bound width-top width-zero window-is
word-front written-at-ok written-tail written-word
levels-1 levels-128 levels-129 blocks-1 blocks-128 blocks-129 upper-block upper-slot lower-slot
one-block-256 one-block-512 two-blocks-256 two-blocks-512
""".split()

# The others: a lemma with its function's name gets `_lem`, and a lemma names what is on its left side.
OTHERS = {
    "length-bigEndian": "length-big_endian",
    "length-inSlot": "length-in_slot",
    "length-oneMore": "length-one_more",
    "extended-oneMore": "extended-one_more",
    "nextWord-cons": "next_word-cons",
    "oneMore-cons": "one_more-cons",
    "roundsFrom-front": "rounds_from_front",
    "lengths-fit": "lengths_fit-true",
    "limits-met": "limits_met-true",
    "levels-stand": "levels_stand_lem",
    "slots-stand": "slots_stand_lem",
    "places-stand": "places_stand_lem",
    "paths-stand": "paths_stand_lem",
    "tree-binds": "tree_binds_lem",
    "schedule-stands": "schedule_stands_lem",
    "padding-stands": "padding_stands_lem",
    "split-stands": "split_stands_lem",
}

CRATE = ("sha2", "sha2_block")

TOKEN = re.compile(r"[A-Za-z_][A-Za-z0-9_'\-₀-₉]*")


def snake(name):
    return re.sub(r"(?<=[a-z0-9])([A-Z])", lambda m: "_" + m.group(1).lower(), name)


def table():
    names = {name: snake(name) for name in CAPITALS}
    names.update({name: name.replace("-", "_") for name in DASHES})
    names.update(OTHERS)
    return names


def paths():
    for folder, dirs, files in os.walk("crates"):
        dirs[:] = sorted(d for d in dirs if d != "out")
        for name in sorted(files):
            if name.endswith((".rt", ".antt")):
                yield os.path.join(folder, name)


# In a source file a dash is an operator, and only what ghost code says is respelled: its names have capitals inside.
def respelled(text, names, source):
    def put(match):
        word = match.group(0)
        if source and "-" in word:
            return re.sub(r"[A-Za-z0-9_]+", lambda m: names.get(m.group(0), m.group(0)), word)
        return names.get(word, word)

    text = TOKEN.sub(put, text)
    text = text.replace(f"Rattle.{CRATE[0]}.", f"Rattle.{CRATE[1]}.")
    return re.sub(rf"\buse {CRATE[0]}::", f"use {CRATE[1]}::", text) if source else text


def main():
    names = table()
    new, clashes = {}, []
    for path in paths():
        with open(path, encoding="utf-8") as f:
            old = f.read()
        words = set(TOKEN.findall(old))
        for word in sorted(words):
            if word in names and names[word] in words:
                clashes.append(f"{path}: {word} and {names[word]}")
        text = respelled(old, names, path.endswith(".rt"))
        if text != old:
            new[path] = text
    clashes = [c for c in clashes if c not in KNOWN]
    if clashes:
        print("\n".join(clashes), file=sys.stderr)
        raise SystemExit("respell: these would fall together; nothing was written")
    for path, text in new.items():
        with open(path, "w", encoding="utf-8") as f:
            f.write(text)
    with open("crates.txt", encoding="utf-8") as f:
        lines = f.read()
    with open("crates.txt", "w", encoding="utf-8") as f:
        f.write(re.sub(rf"\b{CRATE[0]}\b", CRATE[1], lines))
    os.rename(os.path.join("crates", CRATE[0]), os.path.join("crates", CRATE[1]))
    print(f"respell: {len(new)} files")


# Here a definition gets the name of a function of src/, or of a module of proofs/ that is named after one: a clause
# cannot name a function, and a path names modules alone. And the fields `data_block` and `hash_block` of a shape get
# the name of parameters and of a geometry's fields: a field is named behind a dot alone. So the two stay apart.
KNOWN = {
    "crates/builder/src/fill.rt: hashBlock and hash_block",
    "crates/constants/proofs/round_constants/Answers.antt: roundConstants and round_constants",
    "crates/constants/proofs/starting_words/Answers.antt: startingWords and starting_words",
    "crates/constants/src/lib.rt: roundConstants and round_constants",
    "crates/constants/src/lib.rt: startingWords and starting_words",
    "crates/digest/src/hash.rt: startingWords and starting_words",
    "crates/digest/src/hash.rt: stateBytes and state_bytes",
    "crates/geometry/proofs/geometry/Geometry/tree_blocks/Answers.antt: treeBlocks and tree_blocks",
    "crates/geometry/src/make.rt: dataBlock and data_block",
    "crates/geometry/src/make.rt: hashBlock and hash_block",
    "crates/geometry/src/make.rt: isBlockSize and is_block_size",
    "crates/geometry/src/make.rt: treeBlocks and tree_blocks",
    "crates/sha2/src/word.rt: bigSigma0 and big_sigma0",
    "crates/sha2/src/word.rt: bigSigma1 and big_sigma1",
    "crates/sha2/src/word.rt: smallSigma0 and small_sigma0",
    "crates/sha2/src/word.rt: smallSigma1 and small_sigma1",
}

if __name__ == "__main__":
    main()
