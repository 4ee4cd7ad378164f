#!/usr/bin/env python3
"""Makes wrong definitions, one at a time, and says which worked case refuses each.

usage: mutate.py [-l LIST] [-j JOBS] [-k] [NAME ...]

  -l LIST   the list of mutations (tools/mutations.txt)
  -j JOBS   how many are tried side by side (1); a check wants a processor and some 2 GB
  -k        keep the room that the checks are made in, and say where it is
  NAME      only the mutations of these names; an end in * stands for all that begin so

The list is blocks of lines, parted by an empty line; `#` begins a comment. The first block is one line,
`cases: CRATE ..`, the crates of worked cases. Every other block is a mutation:

  name: what is wrong, one word
  file: the file of definitions, from the top of the repository
  old: a text that stands once in it
  new: what takes its place; further lines file, old and new change more. A line that begins with `+` goes on with the
       text of the one before it, on a line of its own
  by: CRATE ..       crates whose cases are to refuse it; one of them is enough
  law: CRATE ..      in place of `by`: only a law can refuse it, a theorem whose proof is in this crate

A case is a theorem by computation, so it needs nothing of the proofs and the code below it. The crates of cases are put into
one crate, `rules`, with the definitions and types that they reach, and nothing else of the crates below. So a proof or a
function there that breaks is never taken for a refusal. A law is checked over a copy of its crate and of those below it, and
there a refusal may also be a proof that no longer fits: what it was has to be looked at.

For each mutation a line is printed, its name and one of these:

  refused CRATE::FUNCTION, FIELD    the first cases that fail, by the fields of their records
  refused by a proof: NAME          no field fails, but a lemma NAME that the cases' proofs use, or the function as a whole.
                                    Such a line wants a look whether a statement is false, or only its proof no longer fits
  refused by law CRATE: FUNCTION    the same of a law
  STILL PROVED
  DOES NOT READ                     the definitions themselves are refused
  DOES NOT FIT                      the old text does not stand once in its file

A field that is proved by a term, as a case that something is not so, is refused where the term does not fit; that its
statement is false is then for whoever writes the mutation to see. The last line counts the refusals by a field, by a
proof and by a law apart. The status is 0 if all are refused, and by a crate that the list names. It wants `rt` on the path.
"""
import argparse
import os
import re
import shutil
import subprocess
import sys
import tempfile
from concurrent.futures import ThreadPoolExecutor

HERE = os.path.dirname(os.path.abspath(__file__))
TOP = os.path.dirname(HERE)
TYPES = ("struct", "enum", "const", "type")


class Mutation:
    """One block of the list: a name, changes (file, old, new), and the crates that are to refuse it."""

    def __init__(self, number, lines):
        self.changes, self.by, self.law, self.name = [], [], [], f"line {number}"
        for key, value in lines:
            if key == "name":
                self.name = value
            elif key == "file":
                self.changes.append({"file": value})
            elif key in ("old", "new"):
                if not self.changes or key in self.changes[-1]:
                    self.changes.append({"file": self.changes[-1]["file"] if self.changes else ""})
                self.changes[-1][key] = value
            elif key in ("by", "law"):
                setattr(self, key, value.split())
            else:
                sys.exit(f"{self.name}: no line is called {key}")
        for change in self.changes:
            if set(change) != {"file", "old", "new"}:
                sys.exit(f"{self.name}: a change is a file, an old and a new")
        if not self.changes or bool(self.by) == bool(self.law):
            sys.exit(f"{self.name}: wants a change, and either `by` or `law`")

    def crates(self):
        """The crates whose files are changed."""
        return {change["file"].split("/")[1] for change in self.changes}

    def make(self, top, rules):
        """Changes the files of a copy; in the one crate they, and the names in them, are called otherwise."""
        for change in self.changes:
            path, old, new = change["file"], change["old"], change["new"]
            if rules:
                path, old, new = rules.places.get(path, path), rules.renamed(old), rules.renamed(new)
            text = read(os.path.join(top, path))
            if text.count(old) != 1:
                raise ValueError(f"{old!r} stands {text.count(old)} times in {path}")
            write(os.path.join(top, path), text.replace(old, new))


def read_list(path):
    """The crates of cases, and the mutations."""
    cases, mutations, block = [], [], []
    with open(path, encoding="utf-8") as file:
        for number, line in enumerate(list(file) + ["\n"], 1):
            line = line.rstrip("\n")
            if line.startswith("#"):
                continue
            if line.startswith("+") and block:
                block[-1] = (block[-1][0], block[-1][1] + "\n" + line[1:])
            elif line.strip():
                key, colon, value = line.partition(":")
                if not colon:
                    sys.exit(f"{path}:{number}: no `KEY: VALUE`")
                block.append((key.strip(), value[1:] if value.startswith(" ") else value))
            elif block:
                if block[0][0] == "cases":
                    cases = block[0][1].split()
                else:
                    mutations.append(Mutation(number, block))
                block = []
    names = [mutation.name for mutation in mutations]
    doubled = sorted({name for name in names if names.count(name) > 1})
    if doubled:
        sys.exit("two mutations have the name " + ", ".join(doubled))
    return cases, mutations


def read_crates(top):
    """The crates of the repository, and what each stands on."""
    crates = {}
    with open(os.path.join(top, "crates.txt"), encoding="utf-8") as file:
        for line in file:
            name, colon, rest = line.split("#")[0].partition(":")
            if colon:
                crates[name.split()[0]] = rest.split()
    return crates


def below(crates, names):
    """These crates and all that they stand on, within the repository."""
    found, left = set(), list(names)
    while left:
        name = left.pop()
        if name in crates and name not in found:
            found.add(name)
            left.extend(crates[name])
    return found


def ends(kind, line):
    """Whether a line ends an item of this kind."""
    if not line or line[0] in " /#":
        return False
    return line.endswith(";") or kind not in ("use", "ghost", "const", "type", "mod") and line.startswith(("}", "{}")) or line.endswith("{}")


def items(text):
    """The items of a source file in the layout of `rt fmt`, each by its kind, with its attributes."""
    item, kind = [], ""
    for line in text.split("\n"):
        if line.startswith("#![") or not line.strip() and not item:
            continue
        item.append(line)
        if not kind and line and line[0] not in " /#":
            kind = re.sub(r"^pub(\([a-z]+\))? ", "", line).split()[0]
        if kind and ends(kind, line):
            yield kind, item
            item, kind = [], ""


class Rules:
    """One crate made of many: the crates of cases, and the definitions and types that they reach."""

    def __init__(self, crates, cases):
        self.names, self.cases = sorted(below(crates, cases)), cases
        self.defined, self.places = {}, {}
        for name in self.names:
            for path in self.sources(name):
                for line in read(path).split("\n"):
                    found = re.match(r"pub(?:\(crate\))? (?:struct|enum|const|type) (\w+)", line)
                    if found:
                        self.defined[name, found.group(1)] = os.path.basename(path)[:-3]
        self.specs, self.types = self.reached()

    def reached(self):
        """The files of definitions and the files of types that the cases reach."""
        specs, types, texts = set(), {}, []
        for case in self.cases:
            names = re.findall(r"^pub mod (\w+)", read(os.path.join(TOP, "crates", case, "specs", "Lib.antt")), re.M)
            specs.update((case, name) for name in names)
            texts += [read(self.spec(case, name)) for name in names]
            for folder, _, files in os.walk(os.path.join(TOP, "crates", case, "proofs")):
                texts += [read(os.path.join(folder, name)) for name in files]
        while texts:
            text = texts.pop()
            wanted = [(crate, module, "") for crate, module in re.findall(r"\bRattle\.(\w+)\.specs\.(?!declared\.)(\w+)", text)]
            wanted += [(crate, module, "type") for crate, module in re.findall(r"\bRattle\.(\w+)\.specs\.declared\.(\w+)", text)]
            wanted += [(owner, module, "type") for owner, module in re.findall(r"\buse crate::([a-z0-9_]+)::(\w+)__", text)]
            for crate, module, kind in wanted:
                if crate not in self.names:
                    continue
                if kind == "type" and (crate, module) not in types:
                    types[crate, module] = self.bare(crate, module)
                    texts.append(types[crate, module])
                elif not kind and (crate, module) not in specs:
                    specs.add((crate, module))
                    texts.append(read(self.spec(crate, module)))
        return specs, types

    def spec(self, crate, name):
        return os.path.join(TOP, "crates", crate, "specs", name + ".antt")

    def sources(self, crate):
        folder = os.path.join(TOP, "crates", crate, "src")
        return [os.path.join(folder, name) for name in sorted(os.listdir(folder)) if name.endswith(".rt") and name not in ("lib.rt", "tests.rt")]

    def lemmas(self, crate):
        folder = os.path.join(TOP, "crates", crate, "proofs")
        names = sorted(os.listdir(folder)) if os.path.isdir(folder) else []
        return [name[:-5] for name in names if name.endswith(".antt") and name != "Lib.antt"]

    def renamed(self, text):
        """A text with the names that its parts have in the one crate."""
        for crate in self.names:
            text = re.sub(rf"\bRattle\.{crate}\.specs\.declared\.(\w+)", rf"Rattle.rules.specs.declared.{crate}_\1", text)
            text = re.sub(rf"\bRattle\.{crate}\.specs\.(\w+)", rf"Rattle.rules.specs.{crate}_\1", text)
            for lemma in self.lemmas(crate):
                text = re.sub(rf"\bRattle\.{crate}\.proofs\.{lemma}\b", f"Rattle.rules.proofs.{crate}_{lemma}", text)
            text = re.sub(rf"\bRattle\.{crate}\.proofs\.", f"Rattle.rules.proofs.{crate}.", text)
        return text

    def bare(self, crate, module):
        """A source file with its types alone."""
        kept, uses = [], []
        for kind, item in items(read(os.path.join(TOP, "crates", crate, "src", module + ".rt"))):
            if kind in TYPES:
                kept.append("\n".join(line for line in item if not line.strip().startswith(("#[", "//"))))
            elif kind in ("use", "ghost"):
                uses.append("\n".join(line.strip() for line in item if not line.startswith(("#", "//"))))
        body, head = "\n\n".join(kept), []
        for use in uses:
            if use.startswith("ghost"):
                if "ghost " in body:
                    head.append(use)
                continue
            path, names = re.match(r"(?:pub(?:\(\w+\))? )?use ((?:\w+::)*)(.*);", use.replace("\n", " "), re.S).groups()
            owner = crate if path.startswith("crate::") else path[:-2]
            for name in (name.strip() for name in names.strip("{} ").split(",")):
                if not name or not re.search(rf"\b{re.escape(name)}\b", body):
                    continue
                if (owner, name) in self.defined:
                    head.append(f"use crate::{owner}::{self.defined[owner, name]}__{name};")
                elif owner.startswith("std"):
                    head.append(f"use {path}{name};")
        return "\n".join(head) + "\n\n" + body + "\n"

    def write(self, room):
        """Writes the crate, and crates.txt."""
        here = os.path.join(room, "crates", "rules")
        for folder in ("src", "specs", "proofs"):
            os.makedirs(os.path.join(here, folder))
        modules = [f"{crate}_{module}" for crate, module in sorted(self.types)] + self.cases
        for (crate, module), text in self.types.items():
            text = re.sub(r"\buse crate::([a-z0-9_]+)::(\w+)__", r"use crate::\1_\2::", text)
            write(os.path.join(here, "src", f"{crate}_{module}.rt"), self.renamed(text))
        for crate, name in self.specs:
            self.places[f"crates/{crate}/specs/{name}.antt"] = f"crates/rules/specs/{crate}_{name}.antt"
            write(os.path.join(here, "specs", f"{crate}_{name}.antt"), self.renamed(read(self.spec(crate, name))))
        lemmas = []
        for crate in self.cases:
            home = os.path.join(TOP, "crates", crate)
            for lemma in self.lemmas(crate):
                lemmas.append(f"{crate}_{lemma}")
                write(os.path.join(here, "proofs", f"{crate}_{lemma}.antt"), self.renamed(read(os.path.join(home, "proofs", lemma + ".antt"))))
            for function in sorted(os.listdir(os.path.join(home, "proofs"))):
                answers = os.path.join(home, "proofs", function, "Answers.antt")
                if os.path.exists(answers):
                    os.makedirs(os.path.join(here, "proofs", crate, function))
                    write(os.path.join(here, "proofs", crate, function, "Answers.antt"), self.renamed(read(answers)))
            write(os.path.join(here, "src", crate + ".rt"), self.renamed(read(os.path.join(home, "src", "lib.rt")).replace("#![tactic(auto)]\n", "")))
        write(os.path.join(here, "specs", "Lib.antt"), "".join(f"pub mod {crate}_{name}\n" for crate, name in sorted(self.specs)))
        write(os.path.join(here, "proofs", "Lib.antt"), "".join(f"pub mod {name}\n" for name in lemmas))
        write(os.path.join(here, "src", "lib.rt"), "#![tactic(auto)]\n\n" + "".join(f"pub mod {name};\n" for name in modules))
        write(os.path.join(room, "crates.txt"), "rules:\n")


def read(path):
    with open(path, encoding="utf-8") as file:
        return file.read()


def write(path, text):
    with open(path, "w", encoding="utf-8") as file:
        file.write(text)


def copy(names, room):
    """A copy of some crates of the repository, with what is kept of their checks."""
    os.makedirs(os.path.join(room, "crates"), exist_ok=True)
    lines = [line + "\n" for line in read(os.path.join(TOP, "crates.txt")).split("\n") if re.split("[: ]", line)[0] in names]
    write(os.path.join(room, "crates.txt"), "".join(lines))
    for name in names:
        shutil.copytree(os.path.join(TOP, "crates", name), os.path.join(room, "crates", name), ignore=shutil.ignore_patterns("must-fail", "data"), symlinks=True)


def check(room, crate):
    """Whether a crate of a copy is proved, and what the check says."""
    run = subprocess.run(["rt", "check"], cwd=os.path.join(room, "crates", crate), stdout=subprocess.PIPE, stderr=subprocess.STDOUT, text=True, errors="replace")
    return run.returncode == 0, run.stdout


def field_at(lines, row):
    """The field that a line of a proof file gives, if it is one of a record that is given field by field."""
    start = max((number for number, line in enumerate(lines[:row]) if re.match(r"\w.* = record \{$", line)), default=row)
    if "}" in lines[start : row + 1]:
        return None
    found = [re.match(r"  (\w+) = ", line) for line in lines[start + 1 : row + 1]]
    return next((match.group(1) for match in reversed(found) if match), None)


def lemma_at(lines, row):
    """The declaration of a proof file that a line belongs to."""
    found = [re.match(r"(?:pub )?(\w[\w-]*)", line) for line in lines[: row + 1] if not line.startswith(("unfolding", "use "))]
    return next((match.group(1) for match in reversed(found) if match), "?")


def refusals(room, crate, said):
    """The functions that are refused, each with its first field, the lemmas that are, and the first error that is no case's."""
    fields, lemmas, other = {}, {}, None
    specs = os.path.join(room, "crates", crate, "specs")
    cases = {name for file in os.listdir(specs) for name in re.findall(r"^  pub (\w+) :", read(os.path.join(specs, file)), re.M)}
    for line in said.split("\n"):
        found = re.match(r"(?:\./)?(\S+\.(?:antt|rt)):(\d+):(\d+): error:? ?(.*)", line)
        if not found:
            continue
        path, row, _, message = found.groups()
        if not path.startswith("proofs/"):
            other = other or f"{path}:{row}: {message}"
            continue
        lines = read(os.path.join(room, "crates", crate, path)).split("\n")
        function = "::".join(path.split("/")[1:-1]) or os.path.basename(path)
        field = field_at(lines, int(row) - 1)
        if field in cases:
            fields.setdefault(function, field)
        else:
            lemmas.setdefault(function, lemma_at(lines, int(row) - 1))
    for function in re.findall(rf"^fn {crate}::(\S+): not proved", said, re.M):
        if function not in fields:
            lemmas.setdefault(function, "returns")
    return fields, lemmas, other


def copy_again(source, room, changed):
    """A copy of a copy. Of the crates that are not changed the files are shared with the first."""
    os.makedirs(os.path.join(room, "crates"))
    shutil.copy(os.path.join(source, "crates.txt"), room)
    for name in os.listdir(os.path.join(source, "crates")):
        old, new = (os.path.join(top, "crates", name) for top in (source, room))
        subprocess.run(["cp", "-a" if name in changed else "-al", old, new], check=True)


def attempt(mutation, crates, rules, rules_room, whole_room):
    """Makes one mutation in a copy, and says what refuses it: a line, how it is counted, and whether that is as the list has it."""
    source = whole_room if mutation.law else rules_room
    with tempfile.TemporaryDirectory(dir=os.path.dirname(source)) as room:
        top = os.path.join(room, "copy")
        reached = {name for name in crates if below(crates, [name]) & mutation.crates()}
        copy_again(source, top, reached if mutation.law else {"rules"})
        try:
            mutation.make(top, None if mutation.law else rules)
        except (ValueError, OSError) as error:
            return f"DOES NOT FIT   {error}", None, False
        for crate in mutation.law or ["rules"]:
            proved, said = check(top, crate)
            if proved:
                continue
            fields, lemmas, other = refusals(top, crate, said)
            if other and mutation.by or not fields and not lemmas:
                return f"DOES NOT READ  {other or said.strip().splitlines()[-1]}", None, False
            if mutation.law:
                return f"refused by law  {crate}: " + ", ".join(sorted({*fields, *lemmas})), "law", True
            kind, found = ("field", fields) if fields else ("proof", lemmas)
            shown = "; ".join(f"{function}, {name}" for function, name in list(found.items())[:3])
            more = f"; {len(found) - 3} more" if len(found) > 3 else ""
            told = any(re.split("::|_[A-Z]", function)[0] in mutation.by for function in found)
            return f"refused{' by a proof:' if kind == 'proof' else ' '} {shown}{more}", kind, told
    return "STILL PROVED", None, False


def wanted(mutation, names):
    return not names or any(mutation.name == name or name.endswith("*") and mutation.name.startswith(name[:-1]) for name in names)


def main():
    parser = argparse.ArgumentParser(usage=__doc__.split("\n\n")[1][7:], add_help=True)
    parser.add_argument("-l", "--list", default=os.path.join(HERE, "mutations.txt"))
    parser.add_argument("-j", "--jobs", type=int, default=1)
    parser.add_argument("-k", "--keep", action="store_true")
    parser.add_argument("names", nargs="*")
    arguments = parser.parse_args()
    cases, mutations = read_list(arguments.list)
    crates = read_crates(TOP)
    chosen = [mutation for mutation in mutations if wanted(mutation, arguments.names)]
    if not chosen:
        sys.exit("no mutation has such a name")
    room = tempfile.mkdtemp(prefix="mutate.")
    rules, rules_room, whole_room = None, os.path.join(room, "rules"), os.path.join(room, "whole")
    try:
        if any(mutation.by for mutation in chosen):
            rules = Rules(crates, cases)
            rules.write(rules_room)
            proved, said = check(rules_room, "rules")
            if not proved:
                sys.exit(f"{said}\nthe cases are not proved over the definitions")
        laws = {crate for mutation in chosen for crate in mutation.law}
        if laws:
            copy(below(crates, laws), whole_room)
            for crate in laws:
                proved, said = check(whole_room, crate)
                if not proved:
                    sys.exit(f"{said}\n{crate} is not proved")
        print(f"{len(chosen)} mutations", flush=True)
        bad, counts = 0, {"field": 0, "proof": 0, "law": 0}
        with ThreadPoolExecutor(arguments.jobs) as pool:
            jobs = [pool.submit(attempt, mutation, crates, rules, rules_room, whole_room) for mutation in chosen]
            for mutation, job in zip(chosen, jobs):
                line, kind, good = job.result()
                bad += not good
                if good:
                    counts[kind] += 1
                print(f"{mutation.name:36} {line}{'' if good else '   <<'}", flush=True)
        print(f"refused as the list has it: {counts['field']} by a field, {counts['proof']} by a proof, {counts['law']} by a law; not so: {bad}")
        return bool(bad)
    finally:
        if arguments.keep:
            print(room)
        else:
            shutil.rmtree(room, ignore_errors=True)


if __name__ == "__main__":
    sys.exit(main())
