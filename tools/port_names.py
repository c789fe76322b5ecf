#!/usr/bin/env python3
"""Turns the repository's own definitions and lemmas to the spelling of today's Rattle: snake case for every word.

usage: python3 tools/port_names.py [--list]    at the top of the repository, once, behind the kit's port.py

A name is turned in a file that declares it or imports it from a module of this repository, and behind `.` where it is
a field of a record of this repository. `headOf` and `head-of` become `head_of`. Names of functions, types, modules,
strings, inputs and outputs stay. OTHER has the names whose turned form another name has already.
--list writes nothing: it prints old and new names, and the names that would fall together.
"""

import glob
import re
import sys

LEMMAS = (
    "last-at no-node no-position nan-bits no-frame name-length any-holds bitmap-value ce-may data-value phase-value"
    " pipeline-may state-value tx-value bad-packet ce-read no-fit pipeline-read same-packet refused-with votes-at flood-slot"
    " new-room capture-slots pipeline-slots"
)
OTHER = {it: it.replace("-", "_") + "_lem" for it in LEMMAS.split()}
OTHER.update({"floodCoverage": "flood_coverage_of", "linkPdr": "link_pdr_of"})
# The kit's script has turned these, and a definition of the file has the name now.
IN_FILE = {
    "crates/merges/proofs/Outcomes.antt": {"all_hold": "all_hold_lem"},
    "crates/capture/proofs/Holding.antt": {"from_at": "from_at_lem"},
}
WORD = r"[A-Za-z][\w'₀-₉]*(?:-[\w'₀-₉]+)*"
TOKEN = re.compile(r"(?<![\w'₀-₉·◌-])(\.?)(" + WORD + r")(?![\w'₀-₉·]|-[\w'])")
DECLARED = re.compile(r"^\s*(?:(?:abbrev|unfoldable|pub|private|ruleset|data|record) )*(" + WORD + r"(?: " + WORD + r")*) :(?![=:])")
USE = re.compile(r"^\s*(?:pub )?(?:ghost )?use Rattle\.(\w+)\.([\w.+-]*?)(?:\.\{(.*)\};?| as (\S+?);?|;?)\s*$")


def crates():
    lines = open("crates.txt", encoding="utf-8").read().split("\n")
    return {it.split(":")[0].split()[0] for it in lines if ":" in it and not it.startswith("#")}


def files(*ends):
    out = []
    for end in ends:
        out += sorted(glob.glob("crates/*/" + end, recursive=True))
    return [it for it in out if "/out/" not in it]


def snake(name):
    if name in OTHER:
        return OTHER[name]
    if not name[0].islower():
        return name
    name = re.sub(r"(?<=[a-z0-9])([A-Z])", lambda it: "_" + it.group(1).lower(), name)
    name = re.sub(r"_([A-Z])", lambda it: "_" + it.group(1).lower(), name)
    return name.replace("-", "_").lower()


def read(path):
    return open(path, encoding="utf-8", newline="").read()


def declared(text):
    """The names that a file declares, and which of them are fields."""
    names, fields, inside = set(), set(), None
    for line in text.split("\n"):
        body = line.split("--")[0].rstrip()
        if not body.strip():
            continue
        deep = len(body) - len(body.lstrip())
        head = re.match(r"\s*(?:pub )?(record|data) (\S+)", body)
        if inside is not None and deep <= inside:
            inside = None
        if head:
            inside = deep
        got = DECLARED.match(body)
        if got and not head:
            names.update(got.group(1).split())
            if inside is not None:
                fields.update(got.group(1).split())
    return names, fields


def imported(text, own):
    """The names that a file brings from modules of this repository, by the name that they have in it."""
    names, aliases = set(), set()
    for line in text.split("\n"):
        got = USE.match(line)
        if not got or got.group(1) not in own:
            continue
        if got.group(3):
            for each in got.group(3).split(","):
                for part in each.split(" as "):
                    names.add(part.strip())
        else:
            aliases.add(got.group(4) or got.group(2).split(".")[-1])
    return names, aliases


def turned(text, scope, fields, aliases, source):
    """The text with the names in scope turned. In a source file, strings stay."""

    def one(it):
        dot, name = it.group(1), it.group(2)
        if dot:
            before = text[: it.start()]
            alias = re.search(r"([\w'-]+)$", before)
            if name in fields or (alias and alias.group(1) in aliases):
                return dot + snake(name)
            return it.group(0)
        return snake(name) if name in scope else it.group(0)

    if not source:
        return TOKEN.sub(one, text)
    parts = re.split(r'("(?:[^"\\\n]|\\.)*")', text)
    out, text_all = [], text
    for part in parts:
        if part.startswith('"'):
            out.append(part)
        else:
            text = part
            out.append(TOKEN.sub(one, part))
    return "".join(out)


def beside(wanted, names):
    """Turns the names in must-fail edits, and in pages what stands between backticks. Some the kit's script has turned."""
    new = {snake(it) for it in names}

    def one(it):
        name = it.group(2)
        turns = name in wanted or (snake(name) != name and snake(name) in new and name not in names)
        return it.group(1) + (snake(name) if turns else name)

    every = lambda text: TOKEN.sub(one, text)
    for path in sorted(glob.glob("crates/*/must-fail/*.edit")):
        lines = read(path).split("\n")
        new = "\n".join(every(it) if it.startswith(("old:", "new:")) else it for it in lines)
        if new != read(path):
            open(path, "w", encoding="utf-8", newline="").write(new)
    for path in sorted(glob.glob("docs/**/*.md", recursive=True)) + ["README.md"]:
        new = re.sub(r"`[^`\n]+`", lambda it: every(it.group(0)), read(path))
        if new != read(path):
            open(path, "w", encoding="utf-8", newline="").write(new)


def main():
    own = crates()
    antt = files("specs/**/*.antt", "proofs/**/*.antt")
    sources = files("src/**/*.rt")
    all_names, all_fields, per = set(), set(), {}
    for path in antt:
        names, fields = declared(read(path))
        per[path] = names
        all_names |= names
        all_fields |= fields
    wanted = {it for it in all_names if it[0].islower() and snake(it) != it}
    fields = {it for it in all_fields if it in wanted}
    if "--list" in sys.argv:
        for it in sorted(wanted):
            print(it, snake(it))
    by_target = {}
    for path in antt + sources:
        text = read(path)
        brought, aliases = imported(text, own)
        here = {it for it in (per.get(path, set()) | brought) if it in wanted}
        # names of a definition or an import that a local of the file has in its old spelling
        plain = re.sub(r"--.*", "", text) if path.endswith(".antt") else text
        tokens = {}
        for dot, name in TOKEN.findall(plain):
            if not dot:
                tokens[name] = tokens.get(name, 0) + 1
        for name in tokens:
            target = snake(name) if name in here else name
            by_target.setdefault((path, target), set()).add(name)
        if "--list" not in sys.argv:
            for old, other in IN_FILE.get(path, {}).items():
                text = re.sub(r"(?<![\w'.-])" + old + r"(?![\w'-])", other, text)
            new = turned(text, here, fields, aliases, path.endswith(".rt"))
            if new != read(path):
                open(path, "w", encoding="utf-8", newline="").write(new)
    if "--list" not in sys.argv:
        beside(wanted, all_names)
    for (path, target), names in sorted(by_target.items()):
        if len(names) > 1:
            print("together:", path, target, " ".join(sorted(names)))


if __name__ == "__main__":
    main()
