#!/usr/bin/env python3
"""Brings the names of this repository's definitions and lemmas to the spelling of today's Rattle.

usage: python3 tools/respell_names.py [--list]     at the top of the repository, once, right after the toolchain's port.py

A name in camelCase or with a dash becomes snake_case. Names of src/, of the library and of generated goals are left alone,
and so are strings. Where a lemma would have the name of a function, it ends in _lem. Facts that should be spelled as types,
and other names that would fall together, stand in TABLE. --list prints the renamings and changes nothing.
"""

import collections
import glob
import re
import sys

# by hand, for every crate or for one: a fact, which is spelled as a type, and names that would fall together
TABLE = {
    "Write-laws": "WriteLawsHold",
    "at_path": "is_at",
    "entry_in": "entry_in_lem",
    "is_free": "is_free_lem",
    "look_in": "look_in_lem",
    "name_in": "name_in_lem",
    "own-blocks": "blocks_here",
    "read-in": "read_in",
    "read_some": "read_some_lem",
    "same_kind": "same_kind_lem",
}
TABLE_OF = {"trees": {"read-in": "read_in_lem"}}

DEFINED = re.compile(r"^\s*(?:(?:abbrev|unfoldable|pub|mutual)\s+)*([^\s(){}.;,:]+)\s+:(?=\s)")
DECLARED = re.compile(r"^\s*(?:pub\s+)?(?:data|record)\s+(?:pub\s+)?([^\s(){}.;,:]+)")
LET = re.compile(r"\blet ([^\s(){}.;,:]+) :(?=\s)")
USE = re.compile(r"\buse ([A-Za-z_.]*[A-Za-z_])\.\{([^}]*)\}")
TOKEN = re.compile(r"[^\s(){}\[\].;,:λ→↦×⟨⟩|◌=`\"«»/!]+")
STRING = re.compile(r"\"(?:[^\"\\]|\\.)*\"")


def is_answer(path):
    return path.rsplit("/", 1)[-1] in ("Answers.antt", "Invariants.antt", "Proof.antt")


def is_camel(name):
    return name[:1].islower() and re.search(r"[a-z0-9][A-Z]", name) is not None


def has_dash(name):
    return re.search(r"\w-\w", name) is not None


def snake(name):
    bare = name.rstrip("'")
    parts = [re.sub(r"(?<=[a-z0-9])([A-Z])", r"_\1", p).lower() if is_camel(p) else p for p in bare.split("-")]
    return "_".join(parts) + name[len(bare) :]


def read(path):
    with open(path, encoding="utf-8") as f:
        return f.read()


def code(line):
    """A line of antt without its comment."""
    return "" if line.lstrip().startswith("--") else line.split(" -- ")[0]


def gather(specs, sources, crates):
    """The names that the repository defines, and the names that it imports."""
    own, foreign = set(), set()
    for path in specs + sources:
        for m in USE.finditer(read(path)):
            parts = m.group(1).split(".")
            if parts[0] != "Rattle" or parts[1] not in crates or "declared" in parts:
                foreign.update(x.strip() for n in m.group(2).split(",") for x in n.split(" as "))
    for path in specs:
        if is_answer(path):
            continue
        for line in read(path).splitlines():
            m = DEFINED.match(code(line)) or DECLARED.match(code(line))
            if m and m.group(1) not in foreign:
                own.add(m.group(1))
    return own, foreign


def renamings(specs, own, foreign):
    """Every name to be respelled: defined ones everywhere, and local ones of the lemmas."""
    names = collections.OrderedDict(TABLE)
    for path in specs:
        for line in read(path).splitlines():
            local = set(LET.findall(line))
            for t in TOKEN.findall(code(line)):
                if t in foreign or t in TABLE or not (is_camel(t) or has_dash(t)) or re.search(r"[<>≤≡+*]", t):
                    continue
                if t in own or is_camel(t) or t in local or not is_answer(path):
                    names[t] = snake(t)
    made = {b for a, b in names.items() if not has_dash(a)} | {n for n in own | foreign if n not in names}
    for a, b in names.items():
        if has_dash(a) and a not in TABLE and b in made:
            names[a] = b + "_lem"
    return names


def clashes(names, own, foreign):
    back = collections.defaultdict(set)
    for a, b in names.items():
        back[b].add(a)
    for b in back:
        if (b in own or b in foreign) and b not in names:
            back[b].add(b)
    return {b: a for b, a in back.items() if len(a) > 1}


def turn(text, names):
    return TOKEN.sub(lambda m: names.get(m.group(0), m.group(0)), text)


def turn_outside_strings(line, names):
    out, at = [], 0
    for m in STRING.finditer(line):
        out += [turn(line[at : m.start()], names), m.group(0)]
        at = m.end()
    return "".join(out + [turn(line[at:], names)])


def rewritten(path, names, own):
    names = names | TABLE_OF.get(path.split("/")[1], {}) if path.startswith("crates/") else names
    camel = {a: b for a, b in names.items() if is_camel(a) and not has_dash(a)}
    kept = {a: b for a, b in names.items() if a in own or is_camel(a)}
    lines = []
    for line in read(path).splitlines(keepends=True):
        if path.endswith(".md"):
            lines.append(turn(line, camel))
        elif path.endswith(".antt"):
            if line.lstrip().startswith("--"):
                lines.append(turn(line, camel))
            elif is_answer(path):
                local = {t: names[t] for t in names if t in LET.findall(line)}
                lines.append(turn(line, kept | local))
            else:
                lines.append(turn(line, names))
        elif line.lstrip().startswith(("//", "#")):
            lines.append(turn(line, camel))
        else:
            lines.append(turn_outside_strings(line, kept))
    return "".join(lines)


def main(argv):
    crates = sorted(p.split("/")[1] for p in glob.glob("crates/*/"))
    specs = sorted(glob.glob("crates/*/specs/**/*.antt", recursive=True) + glob.glob("crates/*/proofs/**/*.antt", recursive=True))
    sources = sorted(glob.glob("crates/*/src/**/*.rt", recursive=True))
    edits = sorted(glob.glob("crates/*/must-fail/*.edit"))
    pages = sorted(glob.glob("docs/*.md") + ["README.md"])
    own, foreign = gather(specs, sources, crates)
    names = renamings(specs, own, foreign)
    for b, a in sorted(clashes(names, own, foreign).items()):
        print(f"falls together: {', '.join(sorted(a))} as {b}")
    if "--list" in argv:
        for a, b in names.items():
            print(a, b)
        return 0
    for path in specs + sources + edits + pages:
        before = read(path)
        after = rewritten(path, names, own)
        if after != before:
            with open(path, "w", encoding="utf-8") as f:
                f.write(after)
    print(f"{len(names)} names respelled")
    return 0


if __name__ == "__main__":
    raise SystemExit(main(sys.argv[1:]))
