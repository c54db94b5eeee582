#!/usr/bin/env python3
"""Respells this repository's own names in antt, after port.py: `tools/respell.py` at the top, once, on what port.py wrote.

port.py respells only the names that a library spells alike. Here the others follow: definitions, lemmas, fields, constructors and the names of imports
are in snake case (`finiteMotion` becomes `finite_motion`, `later-chain` becomes `later_chain`); types, facts and modules keep their capital, and the
module `inside` gets one. A dash stays where it stands beside a sign or the name of a constant (`<ᶠ-cross`, `PI-finite`, `c4-twice`), and so does the
spelling of a number that is a name (`c1+1e-9`, `2^-`). Functions of src/, strings and what a library calls its own are left as they are. In comments
only words in camel case are respelled, since a dash there is mostly English. Names that would fall together stop it before anything is written.
"""
import collections
import glob
import os
import re
import subprocess
import sys

TOKEN = re.compile(r"[^\s(){}\[\],;.@\"]+")
SIGNATURE = re.compile(r"^\s*(?:abbrev |unfoldable |pub )*([^\s(){}\[\],;.:]+)\s+:(?:\s|$)")
USE = re.compile(r"^\s*(?:ghost |pub )*use ")
PLAIN = re.compile(r"^[a-z][A-Za-z0-9]*'*$")
NUMBER = re.compile(r"^c\d")
CRATES = sorted(os.listdir("crates"))
# Lemmas that would have the name of the function that they are about, and an abbreviation that would have that of a lemma.
LEMMAS = "accepted-afresh all-finite buffer-after end-afresh is-given is-nan kept-in-noise sound-log sound-sizes valid-sigmas".split()
APART = {name: name.replace("-", "_") + "_lem" for name in LEMMAS} | {"oneMore": "one_more_taken"}
# A field and a function of one name: a field is named only behind a dot or in a record's braces.
FIELDS = {"in-range", "rateNoise", "radiansPerTick"}


def antt_files():
    return sorted(glob.glob("crates/*/specs/**/*.antt", recursive=True) + glob.glob("crates/*/proofs/**/*.antt", recursive=True))


def snake(word):
    return re.sub(r"([a-z0-9])([A-Z])", lambda m: m[1] + "_" + m[2].lower(), word)


def respelled(name):
    """The name in today's spelling."""
    if name in APART:
        return APART[name]
    if name[0].isupper() and "-" not in name:
        return name
    if NUMBER.match(name) and "-" not in name.replace("e-", ""):
        return name
    if re.match(r"^\d|^two\^|^◌", name):
        return name
    parts = re.split(r"(?<!e)-", name) if NUMBER.match(name) else name.split("-")
    out = parts[0] if not PLAIN.match(parts[0]) else snake(parts[0])
    for before, part in zip(parts, parts[1:]):
        joined = part if re.match(r"^[A-Z]", part) else snake(part)
        plain = re.match(r"^[a-z]\w*'*$", before) and not NUMBER.match(before) and re.match(r"^[a-z0-9]\w*'*$", part)
        out += ("_" if plain else "-") + joined
    return out


def clauses(text):
    """The parts of a .rt file that are antt: (start, end)."""
    for m in re.finditer(r"^[ \t]*ghost use [^;]*;", text, re.M):
        yield m.start(), m.end()
    for m in re.finditer(r"^[ \t]*(?:requires|ensures)\*?(?: \w+)? \{", text, re.M):
        depth, at = 1, m.end()
        while depth:
            depth += {"{": 1, "}": -1}.get(text[at], 0)
            at += 1
        yield m.end(), at - 1
    for m in re.finditer(r"^[ \t]*(?:pub )?ghost (?!use )\w+[^\n]*$", text, re.M):
        yield m.start(), m.end()


def foreign(text):
    """The names that a file takes from a library, whose spelling is the library's."""
    taken = set()
    for m in re.finditer(r"use ([\w.'◌-]+)\.\{([^}]*)\}", text):
        if not is_own(m[1]):
            for word in m[2].split(","):
                taken.add(word.split(" as ")[-1].strip())
    return taken


def is_own(path):
    parts = path.split(".")
    return len(parts) > 1 and parts[0] == "Rattle" and parts[1] in CRATES


def collect():
    names = set()
    for path in antt_files():
        for line in open(path):
            if (m := SIGNATURE.match(line)) and path.split("/")[-1] != "Proof.antt":
                names.add(m[1])
    for path in antt_files() + sorted(glob.glob("crates/*/src/*.rt")):
        for line in open(path):
            if USE.match(line):
                names |= set(re.findall(r" as ([^\s,}]+)", line))
    return {n: respelled(n) for n in names if respelled(n) != n}


def turned(line, names, kept):
    """One line of antt: its code, and behind `--` its comment."""
    code, dash, comment = line, "", ""
    if m := re.search(r"(^|\s)--(\s|$)", line):
        code, dash, comment = line[: m.start() + len(m[1])], "--", line[m.start() + len(m[1]) + 2 :]
    if USE.match(code) and not is_own((re.search(r"use ([\w.'◌-]+?)(?:\.\{|;|\s|$)", code) or [0, ""])[1]):
        code = re.sub(r"(?<= as )[^\s,}]+", lambda m: names.get(m[0], m[0]), code)
    else:
        code = TOKEN.sub(lambda m: names.get(m[0], m[0]) if m[0] not in kept else m[0], code)
    return code + dash + in_comment(comment, names)


def in_comment(text, names):
    text = re.sub(r"`([^`]*)`", lambda m: "`" + TOKEN.sub(lambda t: names.get(t[0], t[0]), m[1]) + "`", text)
    return TOKEN.sub(lambda m: names.get(m[0], m[0]) if re.match(r"^[a-z]+[A-Z]", m[0]) else m[0], text)


def turned_rt(text, names):
    out, last = [], 0
    for start, end in sorted(clauses(text)):
        out += [text[last:start], "\n".join(turned(l, names, foreign(text)) for l in text[start:end].split("\n"))]
        last = end
    return "".join(out) + text[last:]


def inside(text):
    """The module `inside` of a specs/ folder."""
    return re.sub(r"(?<=\.specs\.)inside(?=\.)", "Inside", re.sub(r"(?m)^((?:pub )?mod )inside$", r"\1Inside", text))


def main():
    names = collect()
    bad = 0
    fallen = collections.Counter(names.values())
    for old, new in sorted(names.items()):
        if fallen[new] > 1:
            print(f"these fall together: {sorted(o for o in names if names[o] == new)} as {new}")
            bad += 1
    files = antt_files()
    for path in files:
        if path.endswith("/Proof.antt"):
            continue
        text = open(path).read()
        tokens = {t for line in text.split("\n") for t in TOKEN.findall(re.split(r"(?:^|\s)--(?:\s|$)", line)[0])}
        for old in tokens & names.keys() - foreign(text) - FIELDS:
            if names[old] in tokens:
                print(f"{path}: {old} would fall together with {names[old]}")
                bad += 1
    for path in sorted(glob.glob("crates/*/src/*.rt")):
        text = open(path).read()
        tokens = set(TOKEN.findall(" ".join(text[a:b] for a, b in clauses(text))))
        for old in tokens & names.keys() - foreign(text):
            if names[old] in tokens:
                print(f"{path}: {old} would fall together with {names[old]}")
                bad += 1
    if bad:
        sys.exit(1)
    if "--list" in sys.argv:
        for old, new in sorted(names.items()):
            print(old, new)
        return
    for path in files:
        text = open(path).read()
        kept = foreign(text)
        new = inside("\n".join(turned(line, names, kept) for line in text.split("\n")))
        if new != text:
            open(path, "w").write(new)
    for path in sorted(glob.glob("crates/*/src/*.rt")):
        text = open(path).read()
        new = inside(turned_rt(text, names))
        if new != text:
            open(path, "w").write(new)
    for path in sorted(glob.glob("crates/*/must-fail/*.edit")):
        text = open(path).read()
        of_antt, lines = False, []
        for line in text.split("\n"):
            if line.startswith("file: "):
                of_antt = line.endswith(".antt")
            elif line.startswith(("old: ", "new: ")) and of_antt:
                code = re.sub(r"(?<=[\w')]) \.(?=[a-z0-9])", ".", line[5:].replace("«", "").replace("»", ""))
                code = re.sub(r"\(([\w']+(?:\.[\w']+)+)\)", r"\1", code)
                line = line[:5] + re.sub(r"\b[a-z]+[A-Z]\w*", lambda m: respelled(m[0]), turned(code, names, set()))
            elif line.startswith("-- "):
                line = "-- " + in_comment(line[3:], names)
            lines.append(line)
        if "\n".join(lines) != text:
            open(path, "w").write("\n".join(lines))
    for path in sorted(glob.glob("crates/*/specs/inside.antt")):
        folder = os.path.dirname(path)
        subprocess.run(["git", "mv", path, folder + "/Inside.antt"], check=True)
        subprocess.run(["git", "mv", folder + "/inside", folder + "/Inside"], check=True)


if __name__ == "__main__":
    main()
