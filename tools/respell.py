#!/usr/bin/env python3
"""Gives the definitions and lemmas of this repository one spelling: types in upper camel case, all else in snake case.

usage: python3 tools/respell.py        at the top of the repository, once, with everything committed

It reads each crate's specs/ and proofs/, finds the names that they declare, and writes those that have a dash or an
inner capital anew, wherever an .antt file, a clause of an .rt file, a must-fail edit or a page of docs/ says them.
Functions of src/, strings, inputs and outputs keep their names. In answers it also gives the words of the source their
own spelling back, as in next_place for next-place. It stops before it writes where two names would fall together.
"""

import os
import re
import sys

SPLIT = re.compile(r"([\s(){}\[\];,.@\"«»|`\\]+)")
SIGNATURE = re.compile(r"^(\s*)(?:(?:abbrev|unfoldable|pub) )*((?:[^\s(){}\[\];,.:]+ )+): ?(.*)$")
TYPE = re.compile(r"^\s*(?:(?:abbrev|pub) )*(?:record|data) (\S+)")
ODD = re.compile(r".-.|[a-z][A-Z]|′")
OLD_WORDS = {"getD": "get_or"}
# Names of the library, and words that are no names.
KEPT = {"in-line"}
# Names that would fall together with another of the repository's.
APART = {"Counts-stand": "AllCountsStand", "Nodes-stand": "AllNodesStand"}


def files(*ends):
    for folder, dirs, names in os.walk("crates"):
        dirs[:] = sorted(d for d in dirs if d != "out")
        for name in sorted(names):
            if name.endswith(ends):
                yield os.path.join(folder, name)


def read(path):
    with open(path, encoding="utf-8") as f:
        return f.read()


def code(line):
    """The line up to its comment, and the comment."""
    at = line.find("--")
    while at > 0 and line[at - 1] not in " \t":
        at = line.find("--", at + 2)
    return (line, "") if at < 0 else (line[:at], line[at:])


def words(name):
    """The words of a name."""
    out = []
    for part in name.replace("′", "'").split("-"):
        part = OLD_WORDS.get(part, part)
        out += re.sub(r"(?<=[a-z0-9])(?=[A-Z])", "_", part).split("_")
    return [w for w in out if w]


def snake(name):
    return "_".join(w[0].lower() + w[1:] for w in words(name))


def camel(name):
    return "".join(w[0].upper() + w[1:] for w in words(name))


def declared():
    """Each name that a file of specs/ or proofs/ declares: whether it is a type."""
    found = {}
    for path in files(".antt"):
        lines = read(path).split("\n")
        for i, line in enumerate(lines):
            for name in re.findall(r" as (\w+)", line) if line.startswith("use ") else ():
                found.setdefault(name, False)
            m = TYPE.match(line)
            if m:
                found[m.group(1)] = True
                continue
            m = SIGNATURE.match(line)
            if not m or line.lstrip().startswith(("let ", "--", "use ", "module ")):
                continue
            kind, j = m.group(3), i + 1
            while j < len(lines) and lines[j].strip() and len(lines[j]) - len(lines[j].lstrip()) > len(m.group(1)):
                if SIGNATURE.match(lines[j]) or lines[j].lstrip().startswith(("unfolding", "where")):
                    break
                kind += " " + lines[j].strip()
                j += 1
            if re.match(r"\(?(goal|need|step)\.", kind):
                continue
            for name in m.group(2).split():
                found[name] = bool(re.search(r"(^|→ )Type( 0)?\s*$", kind))
    for path in files(".rt"):
        for line in read(path).split("\n"):
            for name in re.findall(r" as (\w+)", line) if line.lstrip().startswith("ghost use") else ():
                found.setdefault(name, False)
    return found


def mapping(found):
    to = {}
    for name, is_type in found.items():
        if not ODD.search(name) or name in KEPT:
            continue
        if "-" not in name and "′" not in name and name[0].isupper():
            continue
        new = APART.get(name) or (camel(name) if is_type or name[0].isupper() else snake(name))
        if new != name:
            to[name] = new
    return to


def source_words():
    """Names of the sources that have two words, by the spelling that older answers have."""
    out = {}
    for path in files(".rt"):
        text = re.sub(r"//.*|ghost use.*", "", read(path))
        for name in re.findall(r"\b[a-z][a-z0-9]*(?:_[a-z0-9]+)+\b", text):
            out[name.replace("_", "-")] = name
    return out


def source_spelling(token, known):
    """A name that answers make of words of the source: each word that the source joins by _ is joined so."""
    if "+" in token:
        return "+".join(source_spelling(t, known) for t in token.split("+"))
    parts = token.split("-")
    out, i = [], 0
    while i < len(parts):
        for j in range(len(parts), i + 1, -1):
            if "-".join(parts[i:j]) in known:
                out.append(known["-".join(parts[i:j])])
                i = j
                break
        else:
            out.append(parts[i])
            i += 1
    return "-".join(out)


def is_answer(path):
    return path.endswith(("/Answers.antt", "/Invariants.antt", "/Choices.antt", "/Proof.antt"))


def turn_code(text, to, known, answer):
    pieces = SPLIT.split(text)
    for i in range(0, len(pieces), 2):
        token = pieces[i]
        before = pieces[i - 1] if i else ""
        chain = before == "."
        j = i
        while j >= 2 and pieces[j - 1] == ".":
            j -= 2
        head = pieces[j]
        after = "".join(pieces[i + 1:i + 6])
        if answer and (head in ("goal", "need") or (head in ("c", "w", "l") and j == i - 2)):
            pieces[i] = source_spelling(token, known) if chain else token
        elif answer and "-" in token and re.match(r"use \S+\.(Goals|Given)\.", text):
            pieces[i] = source_spelling(token, known)
        elif answer and token not in to and "-" in token and not chain and re.match(r" (c|t c|g c|g t c|l|w ↦|: goal)\b", after):
            pieces[i] = source_spelling(token, known)
        elif token in to:
            pieces[i] = to[token]
    return "".join(pieces)


def turn_ticks(text, to):
    return re.sub(r"`([^`]*)`", lambda m: "`" + "".join(to.get(t, t) for t in SPLIT.split(m.group(1))) + "`", text)


def turn_antt(path, to, known):
    out = []
    for line in read(path).split("\n"):
        body, said = code(line)
        out.append(turn_code(body, to, known, is_answer(path)) + turn_ticks(said, to))
    return "\n".join(out)


def turn_rt(path, to):
    out = []
    for line in read(path).split("\n"):
        at = line.find("//")
        body, said = (line, "") if at < 0 else (line[:at], line[at:])
        parts = re.split(r'(b?"(?:\\.|[^"\\])*")', body)
        parts[::2] = ["".join(to.get(t, t) for t in SPLIT.split(p)) for p in parts[::2]]
        out.append("".join(parts) + turn_ticks(said, to))
    return "\n".join(out)


def older(to, found):
    """What pages say: the spelling of today's names, also of those that another script has turned already."""
    out = dict(to)
    for new in set(found) | set(to.values()):
        parts = new.split("_")
        if len(parts) > 1 and new[0].islower():
            out.setdefault("-".join(parts), new)
            out.setdefault(parts[0] + "".join(p[:1].upper() + p[1:] for p in parts[1:]), new)
    return out


def main():
    if not os.path.isdir("crates"):
        sys.exit("respell: no crates/ here")
    found = declared()
    to = mapping(found)
    texts = {}
    for path in files(".antt"):
        texts[path] = set(SPLIT.split("\n".join(code(line)[0] for line in read(path).split("\n"))))
    for _ in range(2):
        by_new = {}
        for old, new in to.items():
            by_new.setdefault(new, []).append(old)
        bad = False
        for new, olds in sorted(by_new.items()):
            olds = olds + ([new] if new in found and new not in olds else [])
            both = [p for p, t in texts.items() if sum(o in t for o in olds) > 1]
            if both:
                bad = True
                print(f"respell: {', '.join(olds)} become {new}; together in: {', '.join(both)}")
                # A lemma that would have its function's name ends in lem.
                for old in olds:
                    if "-" in old:
                        to[old] = new + "_lem"
    if bad:
        sys.exit("respell: nothing was written")
    for path, tokens in texts.items():
        for old, new in to.items():
            if old in tokens and new in tokens and new not in found:
                print(f"respell: look: {path}: {new} stood there beside {old}")
    known = source_words()
    for old, new in list(known.items()):
        if old in to:
            del known[old]
    n = 0
    for path in list(files(".antt", ".rt", ".edit")):
        old = read(path)
        if path.endswith(".antt"):
            new = turn_antt(path, to, known)
        elif path.endswith(".rt"):
            new = turn_rt(path, to)
        else:
            new = old if "file: src/" in old else "".join(to.get(t, t) for t in SPLIT.split(old))
        if new != old:
            n += 1
            with open(path, "w", encoding="utf-8") as f:
                f.write(new)
    pages = older(to, found)
    for path in ["README.md"] + sorted(os.path.join("docs", f) for f in os.listdir("docs") if f.endswith(".md")):
        if os.path.exists(path):
            old = read(path)
            new = turn_ticks(old, pages)
            if new != old:
                n += 1
                with open(path, "w", encoding="utf-8") as f:
                    f.write(new)
    print(f"respell: {len(to)} names, {n} files")


main()
