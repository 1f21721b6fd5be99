#!/usr/bin/env python3
"""Compares the proved reader with a second reader, written in Python from docs/TEXT.md, on generated texts.

Use: (cd crates/cases && rt run <stdin >/dev/null) && scripts/compare_reading.py [COUNT] [SEED]
It feeds COUNT texts to crates/cases/out/cases and says how many answers differ; none should.
"""
import random
import re
import subprocess
import sys
from pathlib import Path

ROOM = 4  # lines that the program `cases` has memory for
LAYERS = {
    6: "TooManyLines List", 9: "ShortMemory List", 10: "TooLong List", 11: "BadWord Line",
    12: "BadAddress Word", 13: "BadNumber Word", 14: "BackwardRange Line", 15: "OtherList List",
}
PROTOCOLS = {b"ip": None, b"icmp": 1, b"igmp": 2, b"tcp": 6, b"udp": 17}


class Stop(Exception):
    """A refusal at a column."""


def number(word, low, high):
    if re.fullmatch(rb"0|[1-9][0-9]*", word) and low <= int(word) <= high:
        return int(word)
    return None


def address(word):
    parts = [number(part, 0, 255) for part in word.split(b".")]
    if len(parts) != 4 or None in parts:
        return None
    return sum(part << shift for part, shift in zip(parts, (24, 16, 8, 0)))


def family(n):
    if 1 <= n <= 99 or 1300 <= n <= 1999:
        return "standard"
    if 100 <= n <= 199 or 2000 <= n <= 2699:
        return "extended"
    return None


def text_lines(text):
    *ended, last = text.split(b"\n")
    lines = [line[:-1] if line.endswith(b"\r") else line for line in ended]
    return lines + ([last] if last else [])


class Words:
    """The words of a text line, one after another."""

    def __init__(self, line):
        self.line = line
        self.words = [(m.start(), m.group()) for m in re.finditer(rb"[^\t ]+", line)]

    def peek(self):
        return self.words[0][1] if self.words else None

    def place(self):
        return self.words[0][0] if self.words else len(self.line)

    def refuse(self, refusal):
        raise Stop(refusal, self.place())

    def take(self, read, refusal):
        if not self.words:
            self.refuse(11)
        value = read(self.peek())
        if value is None:
            self.refuse(refusal)
        self.words.pop(0)
        return value

    def address(self):
        return self.take(address, 12)

    def number(self, low, high):
        return self.take(lambda word: number(word, low, high), 13)

    def accept(self, keyword):
        found = self.peek() == keyword
        if found:
            self.words.pop(0)
        return found

    def network(self, standard):
        if self.accept(b"any"):
            return 0, 0xFFFFFFFF
        if self.accept(b"host"):
            return self.address(), 0
        a = self.address()
        if standard and self.peek() in (None, b"log"):
            return a, 0
        w = self.address()
        return a & ~w, w

    def ports(self, protocol):
        if protocol not in (6, 17):
            return "Any"
        for keyword in (b"eq", b"neq", b"lt", b"gt"):
            if self.accept(keyword):
                return f"{keyword.decode().capitalize()}({self.number(0, 65535)})"
        if not self.accept(b"range"):
            return "Any"
        first, column = self.number(0, 65535), self.place()
        last = self.number(0, 65535)
        if first > last:
            raise Stop(14, column)
        return f"Range({first}, {last})"

    def protocol(self):
        word = self.peek()
        if word is not None and word[:1].isdigit():
            return self.number(0, 255)
        return self.take(lambda w: (PROTOCOLS[w],) if w in PROTOCOLS else None, 11)[0]


def entry(words, form):
    action = words.take(lambda w: w.decode().capitalize() if w in (b"permit", b"deny") else None, 11)
    protocol, ports, destination, to_ports = None, "Any", (0, 0xFFFFFFFF), "Any"
    if form == "extended":
        protocol = words.protocol()
    source = words.network(form == "standard")
    if form == "extended":
        ports, destination, to_ports = words.ports(protocol), words.network(False), words.ports(protocol)
    log = words.accept(b"log")
    if words.peek() is not None:
        words.refuse(11)
    shown = "Any" if protocol is None else f"Number({protocol})"
    return (f"protocol: {shown}, log: {str(log).lower()}, "
            f"source: Side {{ address: {source[0]}, wildcard: {source[1]}, ports: {ports} }}, "
            f"destination: Side {{ address: {destination[0]}, wildcard: {destination[1]}, ports: {to_ports} }} }}"), action


def line_says(line, known):
    if len(line) > 256:
        raise Stop(10, 256)
    words = Words(line)
    if not words.words or words.peek().startswith(b"!"):
        return known, None
    if not words.accept(b"access-list"):
        words.refuse(11)
    column = words.place()
    n = words.number(1, 2699)
    if family(n) is None:
        raise Stop(13, column)
    if known not in (None, n):
        raise Stop(15, column)
    if words.peek() == b"remark":
        return n, None
    return n, entry(words, family(n))


def read(text):
    """What the program `cases` prints for a text."""
    if len(text) > 65536:
        return [f"refused 10 0 0 {LAYERS[10]}"]
    known, shown = None, []
    for t, line in enumerate(text_lines(text), 1):
        try:
            known, said = line_says(line, known)
        except Stop as stop:
            refusal, column = stop.args
            return [f"refused {refusal} {t} {column} {LAYERS[refusal]}"]
        if said is not None:
            shown.append(f"  Line {{ action: {said[1]}, number: {len(shown) + 1}, {said[0]}")
            if len(shown) > 1024:
                return [f"refused 6 {t} 0 {LAYERS[6]}"]
    if len(shown) > ROOM:
        return [f"refused 9 0 0 {LAYERS[9]}"]
    return [f"list {known or 0}, {len(shown)} lines"] + shown


def some_address(rng):
    return ".".join(str(rng.choice((0, 1, 10, 127, 128, 254, 255, rng.randrange(256)))) for _ in range(4))


def some_side(rng):
    return rng.choice(("any", "host " + some_address(rng), some_address(rng) + " " + some_address(rng)))


def some_ports(rng):
    n, m = sorted(rng.choice((0, 1, 22, 80, 65534, 65535)) for _ in range(2))
    return rng.choice(("", "", f"eq {n}", f"neq {n}", f"lt {n}", f"gt {n}", f"range {n} {m}"))


def some_line(rng, n):
    action = rng.choice(("permit", "deny", "permit", "deny", "remark"))
    log = rng.choice(("", "", "log"))
    if family(n) == "standard":
        rest = rng.choice((some_side(rng), some_address(rng)))
    else:
        protocol = rng.choice(("ip", "icmp", "igmp", "tcp", "udp", "6", "17", str(rng.randrange(256))))
        ported = protocol in ("tcp", "udp", "6", "17")
        first, second = (some_ports(rng), some_ports(rng)) if ported else ("", "")
        rest = f"{protocol} {some_side(rng)} {first} {some_side(rng)} {second}"
    return f"access-list {n} {action} {rest} {log}"


STRAY = ("any", "host", "log", "eq", "range", "permit", "ip", "tcp", "remark", "!", "0", "00", "256", "65536", "6x", "-1",
         "1.2.3.4", "1.2.3", "1.2.3.256", "access-list", "x" * 200, "\r", "é", "PERMIT")


def damaged(rng, line):
    words = line.split()
    for _ in range(rng.choice((0, 0, 0, 1, 1, 2))):
        i = rng.randrange(len(words) + 1)
        kind = rng.randrange(3)
        if kind == 0:
            words.insert(i, rng.choice(STRAY))
        elif kind == 1 and i < len(words):
            del words[i]
        elif i < len(words):
            words[i] = rng.choice(STRAY)
    blanks = (" ", " ", " ", "  ", "\t")
    return rng.choice(("", "", " ")) + "".join(word + rng.choice(blanks) for word in words)


def some_text(rng):
    n = rng.choice((1, 99, 1300, 1999, 100, 199, 2000, 2699, 10, 150, 0, 200, 1299, 2700))
    lines = []
    for _ in range(rng.randrange(7)):
        line = rng.choice((some_line(rng, n), some_line(rng, n), some_line(rng, n), "", "! note", some_line(rng, n + rng.randrange(2))))
        lines.append(damaged(rng, line) + rng.choice(("\n", "\n", "\r\n")))
    return "".join(lines).encode()


def main():
    count = int(sys.argv[1]) if len(sys.argv) > 1 else 5000
    rng = random.Random(int(sys.argv[2]) if len(sys.argv) > 2 else 1)
    texts = [some_text(rng) for _ in range(count)]
    texts = [text for text in texts if b"%" not in text]
    program = Path(__file__).resolve().parent.parent / "crates" / "cases" / "out" / "cases"
    got = subprocess.run([program], input=b"".join(text + b"%\n" for text in texts), capture_output=True, check=True)
    answers = []
    for row in got.stdout.decode().splitlines():
        if row.startswith("  "):
            answers[-1].append(row)
        else:
            answers.append([row])
    wanted = [read(text) for text in texts]
    differing = [i for i, want in enumerate(wanted) if i >= len(answers) or answers[i] != want]
    for i in differing[:3]:
        print(texts[i], "\n wanted", wanted[i], "\n got", answers[i] if i < len(answers) else None)
    good = sum(want[0].startswith("list") for want in wanted)
    print(f"{len(texts)} texts, {good} of them read: {len(differing)} differ")
    return 1 if differing or len(answers) != len(texts) else 0


if __name__ == "__main__":
    sys.exit(main())
