"""Which bytes are a design text, and which line of others is the first bad one (docs/FORMATS.md, "Design text").

A plain reading of the definition, for a comparison with the program: a line is bad where no design text begins with
the lines up to and including it. `read` answers None for a design text and else the line; `changes` gives the texts
that differ from a text by one byte, or by one line that is dropped, doubled or swapped with the next.
"""
import re

NAME = rb"[A-Za-z0-9_.-]{1,32}"
NUMBER = rb"(?:0|[1-9][0-9]{0,17})"


def form(*words):
    return re.compile(b" ".join(words))


DESIGN = [form(rb"design", rb"1"), form(rb"design", rb"2")]
PROJECT = form(rb"project", NAME)
FAN = form(rb"fan", NAME, NUMBER, NUMBER)
RETURN_FAN = form(rb"return-fan", NAME, NUMBER, NUMBER)
SUPPLY = form(rb"supply", NUMBER, NUMBER)
RETURN = form(rb"return", NUMBER, NUMBER)
SECTION = form(rb"section", NAME, NAME, NUMBER, NUMBER, NUMBER)
COST = form(rb"cost", NUMBER)
END = form(rb"end")
MOST_SECTIONS = 500


def follows(lines):
    """The forms of which the line behind these good lines may be; none behind the end."""
    if not lines:
        return DESIGN
    head = [PROJECT, FAN] + ([RETURN_FAN] if lines[0] == b"design 2" else []) + [SUPPLY, RETURN]
    place = len(lines) - 1
    if place < len(head):
        return [head[place]]
    if lines[-1] == b"end":
        return []
    if lines[-1].startswith(b"cost "):
        return [END]
    sections = place - len(head)
    return ([SECTION] if sections < MOST_SECTIONS else []) + ([COST] if sections >= 1 else [])


def read(text):
    """None for a design text, and else the number of its first bad line, from 1."""
    *lines, rest = text.split(b"\n")
    good = []
    for line in lines:
        if not any(f.fullmatch(line) for f in follows(good)):
            return len(good) + 1
        good.append(line)
    if good and good[-1] == b"end" and not rest:
        return None
    return len(good) + 1


def changes(text, choose):
    """Texts that differ from it by one change; `choose` picks the byte that is put in a place."""
    for at in range(len(text)):
        yield text[:at] + text[at + 1:]
        yield text[:at] + bytes([choose(text[at])]) + text[at + 1:]
        yield text[:at] + bytes([choose(text[at])]) + text[at:]
    lines = text.splitlines(keepends=True)
    for at in range(len(lines)):
        yield b"".join(lines[:at] + lines[at + 1:])
        yield b"".join(lines[:at] + [lines[at]] + lines[at:])
        if at + 1 < len(lines):
            yield b"".join(lines[:at] + [lines[at + 1], lines[at]] + lines[at + 2:])


def edge_texts(text):
    """Texts at the edges of the definition, made from a good one of form 1 with at least one section."""
    lines = text.splitlines(keepends=True)
    first = next(i for i, line in enumerate(lines) if line.startswith(b"section "))
    last = max(i for i, line in enumerate(lines) if line.startswith(b"section "))
    section = lines[first]
    yield b""
    yield b"\n"
    yield b"\xef\xbb\xbf" + text
    yield text[:-1]
    yield text + b"\n"
    yield text + b"x"
    yield text.replace(b"\n", b"\r\n")
    yield b"".join(lines[:first] + lines[last + 1:])
    for count in (1, 499, 500, 501, 502):
        yield b"".join(lines[:first] + [section] * count + lines[last + 1:])
    yield b"".join(lines[:3] + [b"return-fan g 1 2\n"] + lines[3:])
    yield b"design 2\n" + b"".join(lines[1:])
    yield b"design 2\n" + b"".join(lines[1:3] + [b"return-fan g 1 2\n"] + lines[3:])
    for number in (b"999999999999999999", b"1000000000000000000", b"00", b"-0", b"+1", b"01"):
        yield text.replace(lines[-2], b"cost " + number + b"\n")
    for at in range(len(lines)):
        yield b"".join(lines[:at])
        yield b"".join(lines[:at]) + lines[at][:-1]
