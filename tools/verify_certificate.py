#!/usr/bin/env python3
"""Tests a certificate that no design of a network costs less, from the two texts alone.

    tools/verify_certificate.py NETWORK CERTIFICATE

It prints `certificate yes` with status 0, the first of `certificate no section NAME` and `certificate no total` with
status 3, or `refused certificate line N form` with status 1. docs/CERTIFICATES.md says what is tested. The network has
to be one that `duct_cli pick` reads: its own rules are not tested here.
"""
import bisect
import pathlib
import re
import sys
import tomllib

MAX_NEED, LIMIT, NUMBER = 20_000, 10**18, re.compile(rb"0|[1-9][0-9]*")


class BadLine(Exception):
    """A line, counted from 1, that no certificate of the network has in its place."""


def network(text):
    """The name; the sections, each with its count of sizes and its neighbour's; each side's at the fan; the fans."""
    document = tomllib.loads(text)
    tables = document.get("section", [])
    places = {table["name"]: s for s, table in enumerate(tables)}
    sections, roots = [], {"supply": [], "return": []}
    for s, table in enumerate(tables):
        near = places[table["neighbour"]] if "neighbour" in table else None
        pairs = {(k - 1, max(g - 1, 0)): (loss, price) for k, g, loss, price in table.get("pairs", [])}
        columns = 1 if near is None else sections[near]["sizes"]
        sizes = len(table["sizes"])
        sections.append({"name": table["name"], "sizes": sizes, "columns": columns, "children": [], "pairs": pairs})
        if near is None:
            roots[table["side"]].append(s)
        else:
            sections[near]["children"].append(s)
    return document["name"], sections, roots, [(fan["pressure"], fan["cost"]) for fan in document.get("fan", [])]


def number(word, most, line):
    """The number of a word in plain decimals, at most this."""
    if not NUMBER.fullmatch(word) or len(word) > 18 or int(word) > most:
        raise BadLine(line)
    return int(word)


def front(words, line):
    """The needs, which rise, and the costs, which fall."""
    if words[0] != b"front" or len(words) % 2 == 0:
        raise BadLine(line)
    needs = [number(word, MAX_NEED, line) for word in words[1::2]]
    costs = [number(word, LIMIT - 1, line) for word in words[2::2]]
    if needs != sorted(set(needs)) or costs != sorted(set(costs), reverse=True):
        raise BadLine(line)
    return needs, costs


def certificate(name, sections, text):
    """The total, None where none is stated, and the fronts of each section by the neighbour's size."""
    *lines, behind = text.split(b"\n")

    def words(at):
        if at >= len(lines):
            raise BadLine(at + 1)
        return lines[at].split(b" ")

    if words(0) != [b"certificate", b"1"]:
        raise BadLine(1)
    if words(1) != [b"project", name.encode()]:
        raise BadLine(2)
    cost = words(2)
    if len(cost) != 2 or cost[0] != b"cost":
        raise BadLine(3)
    total = None if cost[1] == b"none" else number(cost[1], LIMIT - 1, 3)
    fronts, at = [], 3
    for section in sections:
        fronts.append([front(words(at + g), at + g + 1) for g in range(section["columns"])])
        at += len(fronts[-1])
    if words(at) != [b"end"]:
        raise BadLine(at + 1)
    if len(lines) > at + 1 or behind:
        raise BadLine(at + 2)
    return total, fronts


def bound(points, budget):
    """The cost of the last point whose need is within the budget, or None."""
    at = bisect.bisect_right(points[0], budget)
    return points[1][at - 1] if at else None


def together(fronts, budget):
    """The sum of the bounds, or None where one is not there."""
    bounds = [bound(points, budget) for points in fronts]
    return None if None in bounds else sum(bounds)


def needs_of(fronts):
    """Nothing, and each need of the fronts: between two of them no bound changes."""
    return sorted({0}.union(*(points[0] for points in fronts)))


def is_sound(sections, fronts, s, cap):
    """Whether the fronts of section s keep the bounds of its children."""
    section = sections[s]
    for k in range(section["sizes"]):
        beyond = [fronts[child][k] for child in section["children"]]
        pairs = [(g, section["pairs"][k, g]) for g in range(len(fronts[s])) if (k, g) in section["pairs"]]
        for rest in needs_of(beyond):
            least = together(beyond, rest)
            for g, (loss, price) in pairs if least is not None else []:
                stated = bound(fronts[s][g], loss + rest)
                if loss + rest <= cap and (stated is None or stated > price + least):
                    return False
    return True


def is_sound_total(roots, fronts, fans, total):
    """Whether no fan, shared out between the sides, costs less together with the bounds at the fan."""
    supply, back = ([fronts[s][0] for s in roots[side]] for side in ("supply", "return"))
    for budget in needs_of(supply):
        bought = together(supply, budget)
        for pressure, cost in fans if bought is not None else []:
            left = together(back, pressure - budget) if budget <= pressure else None
            if left is not None and (total is None or cost + bought + left < total):
                return False
    return True


def answer(network_text, certificate_text):
    """The status and the line."""
    name, sections, roots, fans = network(network_text)
    try:
        total, fronts = certificate(name, sections, certificate_text)
    except BadLine as bad:
        return 1, f"refused certificate line {bad} form"
    cap = max((pressure for pressure, _ in fans), default=0)
    for s, section in enumerate(sections):
        if not is_sound(sections, fronts, s, cap):
            return 3, f"certificate no section {section['name']}"
    return (0, "certificate yes") if is_sound_total(roots, fronts, fans, total) else (3, "certificate no total")


if __name__ == "__main__":
    status, line = answer(pathlib.Path(sys.argv[1]).read_text(encoding="utf-8"), pathlib.Path(sys.argv[2]).read_bytes())
    print(line)
    sys.exit(status)
