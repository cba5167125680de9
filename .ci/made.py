#!/usr/bin/env python3
"""The network file of a made network, by the rules of docs/FORMATS.md, "A made network", in plain Python.

    .ci/made.py N > FILE        N: how many sections, 1 to 500

Nothing here is the program's. Losses and pressures are in dPa, money in cents; sections, places and sizes count from 0
here, and from 1 in the file.
"""
import sys

SIZES = 8
FANS = 8


def is_return(i):
    """Every third section is of the return side."""
    return i % 3 == 2


def neighbour(i):
    """The section towards the fan: it stands in half the place, in the row of its own side. None at the fan."""
    row = [other for other in range(i + 1) if is_return(other) == is_return(i)]
    place = len(row) - 1
    return row[(place - 1) // 2] if place else None


def pair(i, k, g, at_fan):
    """The loss and the price of section i in size k beside size g of its neighbour; None where the pair is left out."""
    if 0 < k < SIZES - 1 and (i + 3 * k + 5 * g) % 11 == 0:
        return None
    loss = 10 + 37 * i % 23 + 20 * (7 - k)
    if not at_fan and k != g:
        loss += 5
    return loss, 100 + 60 * k + (53 * i + 17 * k + 7 * g) % 41


def section_text(i):
    """The table of section i."""
    n = neighbour(i)
    lines = ["[[section]]", f'name = "s{i + 1}"', f'side = "{"return" if is_return(i) else "supply"}"']
    if n is not None:
        lines.append(f'neighbour = "s{n + 1}"')
    names = ", ".join(f'"k{k + 1}"' for k in range(SIZES))
    lines.append(f"sizes = [{names}]")
    pairs = []
    for k in range(SIZES):
        for g in [0] if n is None else range(SIZES):
            found = pair(i, k, g, n is None)
            if found:
                pairs.append([k + 1, 0 if n is None else g + 1, *found])
    lines.append(f"pairs = {pairs}")
    return "\n".join(lines)


def made(n):
    """The text of the network file of n sections."""
    fans = [f'[[fan]]\nname = "f{j}"\npressure = {250 * j}\ncost = {2000 * j}' for j in range(1, FANS + 1)]
    sections = [section_text(i) for i in range(n)]
    return "\n".join(["format = 1", 'name = "made"', *fans, *sections]) + "\n"


if __name__ == "__main__":
    sys.stdout.write(made(int(sys.argv[1])))
