"""The rules of docs/RULES.md from "Friction" to "Energy", in the units of the trade (kg/m3, m/s, Pa, kW), as fractions.

Nothing is rounded but where the rules say so by `math.ceil`; nothing here is the program's.
"""
import collections
import itertools
import math
from fractions import Fraction

Size = collections.namedtuple("Size", "list name area height metre join step")
Fan = collections.namedtuple("Fan", "name pressure low high price watts")
Section = collections.namedtuple("Section", "density flow neighbour_flow length local device table")


def between(points, x):
    """The value at x on the line through the points (x, y) on either side of it; the first and the last one beyond."""
    if x <= points[0][0]:
        return Fraction(points[0][1])
    for (x0, y0), (x1, y1) in itertools.pairwise(points):
        if x <= x1:
            return y0 + Fraction(x - x0, x1 - x0) * (y1 - y0)
    return Fraction(points[-1][1])


def friction(rates, flow, length):
    """dPa, exactly, from mPa/m and mm; None above the last row."""
    if flow > rates[-1][0]:
        return None
    return Fraction(length, 1_000) * between(rates, flow) / 100


def coefficient(table, area_ratio, flow_ratio):
    """Thousandths, exactly: along the flows at each area, and then along the areas."""
    areas, flows, values = table
    at_areas = [(a, between([(f, values[a, f]) for f in flows], flow_ratio)) for a in areas]
    return between(at_areas, area_ratio)


def fitting(section, size, thousandths):
    """What a coefficient loses at the velocity pressure of the section in the size, dPa, exactly."""
    velocity = Fraction(section.flow, 1_000) / Fraction(size.area, 1_000_000)       # m/s
    pressure = Fraction(section.density, 1_000) * velocity ** 2 / 2                 # Pa
    return Fraction(thousandths, 1_000) * pressure * 10


def junction(section, tables, size, beside):
    if section.table is None or beside is None:
        return Fraction(0)
    area_ratio = math.ceil(1_000 * Fraction(size.area, beside.area))
    flow_ratio = math.ceil(1_000 * Fraction(section.flow, section.neighbour_flow))
    return fitting(section, size, math.ceil(coefficient(tables[section.table], area_ratio, flow_ratio)))


def energy(fan, hours, tariff, worth):
    """Cents, exactly: kW by hours by cents per kWh by years."""
    return Fraction(fan.watts, 1_000) * hours * Fraction(tariff, 100) * Fraction(worth, 1_000)


def parts(section, rates, tables, size, beside):
    """What a section loses in the size beside its neighbour's, part by part, dPa, exactly; None without friction."""
    rubbed = friction(rates, section.flow, section.length)
    if rubbed is None:
        return None
    return [rubbed, fitting(section, size, section.local), junction(section, tables, size, beside), Fraction(section.device)]


def loss(lost):
    """The loss of the parts, each rounded by itself; a sum below 0 counts as 0."""
    return max(0, sum(map(math.ceil, lost)))


def price(size, length, beside):
    """Cents: a step is paid beside another size, None at the fan."""
    step = 0 if beside is None or beside.name == size.name else size.step
    return math.ceil(Fraction(length, 1_000) * size.metre) + size.join + step
