"""Costs and scores, which are counted in fractions and rounded only where they are printed."""
from __future__ import annotations

import functools
import re
from fractions import Fraction
from typing import Optional, Union

Number = Union[int, Fraction]

COST = re.compile(r"[0-9]{1,30}(\.[0-9]{1,30})?")


def read_cost(text: str) -> Optional[Fraction]:
    """The number that a text spells, as 12 or 0.25, or None."""
    return Fraction(text) if COST.fullmatch(text) else None


@functools.lru_cache(65536)
def cost_text(value: Optional[Number]) -> str:
    """A cost as a decimal number without zeros at its end, exactly, or - if there is none."""
    if value is None:
        return "-"
    digits = 0
    while value * 10 ** digits % 1:
        digits += 1
    return rounded(value, digits)


@functools.lru_cache(65536)
def rounded(value: Number, digits: int) -> str:
    """A number from 0 on with so many digits after its point; halves are rounded up."""
    units = (2 * value.numerator * 10 ** digits + value.denominator) // (2 * value.denominator)
    text = str(units).rjust(digits + 1, "0")
    return text[:-digits] + "." + text[-digits:] if digits else text


def satisficing(reference: Optional[Number], cost: Optional[Number]) -> Fraction:
    """The satisficing score of a plan: the reference cost over its own. 0/0 is 1, and a plan of unknown cost scores 0."""
    if cost is None or reference is None:
        return Fraction(0)
    if cost == 0:
        return Fraction(1)
    return Fraction(reference) / cost
