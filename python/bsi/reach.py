"""From where to where the decimals of a column go, and with how many places 63 bits hold them."""

from __future__ import annotations

from decimal import Decimal
from fractions import Fraction
from typing import NamedTuple, Optional, Tuple

from .choosing import SPAN
from .fields import Fields
from .kinds import Decimals, Kind, Whole
from .spelling import Options, decimal_in

MOST_PLACES, HALF = 18, Fraction(1, 2)


class Reach(NamedTuple):
    """The least and the greatest of some decimals, and how many places they need at most."""

    low: Fraction
    high: Fraction
    places: int

    def joined(self, other: Optional["Reach"]) -> "Reach":
        """Returns the reach of these decimals and of others."""
        if other is None:
            return self
        return Reach(min(self.low, other.low), max(self.high, other.high), max(self.places, other.places))

    def fits(self) -> bool:
        """Returns whether a column can hold them."""
        return self._size() * 10**self.places < SPAN

    def most_places(self) -> Optional[int]:
        """Returns with how many places, at most, a column can hold them when they are rounded, or None if it can't."""
        # (rounding may move both ends, by half a unit)
        return next((places for places in range(MOST_PLACES, -1, -1) if self._size() * 10**places < SPAN - 1), None)

    def _size(self) -> Fraction:
        """Returns how far they lie from 0 or from each other."""
        return max(self.high, -self.low, self.high - self.low)


def reach_of(kind: Optional[Kind], ends: Optional[Tuple[int, int]], are_rounded: bool = False) -> Optional[Reach]:
    """Returns the reach of numbers of a kind, of which these are the least and the greatest, or None where they are no
    decimals and no whole numbers. They may have been rounded to whole ones."""
    if ends is None or not isinstance(kind, (Whole, Decimals)):
        return None
    places = getattr(kind, "places", 0)
    low, high = (Fraction(end, 10**places) for end in ends)
    return Reach(low - HALF, high + HALF, places) if are_rounded else Reach(low, high, places)


def reach_at(number: Decimal, most: int = MOST_PLACES) -> Reach:
    """Returns the reach of one number, which is rounded to so many places at most."""
    exact = Fraction(number)
    return Reach(exact, exact, min(most, max(0, -number.as_tuple().exponent)))  # type: ignore[operator]


def first_past(reach: Optional[Reach], fields: Fields, options: Options) -> Tuple[int, str, int]:
    """Returns the row, the text and the places of the first of the fields that a column can't hold beside those before
    it, which have a reach, or of the last field."""
    most, found = MOST_PLACES if options.round is None else options.round, (0, "", 0)
    for row, text in enumerate(fields.stripped().texts()):
        if text in options.nulls:
            continue
        reach = reach_at(decimal_in(text, options), most).joined(reach)
        found = row, text, reach.places
        if not reach.fits():
            break
    return found
