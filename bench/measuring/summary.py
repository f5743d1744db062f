# SPDX-License-Identifier: Apache-2.0
"""Medians, spreads and percentiles."""

from collections.abc import Sequence
from dataclasses import dataclass
from statistics import median


def percentile(values: Sequence[float], percent: int) -> float:
    """Returns a percentile by the nearest rank.

    It is the least value that at least that many percent of the values do not exceed.
    """
    rank = -(-percent * len(values) // 100)
    return sorted(values)[max(rank, 1) - 1]


@dataclass(frozen=True)
class Spread:
    """The median, the least and the greatest value of all rounds."""

    median: float
    least: float
    greatest: float

    def inverted(self, dividend: float) -> 'Spread':
        """Returns the spread of `dividend / value`."""
        return Spread(dividend / self.median, dividend / self.greatest, dividend / self.least)


def spread(values: Sequence[float]) -> Spread:
    """Summarizes the rounds."""
    return Spread(median(values), min(values), max(values))


def ratios(numerators: Sequence[float], denominators: Sequence[float]) -> Spread:
    """Summarizes the quotients of each round, which is not the quotient of two medians."""
    return spread([a / b for a, b in zip(numerators, denominators, strict=True)])
