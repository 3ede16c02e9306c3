"""Figures in Prometheus' text form."""

from __future__ import annotations

import bisect
from typing import Iterable, List, Mapping, Tuple

# upper ends of the histogram's buckets, in seconds
ENDS = (0.0005, 0.001, 0.002, 0.005, 0.01, 0.02, 0.05, 0.1, 0.2, 0.5, 1.0, 2.0, 5.0)
Labels = Mapping[str, str]


class Histogram:
    """How long requests took, from when they were read until their answer was handed on."""

    __slots__ = ("counts", "total")

    def __init__(self) -> None:
        self.counts = [0] * (len(ENDS) + 1)
        self.total = 0.0

    def note(self, seconds: float, count: int = 1) -> None:
        """So many took so long each."""
        self.counts[bisect.bisect_left(ENDS, seconds)] += count
        self.total += seconds * count


def labelled(name: str, labels: Labels) -> str:
    """A sample's name. No label holds a quote or a backslash: all are tenants, codes and names of files."""
    return name + "{" + ",".join(f'{key}="{value}"' for key, value in labels.items()) + "}" if labels else name


class Page:
    """A page of figures: families in the order in which they are written."""

    def __init__(self) -> None:
        self._lines: List[str] = []

    def family(self, name: str, kind: str, what: str, samples: Iterable[Tuple[Labels, float]]) -> None:
        self._lines += [f"# HELP {name} {what}", f"# TYPE {name} {kind}"]
        self._lines += [f"{labelled(name, labels)} {value:.10g}" for labels, value in samples]

    def histogram(self, name: str, what: str, samples: Iterable[Tuple[Labels, Histogram]]) -> None:
        self._lines += [f"# HELP {name} {what}", f"# TYPE {name} histogram"]
        for labels, histogram in samples:
            count = 0
            for end, found in zip([*map(str, ENDS), "+Inf"], histogram.counts):
                count += found
                self._lines.append(f"{labelled(name + '_bucket', {**labels, 'le': end})} {count}")
            self._lines.append(f"{labelled(name + '_sum', labels)} {histogram.total:.6f}")
            self._lines.append(f"{labelled(name + '_count', labels)} {count}")

    def text(self) -> str:
        return "\n".join(self._lines) + "\n"
