"""The picture of a journal: a lane for each tenant, with a row of its clients and one of each grain."""

from __future__ import annotations

import bisect
from typing import Optional, Union

from slow_silo.journal import Journal
from slow_silo.names import Grain
from slow_silo.steps import Sweep, Tick, owner
from .parted import Parted
from .picture import Band, Bar, Mark, Picture
from .shapes import (BAD, BANDS, BAR, FILLS, GOOD, GREY, INK, INKS, LEGEND, box, escaped, legend_shape, line, shape,
                     with_title, words)

LABELS = 220
STEPS = 1_050
MOST_FOR_A_STEP = 22
MARGIN = 30
LEAST_WIDTH = 760
TOP = 46
PADDING = 9
CLIENTS = 34


class Drawing:
    """The picture of some tenants of a journal over some of its steps: its parts, from the back to the front."""

    def __init__(self, journal: Journal, tenants: list[str], steps: range, room: float = STEPS):
        self.journal = journal
        self.tenants = tenants
        self.steps = steps
        # the steps that are drawn, one beside the other
        owners = {None, *tenants}
        self.shown = [number for number, step in enumerate(journal.steps[steps.start - 1 : steps.stop - 1], steps.start)
                      if owner(step) in owners]
        self.count = len(self.shown)
        self.step = min(MOST_FOR_A_STEP, room / max(1, self.count))
        self.width = max(LEAST_WIDTH, LABELS + self.step * self.count + MARGIN)
        self.back: list[str] = []
        self.front: list[str] = []
        self.below = float(TOP)
        # the middle of each row of the lane, and how far above it the row begins
        self.rows: dict[Optional[Grain], float] = {}
        self.above: dict[Grain, float] = {}

    def x(self, step: int) -> float:
        """The middle of a step; what is before the steps that are drawn, or behind them, is at their edge."""
        place = bisect.bisect_right(self.shown, step) - 0.5
        return LABELS + self.step * (max(place, 0) if step < self.steps.stop else self.count)

    # ---- what a page of the picture does otherwise

    def label(self, drawn: str) -> None:
        """The name of a tenant or of a row."""
        self.front.append(drawn)

    def heading(self, drawn: str) -> None:
        """A step's number, or what is said of a step of nobody."""
        self.front.append(drawn)

    def titled(self, drawn: str, text: str, begin: int, end: int) -> str:
        """What is of a step, or of the turn that two steps open and close."""
        return with_title(drawn, text)

    # ---- a tenant's lane

    def lane(self, picture: Picture) -> None:
        self.name_of(picture)
        self.rows = {None: self.below + CLIENTS / 2}
        self.label(words(24, self.rows[None] + 4, "clients", fill=GREY))
        self.below += CLIENTS
        for grain in picture.shown_grains():
            self.grain_row(picture.bars.get(grain, []), picture.bands.get(grain, []), grain)
        for mark in picture.marks:
            self.bound(mark)
        for mark in picture.marks:
            self.mark(mark)
        self.below += 10

    def name_of(self, picture: Picture) -> None:
        self.back.append(box(0, self.below, self.width, 20, "#eef1f5"))
        limits = "not in the table" if picture.limits is None else \
            f"{picture.limits.activations} activations, mailboxes of {picture.limits.mailbox}"
        found = "" if picture.difference is None else f"; {picture.difference} differs"
        said = f'<tspan font-weight="bold">tenant {escaped(picture.tenant)}</tspan>  ' \
               f'<tspan fill="{GREY}">{limits}</tspan>'
        self.label(f'<text x="10" y="{self.below + 14:.1f}" font-size="12" fill="{INK}">{said}'
                   f'<tspan fill="{BAD}" font-weight="bold">{escaped(found)}</tspan></text>')
        self.below += 20

    def grain_row(self, bars: list[Bar], bands: list[Band], grain: Grain) -> None:
        lines = max([bar.place for bar in bars], default=0) + 1
        height = BAR * lines + 2 * PADDING
        name = grain.text()
        shown = name if len(name) <= 30 else name[:27] + "..."
        self.label(with_title(words(24, self.below + height / 2 + 4, shown), name))
        self.back.append(line(20, self.below, self.width, self.below, "#eeeeee"))
        for band in bands:
            wide = self.x(band.end) - self.x(band.begin)
            self.back.append(with_title(box(self.x(band.begin), self.below + 3, wide, height - 6, BANDS[band.phase]),
                                        f"{name} {band.phase}, steps {band.begin} to {band.end}"))
        for bar in bars:
            self.bar(bar, self.below + PADDING + BAR * bar.place)
        self.rows[grain], self.above[grain] = self.below + height / 2, height / 2
        self.below += height

    def bar(self, bar: Bar, y: float) -> None:
        wide = self.x(bar.end) - self.x(bar.begin)
        drawn = box(self.x(bar.begin), y + 1, max(wide, 1.5), BAR - 2, FILLS[bar.kind], ' rx="2"')
        if len(bar.method) * 5.2 + 5 <= wide:
            drawn += words(self.x(bar.begin) + wide / 2, y + 9.5, bar.method, 9, INKS[bar.kind], ' text-anchor="middle"')
        self.front.append(self.titled(drawn, bar.text, bar.begin, bar.end))

    def y(self, mark: Mark) -> float:
        """What comes to a grain stands at the upper edge of its row, and what comes to its stored row at the lower."""
        if mark.shape in ("call", "deliver"):
            return self.rows[mark.grain] - self.above[mark.grain] + 6
        return self.rows[mark.grain] + (self.above[mark.grain] - 5 if mark.shape == "poke" else 0)

    def bound(self, mark: Mark) -> None:
        """The thin line between a mark's two rows."""
        if mark.shape == "call" or mark.bound is not None:
            other = mark.bound if mark.grain != mark.bound else None
            stroke = GOOD if mark.shape == "reply" else BAD if mark.shape == "refusal" else GREY
            self.back.append(line(self.x(mark.step), self.y(mark), self.x(mark.step), self.rows[other], stroke,
                                  ' stroke-width="0.8" opacity="0.6"'))

    def mark(self, mark: Mark) -> None:
        x, y = self.x(mark.step), self.y(mark)
        drawn = shape(mark.shape, x, y)
        if mark.shape == "call" and mark.bound is None:
            drawn += shape("asked", x, self.rows[None])
        if mark.code is not None:
            drawn += words(x, y - 7, str(mark.code), 9, BAD, ' text-anchor="middle"')
        self.front.append(self.titled(drawn, mark.text, mark.step, mark.step))

    # ---- what is around the lanes

    def axis(self) -> None:
        """The numbers of steps, and the ticks and sweeps, which are every tenant's."""
        every = next(every for every in (5, 10, 20, 50, 100, 10 ** 9) if every * self.step >= 40 or every == 10 ** 9)
        grid = []
        # no step is left out between two that are drawn
        in_a_row = self.count > 0 and self.shown[-1] == self.shown[0] + self.count - 1
        for place, number in enumerate(self.shown, 1):
            if place > 1 and (number if in_a_row else place) % every != 0:
                continue
            self.heading(words(self.x(number), TOP - 8, str(number), 10, GREY, ' text-anchor="middle"'))
            grid.append(line(self.x(number), TOP, self.x(number), self.below, "#f0f0f0"))
        for number in self.shown:
            step = self.journal.steps[number - 1]
            if isinstance(step, (Tick, Sweep)):
                grid.append(self.of_everybody(number, step))
        self.label(words(10, TOP - 8, "step", 10, GREY))
        self.back[:0] = grid

    def of_everybody(self, number: int, step: Union[Tick, Sweep]) -> str:
        """The words of a tick or a sweep, and the line below them."""
        said = f"clock {step.now}" if isinstance(step, Tick) else "sweep"
        dashes = ' stroke-dasharray="5 3"' if isinstance(step, Tick) else ' stroke-dasharray="1 3"'
        high = TOP - 34 if isinstance(step, Tick) else TOP - 22
        drawn = words(self.x(number), high, said, 10, "#8a6200", ' text-anchor="middle"')
        self.heading(self.titled(drawn, f"step {number}: {said}", number, number))
        return line(self.x(number), high + 3, self.x(number), self.below, "#b07d00", dashes)

    def legend(self) -> None:
        x, y = 14.0, self.below + 16
        for kind, said in LEGEND:
            needed = 26 + 6.0 * len(said) + 16
            if x + needed > self.width:
                x, y = 14.0, y + 20
            self.front.append(legend_shape(kind, x, y))
            self.front.append(words(x + 24, y + 5, said))
            x += needed
        self.below = y + 20

    def draw(self) -> None:
        parted = Parted(self.journal)
        for tenant in self.tenants:
            self.lane(Picture(parted, tenant, self.steps))
        self.axis()
        self.legend()

    def parts(self) -> list[str]:
        """What is drawn, from the back to the front."""
        return [box(0, 0, self.width, self.below, "#ffffff"), *self.back, *self.front]

    def text(self) -> str:
        self.draw()
        size = f'width="{self.width:.0f}" height="{self.below:.0f}" viewBox="0 0 {self.width:.0f} {self.below:.0f}"'
        head = f'<svg xmlns="http://www.w3.org/2000/svg" {size} font-family="Helvetica, Arial, sans-serif">'
        return "\n".join([head, *self.parts(), "</svg>", ""])
