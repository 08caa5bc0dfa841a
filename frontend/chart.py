"""The growth of the coverage as a chart: SVG that stands in the page itself."""

from __future__ import annotations

from math import log

from frontend.report import plural

TYPE_CHECKING = False
if TYPE_CHECKING:
    from collections.abc import Callable, Iterator

    from frontend.summary import Summary

WIDE, HIGH = 720, 300
LEFT, RIGHT, TOP, BOTTOM = 52, 700, 18, 252
MOST_LINEAR = 100  # a longer list grows too steeply at its start for an even scale
NEAR = 64  # the last figure of the axis is no closer to another


def scale(vectors: int) -> Callable[[float], float]:
    """Where so many vectors stand from left to right."""
    wide = RIGHT - LEFT
    if vectors <= MOST_LINEAR:
        return lambda at: LEFT + wide * at / max(vectors, 1)
    return lambda at: LEFT + wide * log(1 + at) / log(1 + vectors)


def height(caught: int, total: int) -> float:
    return BOTTOM - (BOTTOM - TOP) * caught / max(total, 1)


def ticks(vectors: int) -> list[int]:
    """The numbers of vectors that the axis has, the last one always."""
    if vectors > MOST_LINEAR:
        found = [0]
        while 10 ** (len(found) - 1) < vectors:
            found.append(10 ** (len(found) - 1))
    else:
        step = next(step for step in (1, 2, 5, 10, 20) if vectors <= 10 * step)
        found = list(range(0, vectors, step))
    place = scale(vectors)
    return [tick for tick in found if place(vectors) - place(tick) > NEAR] + [vectors]


def curve(summary: Summary) -> str:
    """The steps as a path: level up to the vector that catches more, then up. Steps at one place of the picture are one."""
    place, total = scale(summary.grading.vectors), len(summary.groups)
    path = [f"M{LEFT} {BOTTOM}"]
    last = ""
    for vectors, caught in summary.growth:
        across, up = f"H{place(vectors):.1f}", f"V{height(caught, total):.1f}"
        if across == last:
            path[-1] = up
        else:
            path += [across, up]
        last = across
    return " ".join(path + [f"H{RIGHT}"])


def grid(summary: Summary) -> Iterator[str]:
    """The axes with their figures."""
    for percent in (0, 25, 50, 75, 100):
        at = height(percent, 100)
        yield f'<line class="grid" x1="{LEFT}" y1="{at:.1f}" x2="{RIGHT}" y2="{at:.1f}"/>'
        yield f'<text x="{LEFT - 8}" y="{at + 4:.1f}" text-anchor="end">{percent} %</text>'
    place = scale(summary.grading.vectors)
    for tick in ticks(summary.grading.vectors):
        at, anchor = place(tick), "middle"
        yield f'<line class="tick" x1="{at:.1f}" y1="{BOTTOM}" x2="{at:.1f}" y2="{BOTTOM + 5}"/>'
        if tick == summary.grading.vectors:
            at, anchor = RIGHT + 14, "end"  # a large figure stays in the picture
        yield f'<text x="{at:.1f}" y="{BOTTOM + 20}" text-anchor="{anchor}">{tick:,}</text>'
    how = ", logarithmic scale" if summary.grading.vectors > MOST_LINEAR else ""
    yield f'<text x="{(LEFT + RIGHT) // 2}" y="{HIGH - 6}" text-anchor="middle">vectors{how}</text>'


def chart(summary: Summary) -> str:
    """The picture, with what it shows in words for who cannot see it."""
    share = summary.collapsed
    top = height(share.caught, share.total)
    path = curve(summary)
    said = f"{share.percent} after {plural(summary.grading.vectors, 'vector')}"
    rows = [
        f'<svg viewBox="0 0 {WIDE} {HIGH}" role="img" aria-label="Growth of the coverage: {said}">',
        *grid(summary),
        f'<path class="area" d="{path} V{BOTTOM} Z"/>',
        f'<path class="curve" d="{path}"/>',
        f'<text class="end" x="{RIGHT - 6}" y="{top - 7 if top > TOP + 20 else top + 24:.1f}" text-anchor="end">{share.percent}</text>',
        "</svg>",
    ]
    return "\n".join(rows)
