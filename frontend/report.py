"""The report as text (`--report`)."""

from __future__ import annotations

from frontend.summary import Share

TYPE_CHECKING = False
if TYPE_CHECKING:
    from collections.abc import Iterator, Sequence

    from frontend.summary import Summary

WIDE = 110  # columns, where lists of numbers are wrapped


def printable(text: str) -> str:
    """A text without what would disturb a line, a terminal or a page."""
    return text if text.isprintable() else "".join(char if char.isprintable() else "?" for char in text)


def plural(number: int, noun: str) -> str:
    return f"{number:,} {noun}" if number == 1 else f"{number:,} {noun}s"


def steps(vectors: int) -> list[int]:
    """The numbers of vectors at which the growth is told: 1, 2, 5, 10, 20, 50 and so on, and the whole list."""
    found = []
    scale = 1
    while scale < vectors:
        found += [step for step in (scale, 2 * scale, 5 * scale) if step < vectors]
        scale *= 10
    return found + [vectors] if vectors else []


def ranges(numbers: Sequence[int]) -> list[str]:
    """Rising numbers, with runs drawn together: 3, 7-12, 40."""
    runs: list[list[int]] = []
    for number in numbers:
        if runs and runs[-1][1] == number - 1:
            runs[-1][1] = number
        else:
            runs.append([number, number])
    return [str(low) if low == high else f"{low}-{high}" for low, high in runs]


def wrapped(label: str, items: Sequence[str]) -> Iterator[str]:
    """A list behind a label, on as many lines as it needs."""
    line = f"  {label}:"
    for at, item in enumerate(items or ["none"]):
        item += "," if at + 1 < len(items) else ""
        if len(line) + 1 + len(item) > WIDE:
            yield line
            line = "   "
        line += " " + item
    yield line


def counts(summary: Summary) -> str:
    """The design's numbers on one line."""
    grading, labels = summary.grading, summary.labels
    return (
        f"{plural(grading.inputs, 'input')}, {plural(grading.graphs, labels.outer)} ({grading.observable:,} observable), "
        f"{plural(grading.nodes, labels.inner)}, {plural(grading.faults, 'fault')}"
    )


def vectors_line(summary: Summary) -> str:
    return plural(summary.grading.vectors, "vector") + (f": {summary.source}" if summary.source else "")


def shares(summary: Summary) -> list[tuple[Share, str]]:
    """The coverage, counted in three ways, and which they are."""
    labels = summary.labels
    return [
        (summary.collapsed, "equivalent faults counted once"),
        (summary.uncollapsed, f"a {labels.outer} and its only {labels.reader} counted once"),
        (summary.each, "every fault for itself"),
    ]


def what_is_equivalent(summary: Summary) -> str:
    if summary.design.is_gates:
        return (
            "Equivalent are the faults of a line that is not observable and of its only lead, and in a gate those of a lead stuck at the value "
            "that decides it (0 of AND and NAND, 1 of OR and NOR, both of a single lead) and of the gate's line stuck at the value that it then "
            "has. No vector tells them apart."
        )
    return (
        "Equivalent are the faults of a graph that is not observable and of the only node that reads it, and those of a node stuck at an exit "
        "with which its graph is constant and of the graph held at that constant. No vector tells them apart."
    )


def what_is_inside(summary: Summary) -> str:
    """Which faults stay out of the coverage; nothing where all are in."""
    if not summary.inside:
        return ""
    return (
        f"These are the netlist's own faults, {len(summary.own):,} of {summary.grading.faults:,}: the other {summary.inside:,} are inside of what "
        "stands for a gate or a constant that a gate list does not have, such as an XOR, and stay out."
    )


def folded(text: str) -> Iterator[str]:
    """A sentence on lines of text."""
    line = " "
    for word in text.split():
        if len(line) + 1 + len(word) > WIDE:
            yield line
            line = " "
        line += " " + word
    if text:
        yield line


def coverage_lines(summary: Summary) -> Iterator[str]:
    yield "Coverage"
    wide = max(len(share.counts) for share, _ in shares(summary))
    for share, how in shares(summary):
        yield f"  {share.percent:>8}  {share.counts:>{wide}}  {how}"
    grade = Share(summary.grading.marked, summary.grading.total)
    yield from folded(what_is_equivalent(summary))
    yield from folded(what_is_inside(summary))
    yield f"  The grade of the whole card, as the last line without --report has it: {grade.counts}."


def uncaught_lines(summary: Summary) -> Iterator[str]:
    if not summary.uncaught:
        yield "Uncaught faults: none"
        return
    yield f"Uncaught faults: {len(summary.uncaught):,} of {len(summary.groups):,}, equivalent ones under the one that stands for them"
    for group in summary.uncaught:
        unseen = "; nothing observable depends on it" if group[0] in summary.unseen else ""
        yield f"  {summary.labels.fault(group[0])}{unseen}"
        for fault in group[1:]:
            yield f"    as {summary.labels.fault(fault)}"


def growth_rows(summary: Summary) -> list[tuple[str, str, str]]:
    """How many of the faults are caught after so many vectors, and what share that is."""
    rows = []
    for step in steps(summary.grading.vectors):
        share = Share(summary.caught_after(step), len(summary.groups))
        rows.append((f"{step:,}", f"{share.caught:,}", share.percent))
    return rows


def growth_lines(summary: Summary) -> Iterator[str]:
    yield "Growth of the coverage, equivalent faults counted once"
    yield f"  {'vectors':>10}  {'caught':>10}  {'coverage':>8}"
    for vectors, caught, percent in growth_rows(summary):
        yield f"  {vectors:>10}  {caught:>10}  {percent:>8}"
    if not summary.grading.vectors:
        yield "  no vectors"


def needed_lines(summary: Summary) -> Iterator[str]:
    """Which vectors the list needs, and which it can spare."""
    vectors, firsts, essential = summary.grading.vectors, len(summary.firsts), len(summary.essential)
    yield "Vectors, numbered from 0"
    yield f"  {firsts:,} of {vectors:,} are the first to catch some fault: these alone catch all that the list catches."
    yield f"  {essential:,} of {vectors:,} cannot be left out: each catches a fault that no other vector of the list catches."
    yield from wrapped("first to catch one", ranges(summary.firsts))
    yield from wrapped("cannot be left out", ranges(summary.essential))
    yield from wrapped("nobody's first", ranges(summary.idle))


def pairs(summary: Summary) -> list[tuple[str, str, bool]]:
    """The sites whose faults do not count, the only reader of each, and whether it reads inverted."""
    paired, labels = summary.grading.paired, summary.labels
    rows = []
    for fault in range(0, len(paired), 2):
        other = paired[fault]
        if other is not None:
            rows.append((labels.site(fault), labels.site(other), other % 2 == 1))
    return rows


def what_is_paired(summary: Summary) -> str:
    outer, inner = summary.labels.outer, summary.labels.inner
    crossed = "" if summary.design.is_gates else " (crossed, where the read is inverted: 0 with 1 and 1 with 0)"
    return (
        f"Each of these {outer}s is not observable, and the {inner} beside it alone reads it. The {outer}'s faults are caught by the same vectors "
        f"as the {inner}'s, 0 with 0 and 1 with 1{crossed}; the {inner}'s count in the grade, and the {outer}'s not again."
    )


def pair_lines(summary: Summary) -> Iterator[str]:
    rows = pairs(summary)
    yield f"Faults that do not count in the grade: {2 * len(rows):,}" if rows else "Faults that do not count in the grade: none"
    if rows:
        yield from folded(what_is_paired(summary))
    wide = min(max((len(site) for site, _, _ in rows), default=0), 40)
    for site, reader, crossed in rows:
        yield f"  {site:<{wide}}  with {reader}{', crossed' if crossed else ''}"


def note_lines(summary: Summary) -> Iterator[str]:
    yield "Notes"
    for note in summary.design.notes:
        yield f"  {note}"


def report_text(summary: Summary) -> str:
    """The whole report."""
    lines = [summary.design.file, counts(summary), vectors_line(summary)]
    parts = [coverage_lines, uncaught_lines, growth_lines, needed_lines, pair_lines]
    if summary.design.notes:
        parts.append(note_lines)
    for part in parts:
        lines.append("")
        lines.extend(part(summary))
    return "".join(printable(line) + "\n" for line in lines)
