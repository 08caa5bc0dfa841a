"""The report as a page (`--html`): one file that needs no other and no network."""

from __future__ import annotations

from html import escape

from frontend.chart import chart
from frontend.report import (
    counts, growth_rows, pairs, printable, ranges, shares, vectors_line, what_is_equivalent, what_is_inside, what_is_paired)
from frontend.summary import Share

TYPE_CHECKING = False
if TYPE_CHECKING:
    from collections.abc import Iterable, Iterator, Sequence

    from frontend.summary import Summary

STYLE = """
:root { color-scheme: light dark; --ink: #1b1f24; --soft: #5b6570; --paper: #ffffff; --panel: #f4f6f8; --rule: #d5dae0; --accent: #0b62c4;
  --area: #0b62c41f; --bad: #a8301c; }
@media (prefers-color-scheme: dark) { :root { --ink: #e6e9ed; --soft: #a0a9b4; --paper: #14171b; --panel: #1e2329; --rule: #363d46;
  --accent: #6fb3ff; --area: #6fb3ff2b; --bad: #ff9a85; } }
* { box-sizing: border-box; }
body { margin: 0 auto; padding: 2rem 1.25rem 4rem; max-width: 62rem; background: var(--paper); color: var(--ink);
  font: 16px/1.5 system-ui, -apple-system, "Segoe UI", "DejaVu Sans", sans-serif; }
h1 { margin: 0; font-size: 1.6rem; line-height: 1.25; overflow-wrap: anywhere; }
h2 { margin: 2.25rem 0 .5rem; font-size: 1.15rem; }
p { margin: .4rem 0; }
.soft { color: var(--soft); }
.shares { display: grid; grid-template-columns: repeat(auto-fit, minmax(13rem, 1fr)); gap: .75rem; margin: 1.5rem 0 .75rem; }
.share { padding: .8rem 1rem; background: var(--panel); border: 1px solid var(--rule); border-radius: .5rem; }
.share b { display: block; font-size: 1.7rem; line-height: 1.3; font-variant-numeric: tabular-nums; }
.share:first-child b { color: var(--accent); }
.bar { height: .35rem; margin: .35rem 0 .5rem; background: var(--rule); border-radius: .2rem; overflow: hidden; }
.bar i { display: block; height: 100%; background: var(--accent); }
svg { display: block; width: 100%; min-width: 32rem; height: auto; margin: .5rem 0; }
svg text { fill: var(--soft); font-size: 12px; }
svg .end { fill: var(--accent); font-weight: 600; font-size: 14px; paint-order: stroke; stroke: var(--paper); stroke-width: 5px; }
svg .grid, svg .tick { stroke: var(--rule); }
svg .curve { fill: none; stroke: var(--accent); stroke-width: 2; stroke-linejoin: round; }
svg .area { fill: var(--area); }
.scroll { overflow-x: auto; }
table { border-collapse: collapse; min-width: 50%; font-size: .92rem; }
th, td { padding: .3rem .9rem .3rem 0; border-bottom: 1px solid var(--rule); text-align: left; vertical-align: top; }
th { color: var(--soft); font-weight: 600; white-space: nowrap; }
td { overflow-wrap: anywhere; }
.number { text-align: right; font-variant-numeric: tabular-nums; white-space: nowrap; }
.bad { color: var(--bad); }
@media print {
  :root { color-scheme: light; --ink: #000; --soft: #444; --paper: #fff; --panel: #fff; --rule: #bbb; --accent: #0b4a94; --area: #0b4a9418;
    --bad: #8a1f0d; }
  body { max-width: none; padding: 0; font-size: 10pt; }
  .shares { grid-template-columns: repeat(3, 1fr); }
  h2 { break-after: avoid; }
  tr, svg, .share { break-inside: avoid; }
  thead { display: table-header-group; }
  .bar { print-color-adjust: exact; -webkit-print-color-adjust: exact; }
}
"""


def safe(text: str) -> str:
    """A name as it may stand in a page."""
    return escape(printable(text))


def table(heads: Sequence[str], rows: Iterable[Sequence[str]], numbers: int) -> Iterator[str]:
    """A table of texts that are safe already; the first so many columns are numbers."""
    def cells(tag: str, row: Sequence[str]) -> str:
        classes = [' class="number"' if at < numbers else "" for at in range(len(row))]
        return "".join(f"<{tag}{name}>{cell}</{tag}>" for name, cell in zip(classes, row))

    yield f'<div class="scroll"><table><thead><tr>{cells("th", heads)}</tr></thead><tbody>'
    for row in rows:
        yield f"<tr>{cells('td', row)}</tr>"
    yield "</tbody></table></div>"


def paragraph(text: str) -> str:
    return f'<p class="soft">{safe(text)}</p>' if text else ""


def head(summary: Summary) -> Iterator[str]:
    """No script and nothing from elsewhere may be loaded: the page says so to the browser."""
    yield "<!DOCTYPE html>"
    yield '<html lang="en"><head><meta charset="utf-8">'
    yield """<meta http-equiv="Content-Security-Policy" content="default-src 'none'; style-src 'unsafe-inline'">"""
    yield '<meta name="viewport" content="width=device-width, initial-scale=1">'
    yield f"<title>{safe(summary.design.file)}: fault coverage {summary.collapsed.percent}</title><style>{STYLE}</style></head><body>"
    yield f"<h1>{safe(summary.design.file)}</h1>"
    yield paragraph(counts(summary))
    yield paragraph(vectors_line(summary))


def coverage(summary: Summary) -> Iterator[str]:
    yield '<div class="shares">'
    for share, how in shares(summary):
        yield (
            f'<div class="share"><b>{share.percent}</b><div class="bar"><i style="width:{share.hundredths / 100}%"></i></div>'
            f"{share.counts} caught<br><span class=\"soft\">{safe(how)}</span></div>"
        )
    yield "</div>"
    grade = Share(summary.grading.marked, summary.grading.total)
    yield paragraph(what_is_equivalent(summary))
    yield paragraph(what_is_inside(summary))
    yield paragraph(f"The grade of the whole card, as the text of a grading has it in its last line: {grade.counts}.")


def growth(summary: Summary) -> Iterator[str]:
    yield "<h2>Growth of the coverage</h2>"
    if not summary.grading.vectors:
        yield paragraph("There are no vectors.")
        return
    yield paragraph("How many of the faults the first vectors of the list catch, equivalent ones counted once.")
    yield f'<div class="scroll">{chart(summary)}</div>'
    yield from table(["Vectors", "Caught", "Coverage"], growth_rows(summary), 3)


def uncaught_row(summary: Summary, group: list[int]) -> list[str]:
    names = [safe(summary.labels.fault(fault)) for fault in group]
    if group[0] in summary.unseen:
        names[0] += '; <span class="bad">nothing observable depends on it</span>'
    return [str(group[0]), names[0], "<br>".join(names[1:])]


def uncaught(summary: Summary) -> Iterator[str]:
    yield f"<h2>Uncaught faults: {len(summary.uncaught):,} of {len(summary.groups):,}</h2>"
    if summary.uncaught:
        rows = [uncaught_row(summary, group) for group in summary.uncaught]
        columns = 3 if any(row[2] for row in rows) else 2
        yield from table(["Fault", "Name", "Equivalent to it"][:columns], [row[:columns] for row in rows], 1)
    else:
        yield paragraph("All faults are caught.")


def needed(summary: Summary) -> Iterator[str]:
    vectors = summary.grading.vectors
    rows = [
        (f"{len(numbers):,} of {vectors:,}", what, ", ".join(ranges(numbers)) or "none")
        for numbers, what in (
            (summary.firsts, "the first to catch some fault: these alone catch all that the list catches"),
            (summary.essential, "cannot be left out: each catches a fault that no other vector of the list catches"),
            (summary.idle, "nobody's first"),
        )
    ]
    yield "<h2>Vectors</h2>"
    yield from table(["Vectors", "Which", "Numbered from 0"], [(count, safe(what), which) for count, what, which in rows], 1)


def uncounted(summary: Summary) -> Iterator[str]:
    rows = pairs(summary)
    yield f"<h2>Faults that do not count in the grade: {2 * len(rows):,}</h2>"
    if rows:
        heads = [summary.labels.outer.capitalize(), f"Its only {summary.labels.reader}", ""]
        yield paragraph(what_is_paired(summary))
        yield from table(heads, [(safe(site), safe(reader), "crossed" if crossed else "") for site, reader, crossed in rows], 0)


def notes(summary: Summary) -> Iterator[str]:
    if summary.design.notes:
        yield "<h2>Notes</h2>"
        yield "<ul>" + "".join(f"<li>{safe(note)}</li>" for note in summary.design.notes) + "</ul>"


def page_text(summary: Summary) -> str:
    """The whole page."""
    lines: list[str] = []
    for part in (head, coverage, growth, uncaught, needed, uncounted, notes):
        lines.extend(line for line in part(summary) if line)
    return "\n".join(lines + ["</body></html>"]) + "\n"
