"""The tables for other programs: `--csv`, a row a fault, and `--json`. docs/REPORTS.md has their columns and keys, which stay as they are."""

from __future__ import annotations

TYPE_CHECKING = False
if TYPE_CHECKING:
    from typing import Any, Optional

    from frontend.summary import Share, Summary

VERSION = 1
COLUMNS = ["fault", "name", "site", "number", "stuck", "counts", "paired", "own", "equivalent", "first", "tally"]


def equivalent(summary: Summary, fault: int) -> Optional[int]:
    """The own fault that stands for this one, where it is another."""
    stands = summary.stands[fault]
    return None if stands == fault else stands


def fault_row(summary: Summary, fault: int, own: set[int]) -> dict[str, Any]:
    """What is told of a fault, by the columns' names."""
    grading, labels = summary.grading, summary.labels
    site, number = labels.place(fault)
    return {
        "fault": fault,
        "name": labels.name(fault),
        "site": site,
        "number": number,
        "stuck": fault % 2,
        "counts": grading.counts_in_grade[fault],
        "paired": grading.paired[fault],
        "own": fault in own,
        "equivalent": equivalent(summary, fault),
        "first": grading.marks[fault],
        "tally": grading.tallies[fault],
    }


def fault_rows(summary: Summary) -> list[dict[str, Any]]:
    own = set(summary.own)
    return [fault_row(summary, fault, own) for fault in range(summary.grading.faults)]


def plain(value: Any) -> Any:
    """A value as a table has it: 1 and 0 for yes and no, nothing where there is none."""
    return "" if value is None else int(value) if isinstance(value, bool) else value


def csv_text(summary: Summary) -> str:
    """A line of column names, and a row for each fault of the card."""
    import csv
    import io

    text = io.StringIO()
    table = csv.writer(text, lineterminator="\n")
    table.writerow(COLUMNS)
    for row in fault_rows(summary):
        table.writerow([plain(row[column]) for column in COLUMNS])
    return text.getvalue()


def share_keys(share: Share) -> dict[str, Any]:
    return {"caught": share.caught, "total": share.total, "percent": share.hundredths / 100 if share.total else None}


def design_keys(summary: Summary) -> dict[str, Any]:
    design, grading = summary.design, summary.grading
    return {
        "file": design.file,
        "form": "gates" if design.is_gates else "card",
        "inputs": list(design.inputs),
        "outputs": [{"name": name, "line": line} for name, line in design.outputs],
        "graphs": grading.graphs,
        "nodes": grading.nodes,
        "observable": grading.observable,
        "faults": grading.faults,
        "notes": list(design.notes),
    }


def json_keys(summary: Summary) -> dict[str, Any]:
    """The whole object. A new key may come; the meaning of one that is there alters only with `version`."""
    rows = fault_rows(summary)
    for row in rows:
        fault = row["fault"]
        entry = summary.labels.entry(fault)
        row.update(title=summary.labels.fault(fault), source_line=entry.line or None, inside=entry.inside, unseen=fault in summary.unseen)
    return {
        "version": VERSION,
        "design": design_keys(summary),
        "vectors": {
            "source": summary.source,
            "count": summary.grading.vectors,
            "firsts": summary.firsts,
            "essential": summary.essential,
        },
        "grade": {"marked": summary.grading.marked, "total": summary.grading.total},
        "coverage": {
            "collapsed": share_keys(summary.collapsed),
            "uncollapsed": share_keys(summary.uncollapsed),
            "each": share_keys(summary.each),
        },
        "growth": [{"vectors": vectors, "caught": caught} for vectors, caught in summary.growth],
        "uncaught": summary.uncaught,
        "faults": rows,
    }


def json_text(summary: Summary) -> str:
    """One object: a key a line, and of the long lists an item a line."""
    import json

    def one_line(value: Any) -> str:
        return json.dumps(value, ensure_ascii=True, allow_nan=False)

    lines = []
    for key, value in json_keys(summary).items():
        text = one_line(value)
        if isinstance(value, list) and value:
            text = "[\n  " + ",\n  ".join(one_line(item) for item in value) + "\n ]"
        lines.append(f" {one_line(key)}: {text}")
    return "{\n" + ",\n".join(lines) + "\n}\n"
