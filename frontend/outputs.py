"""What a graded design is written as, and where: the text, the tables and the page."""

from __future__ import annotations

from frontend import files
from frontend.errors import Failed

TYPE_CHECKING = False
if TYPE_CHECKING:
    from collections.abc import Mapping

    from frontend.summary import Summary

OPTIONS = ("--report", "--csv", "--json", "--html")


def check_outputs(wanted: Mapping[str, str]) -> None:
    """Standard output takes one text, and a file too. It is told before anything is graded."""
    for option, path in wanted.items():
        same = [each for each in wanted if wanted[each] == path]
        if len(same) > 1:
            raise Failed(f"{' and '.join(same)}: {'standard output' if path == '-' else path} takes one of them")


def text_of(option: str, summary: Summary) -> str:
    """What an option asks for. Each is imported where it is wanted, since a grading without them has to be quick."""
    if option == "--report":
        from frontend.report import report_text
        return report_text(summary)
    if option == "--csv":
        from frontend.tables import csv_text
        return csv_text(summary)
    if option == "--json":
        from frontend.tables import json_text
        return json_text(summary)
    from frontend.page import page_text
    return page_text(summary)


def encoded(text: str) -> bytes:
    """UTF-8. A name from bytes that are none comes out as it was."""
    try:
        return text.encode("utf-8", "surrogateescape")
    except UnicodeEncodeError:
        return text.encode("utf-8", "backslashreplace")


def write_outputs(summary: Summary, wanted: Mapping[str, str]) -> None:
    """Writes what is wanted: by option the file, or `-` for standard output, which comes last, so that a file that fails leaves it empty."""
    check_outputs(wanted)
    for option in sorted(wanted, key=lambda each: (wanted[each] == "-", OPTIONS.index(each))):
        files.write_file(wanted[option], encoded(text_of(option, summary)))
