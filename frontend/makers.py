"""What makers ask for: netlists, names, vectors apart from the card, and reports of a grading.

The modules of netlists and of reports are imported where they are needed, since a grading without them has to be quick.
"""

from __future__ import annotations

from frontend import files
from frontend.answers import MOST_VECTORS, grade, print_card
from frontend.engine import library, position, refusal
from frontend.errors import Failed, Refused

TYPE_CHECKING = False
if TYPE_CHECKING:
    from typing import Optional

    from frontend.design import Design
    from frontend.grading import Grading
    from frontend.options import Options
    from frontend.sources import Pair
    from frontend.words import Text

# Of a list that is graded in parts: more than anybody has, so that an endless file has an end.
MOST_LISTED = 1 << 24


class Work:
    """A design, its card and the vectors. Where these are a text's own, its lines tell the places of what is refused."""

    def __init__(self, design: Design, card: list[int], text: Optional[Text] = None, pair: Optional[Pair] = None) -> None:
        self.design = design
        self.card = card
        self.text = text
        self.pair = pair
        self.vectors: list[int] = text.vectors if text else []
        self.source = text.name if text else "none"


def run(options: Options) -> None:
    """Does what the options ask for."""
    wanted = {**({"--report": "-"} if options.report else {}), **options.files}
    if options.has_report:
        from frontend.outputs import check_outputs
        check_outputs(wanted)
    _check_files(options)
    work = read_work(options)
    if options.has_vectors:
        take_vectors(work, options)
    if options.write_names is not None:
        from frontend.design import write_names
        files.write_file(options.write_names, _encoded(write_names(work.design)))
    if options.mode == "--gates":
        print_gates(work)
    elif options.mode:
        print_named_card(work)
    elif options.has_report:
        from frontend.outputs import write_outputs
        from frontend.summary import summarize
        write_outputs(summarize(work.design, grade_in_parts(work), work.source), wanted)
    else:
        print_grading(work, options.has_vectors)


def _check_files(options: Options) -> None:
    """What cannot be read is told before anything is built."""
    for name in options.names_files:
        files.check_file(name)
    if options.vectors == "-":
        if 0 in files.closed:
            raise Failed("standard input is closed")
    elif options.vectors is not None:
        files.check_file(options.vectors)


def _encoded(text: str) -> bytes:
    return text.encode("utf-8", "surrogateescape")


# ---- what is read ----


def read_work(options: Options) -> Work:
    """The design that the files are, with its card."""
    if options.is_netlist:
        return _netlist_work(options.names[0])
    most = MOST_LISTED if options.has_report and not options.has_vectors else MOST_VECTORS + 1
    if len(options.names) == 3:
        return _pair_work(options, most)
    return _text_work(options, most)


def _netlist_work(name: str) -> Work:
    from frontend.formats import read_design
    design = read_design(name)
    answer, card = library().from_gates(design.words)
    if refusal(answer):
        raise Failed(f"{name}: the gate list that was made of it is refused by rule {refusal(answer)} at word {position(answer)}")
    return Work(design, card)


def _text_work(options: Options, most: int) -> Work:
    """A gate list or a card."""
    from frontend.design import bare_design, give_names, read_names
    from frontend.sources import card_of_gates, check_card
    from frontend.words import read_text
    text = _not_endless(read_text(options.names[0], most_vectors=most))
    is_gates = text.name.endswith(".gates")
    if is_gates:
        card = card_of_gates(text)
    else:
        check_card(text)
        card = text.card
    design = bare_design(text.name, text.card, is_gates)
    for name in options.names_files:
        design = give_names(design, read_names(name))
    return Work(design, card, text)


def _pair_work(options: Options, most: int) -> Work:
    """Card B on card A."""
    from frontend.design import bare_design
    from frontend.sources import read_pair
    pair = read_pair(options.names, most)
    _not_endless(pair.wires)
    if options.names_files:
        from frontend.joined import joined_design
        return Work(joined_design(pair, options.names_files), pair.card, pair.wires, pair)
    return Work(bare_design(f"{pair.b.name} on {pair.a.name}", pair.card, False), pair.card, pair.wires, pair)


def _not_endless(text: Text) -> Text:
    if len(text.vectors) >= MOST_LISTED:
        raise Failed(f"{text.name}: there are {MOST_LISTED:,} vector words or more")
    return text


def take_vectors(work: Work, options: Options) -> None:
    """The vectors that the options ask for, in the place of those that the text has."""
    from frontend import vectors
    inputs = len(work.design.inputs)
    if options.vectors is not None:
        found = vectors.read_vectors(options.vectors, work.design.inputs)
    elif options.random is not None:
        found = vectors.random_vectors(options.random, inputs, 1 if options.seed is None else options.seed)
    else:
        found = vectors.all_vectors(inputs)
    work.vectors = vectors.pack(found.bits, inputs)
    work.source = found.source
    work.text = None


# ---- what comes out ----


def print_gates(work: Work) -> None:
    """A netlist's gate list as a text, with its vectors."""
    from frontend.design import gates_text
    lines = [gates_text(work.design)]
    if work.vectors:
        lines += ["vectors\n", *(f"{word:08X}\n" for word in work.vectors)]
    print_card("".join(lines), work.vectors, work.design.file, work.text)


def print_named_card(work: Work) -> None:
    """A card as a text, with its vectors, and with names in the comments."""
    from frontend.cards import gates_text, joined_text
    from frontend.design import graph_comment, node_comment
    design = work.design
    graphs = [graph_comment(design, graph) for graph in range(len(design.lines))]
    nodes = [node_comment(design, node) for node in range(len(design.leads))]
    if work.pair:
        text = joined_text(work.card, work.pair.origins(), work.vectors, graphs, nodes)
    else:
        text = gates_text(work.card, design.words, work.vectors, graphs, nodes)
    print_card(text, work.vectors, design.file, work.text)


def print_grading(work: Work, is_apart: bool) -> None:
    """The program's text. A list that is apart may be longer than what the program takes, and is graded in parts then."""
    if is_apart and len(work.vectors) > MOST_VECTORS:
        files.write_text(grading_text(grade_in_parts(work)).encode())
    else:
        grade(work.card, work.vectors, work.text.name if work.text else work.design.file, work.text)


def grading_text(grading: Grading) -> str:
    """A grading as the program prints it."""
    lines = [f"card {grading.inputs} {grading.graphs} {grading.nodes} {grading.faults}"]
    for fault, (mark, tally) in enumerate(zip(grading.marks, grading.tallies)):
        lines.append(f"{fault} {'-' if mark is None else mark} {tally}")
    lines.append(f"grade {grading.marked} {grading.total}")
    return "\n".join(lines) + "\n"


def grade_in_parts(work: Work) -> Grading:
    """Through the archive's call, with progress on a terminal."""
    from frontend import grading
    from frontend.refusals import Subject
    from frontend.vectors import width
    try:
        return grading.grade_all(work.card, work.vectors, width(len(work.design.inputs)), grading.terminal_progress())
    except grading.Refused as error:
        name = work.text.name if work.text else work.design.file
        words = Subject(name, work.text).refused(error.refusal, error.position)
        raise Refused(f"refused {error.refusal} {error.position}", words) from None
