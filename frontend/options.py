"""The arguments of ./cardgrade, and what --help says of them."""

from __future__ import annotations

import os

from frontend.errors import Failed

TYPE_CHECKING = False
if TYPE_CHECKING:
    from collections.abc import Sequence
    from typing import Optional

USAGE = """\
usage: cardgrade FILE.words    grades a text of words: a word a line, of eight hexadecimal digits; # starts a comment;
                               the line `vectors` ends the card
       cardgrade FILE.gates    grades a gate list, which is such a text too: it is turned into a card first
       cardgrade NETLIST       grades FILE.bench, FILE.blif, FILE.json (of Yosys), FILE.v or FILE.sv (through Yosys),
                               turned into a gate list first
       cardgrade FILE          grades bytes: the card's word count, the card, the vectors; each word highest byte first
       cardgrade [-]           grades such bytes from standard input
       cardgrade A B WIRES     grades card B on card A, three texts of words: WIRES has a word for each input of B, the
                               number of a graph of A or FFFFFFFF for a free input, the line `vectors` and the joined
                               card's vectors; those of A and B are left out
       cardgrade --join A B WIRES     prints the joined card, with the vectors, as a text of words
       cardgrade --card FILE.gates    prints the card of a gate list, or of a netlist, likewise
       cardgrade --gates NETLIST      prints the gate list of a netlist likewise
       cardgrade --bytes FILE.words   prints the bytes of a text of words, of any length
       cardgrade --help        prints this; -- ends the options

Vectors in the place of those that the file has; of texts and netlists, not of bytes:
       --vectors FILE          a vector a line, of 0 and 1 in the order of the inputs, or of a first line that names
                               them; - is standard input
       --random N [--seed S]   N random ones; the same for the same seed
       --exhaustive            all that there are, of up to 16 inputs

What comes out in the place of the grading, likewise:
       --report                the coverage, the faults that are not caught by name, which vectors are needed
       --csv FILE, --json FILE, --html FILE    the same as a table, as data, as a page; - is standard output
       --names FILE            gives names to the lines and leads of a card or gate list; of A B WIRES to A's, and the
                               second one to B's
       --write-names FILE      writes the names of a netlist, for its gate list

Standard output has the grading, or one line: `refused` with the rule and the position, `short` or `long`; then standard
error says in words what is wrong, and where.

Exit status: 0  a grading, a report or a card, wholly written
             1  refused, short or long
             2  an error of reading, writing or use; standard error says which

The program is built first where it is missing, which takes some minutes: everything under it is proved. So is the
archive where cards are joined, gate lists turned into cards, or reports made. CARDGRADE=program and
CARDHOST_LIB=archive name finished ones.
"""

HELP = "; ./cardgrade --help tells how it is used"
NETLISTS = (".bench", ".json", ".blif", ".v", ".sv")

# What is made in the place of a grading, each by itself.
MODES = ("--join", "--card", "--gates", "--bytes")
FLAGS = ("--help", "-h", "--report", "--exhaustive", *MODES)
VALUED = ("--csv", "--json", "--html", "--vectors", "--random", "--seed", "--names", "--write-names")


class Options:
    """What the arguments ask for."""

    def __init__(self) -> None:
        self.help = False
        self.mode = ""  # one of MODES
        self.names: list[str] = []
        self.report = False
        self.files: dict[str, str] = {}  # by --csv, --json, --html
        self.vectors: Optional[str] = None
        self.random: Optional[int] = None
        self.seed: Optional[int] = None
        self.exhaustive = False
        self.names_files: list[str] = []
        self.write_names: Optional[str] = None

    @property
    def reads_input(self) -> bool:
        """Whether the card comes from standard input."""
        return self.names in ([], ["-"]) and not self.mode

    @property
    def has_vectors(self) -> bool:
        """Whether vectors are asked for that are not the file's."""
        return self.vectors is not None or self.random is not None or self.exhaustive

    @property
    def has_report(self) -> bool:
        """Whether something else than the grading's text is to come out."""
        return self.report or bool(self.files)

    @property
    def is_netlist(self) -> bool:
        """Whether the file is a netlist, by its name."""
        return len(self.names) == 1 and self.mode != "--bytes" and self.names[0].lower().endswith(NETLISTS)

    @property
    def is_makers(self) -> bool:
        """Whether this takes more than a text of words or bytes that are graded as they are."""
        return self.has_vectors or self.has_report or bool(self.names_files) or self.write_names is not None or self.is_netlist


def parse(arguments: Sequence[str]) -> Options:
    """The arguments in order. Options may stand behind a name too."""
    options = Options()
    rest = list(arguments)
    while rest:
        word = rest.pop(0)
        if word == "--":
            options.names += rest
            break
        if _is_option(word, options):
            _take(options, word, rest)
        else:
            options.names.append(word)
    if not options.help:
        _check(options)
    return options


def _is_option(word: str, options: Options) -> bool:
    """Behind a name what starts with - is a name too, unless it is an option, or looks like one and is no file."""
    if not word.startswith("-") or word == "-":
        return False
    if not options.names and not options.mode == "--join":
        return True
    return word.partition("=")[0] in FLAGS + VALUED or word.startswith("--") and not os.path.lexists(word)


def _take(options: Options, word: str, rest: list[str]) -> None:
    """One option, with its value where it has one."""
    option, given, value = word.partition("=")
    if option not in FLAGS + VALUED or given and option in FLAGS:
        raise Failed(f"no option {word}{HELP}")
    if option in VALUED:
        if not given and not rest:
            raise Failed(f"{option} takes a value{HELP}")
        _set_value(options, option, value if given else rest.pop(0))
    elif option in MODES:
        if options.mode:
            raise Failed(f"{options.mode} and {option} do not go together{HELP}")
        options.mode = option
    elif option == "--report":
        options.report = True
    elif option == "--exhaustive":
        options.exhaustive = True
    else:
        options.help = True


def _set_value(options: Options, option: str, value: str) -> None:
    if option in ("--random", "--seed"):
        if not (value.isascii() and value.isdigit() and len(value) <= 20):
            raise Failed(f"{option} takes a number{HELP}")
        setattr(options, option[2:], int(value))
    elif option == "--vectors":
        options.vectors = value
    elif option == "--names":
        options.names_files.append(value)
    elif option == "--write-names":
        options.write_names = value
    else:
        options.files[option] = value


def _check(options: Options) -> None:
    """What the options take, and what goes together."""
    count = len(options.names)
    if options.mode == "--card" and not (options.is_netlist or count == 1 and options.names[0].endswith(".gates")):
        raise Failed(f"--card takes one FILE.gates or netlist{HELP}")
    if options.mode == "--gates" and not options.is_netlist:
        raise Failed(f"--gates takes one netlist{HELP}")
    if options.mode == "--bytes" and count != 1:
        raise Failed(f"--bytes takes one FILE.words{HELP}")
    if count not in ((3,) if options.mode == "--join" else (0, 1, 3)):
        raise Failed(f"one FILE at most, or A, B and WIRES{HELP}")
    if options.mode and options.has_report:
        raise Failed(f"{options.mode} and a report do not go together{HELP}")
    if options.mode == "--bytes" and options.is_makers:
        raise Failed(f"--bytes takes a text of words alone{HELP}")
    _check_vectors(options)
    _check_names(options)
    is_text = count == 3 or count == 1 and options.names[0].endswith((".words", ".gates"))
    if options.is_makers and not options.is_netlist and not is_text:
        raise Failed(f"these options take a text of words or a netlist, by its name{HELP}")


def _check_vectors(options: Options) -> None:
    if (options.vectors is not None) + (options.random is not None) + options.exhaustive > 1:
        raise Failed(f"--vectors, --random and --exhaustive do not go together{HELP}")
    if options.seed is not None and options.random is None:
        raise Failed(f"--seed goes with --random{HELP}")


def _check_names(options: Options) -> None:
    if len(options.names_files) > (2 if len(options.names) == 3 else 1):
        raise Failed(f"--names is there once, with A B WIRES twice{HELP}")
    if options.is_netlist and options.names_files:
        raise Failed(f"a netlist has its own names, and --names is for cards and gate lists{HELP}")
    if options.write_names is not None and not options.is_netlist:
        raise Failed(f"--write-names takes a netlist{HELP}")
