"""Verilog designs, which Yosys turns into gates: the script is explained in docs/NETLISTS.md."""

from __future__ import annotations

import os

from frontend.errors import Failed
from frontend.netlist import Netlist, NetlistError, printable, shown, SHOWN_TEXT
from frontend.yosys_json import read_json

# Without the options of any library: gates of two leads, and NOT. Flip-flops and latches stay what they are, and are refused by name.
SCRIPT = "synth -auto-top -flatten -noabc; abc -g AND,NAND,OR,NOR,XOR,XNOR; opt_clean"
_MISSING = "Verilog wants Yosys, which is not on the PATH: install the package yosys, or give cardgrade the JSON or BLIF that it writes"


def read_verilog(path: str) -> Netlist:
    """The netlist that Yosys makes of a Verilog file."""
    import shutil
    import tempfile
    yosys = shutil.which("yosys")
    if not yosys:
        raise Failed(f"{path}: {_MISSING}")
    with tempfile.TemporaryDirectory(prefix="cardgrade-") as folder:
        made = os.path.join(folder, "design.json")
        _run(yosys, path, made)
        return read_json(made, path)


def _run(yosys: str, path: str, made: str) -> None:
    """Yosys reads the file and writes the other one. Names of files are arguments of their own, so that they may have any characters."""
    import subprocess
    frontend = "verilog -sv" if path.lower().endswith(".sv") else "verilog"
    name = path if not path.startswith("-") else os.path.join(".", path)
    command = [yosys, "-q", "-f", frontend, "-p", SCRIPT, "-b", "json", "-o", made, name]
    try:
        ended = subprocess.run(command, stdin=subprocess.DEVNULL, stdout=subprocess.PIPE, stderr=subprocess.STDOUT, check=False)
    except OSError as error:
        raise Failed(f"{yosys}: {error.strerror}") from None
    if ended.returncode != 0 or not os.path.exists(made):
        raise _told(path, ended.stdout.decode("utf-8", "replace"))


def _told(path: str, text: str) -> NetlistError:
    """What Yosys says is wrong: its first line with an error, else its last line."""
    lines = [line.strip() for line in text.splitlines() if line.strip()]
    errors = [line for line in lines if "ERROR" in line]
    said = (errors or lines[-1:] or ["it ended without a word"])[0]
    place = printable(path)
    if said.startswith(path + ":"):
        return NetlistError(place + shown(said[len(path):], SHOWN_TEXT))
    return NetlistError(f"{place}: yosys: {shown(said, SHOWN_TEXT)}")
