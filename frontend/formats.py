"""The formats of netlists, by the endings of their files' names."""

from __future__ import annotations

import os

TYPE_CHECKING = False
if TYPE_CHECKING:
    from frontend.design import Design
    from frontend.netlist import Netlist

ENDINGS = (".bench", ".json", ".blif", ".v", ".sv")


def is_netlist(path: str) -> bool:
    """Whether a file is a netlist, by its name."""
    return os.path.splitext(path)[1].lower() in ENDINGS


def read_netlist(path: str) -> Netlist:
    """The netlist in a file; its name has one of the endings."""
    ending = os.path.splitext(path)[1].lower()
    if ending == ".bench":
        from frontend.bench import read_bench
        return read_bench(path)
    if ending == ".json":
        from frontend.yosys_json import read_json
        return read_json(path)
    if ending == ".blif":
        from frontend.blif import read_blif
        return read_blif(path)
    from frontend.verilog import read_verilog
    return read_verilog(path)


def read_design(path: str) -> Design:
    """A netlist's gate list, with names."""
    from frontend.lower import lower
    return lower(read_netlist(path))
