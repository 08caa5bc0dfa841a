"""Icarus Verilog, Yosys and ABC, asked for what netlists do: their values, and what is caught with a net or a pin forced.

For tests/outside-netlists, which is run by hand where these programs are installed; the gate does without it.
"""
import os
import re
import subprocess
from typing import Dict, List, NamedTuple, Optional, Sequence, Tuple

from designs import Draft

Vectors = Sequence[Sequence[int]]


class Port(NamedTuple):
    name: str
    is_input: bool
    width: int


def run(*command: str, folder: str) -> str:
    done = subprocess.run(command, cwd=folder, stdout=subprocess.PIPE, stderr=subprocess.STDOUT, text=True)
    if done.returncode:
        raise RuntimeError(f"{' '.join(command)[:200]}: status {done.returncode}: {done.stdout[-2000:]}")
    return done.stdout


# ---- Icarus ----

def icarus(folder: str, bench: str, files: Sequence[str]) -> List[str]:
    """The lines that a test bench prints."""
    with open(os.path.join(folder, "tb.v"), "w", encoding="ascii") as out:
        out.write(bench)
    run("iverilog", "-g2005-sv", "-s", "tb", "-o", "tb.vvp", "tb.v", *files, folder=folder)
    return [line for line in run("vvp", "-n", "tb.vvp", folder=folder).split("\n") if re.fullmatch(r"[0-9xz -]+", line)]


def write_vectors(folder: str, vectors: Vectors) -> None:
    """A line each, the last input first, as a test bench reads them."""
    with open(os.path.join(folder, "vectors.txt"), "w", encoding="ascii") as out:
        for vector in vectors:
            out.write("".join(map(str, reversed(vector))) + "\n")


def columns(lines: Sequence[str], vectors: int) -> List[int]:
    """Of lines of values, a vector each, a number for each place from the right, whose bit t is its value under vector t."""
    if len(lines) != vectors or any(set(line) - set("01") for line in lines):
        raise RuntimeError(f"{len(lines)} lines for {vectors} vectors, or a value that is neither 0 nor 1: {lines[:1]}")
    return [int("".join(line[-1 - place] for line in reversed(lines)), 2) for place in range(len(lines[0]))]


LOOP = """module tb;
  reg [{last}:0] in;
  reg [{last}:0] list [0:{vectors} - 1];
  wire [{places} - 1:0] out;
  integer t;
  {top} dut ({connections});
  initial begin
    $readmemb("vectors.txt", list);
    for (t = 0; t < {vectors}; t = t + 1) begin
      in = list[t]; #1 $display("%b", out);
    end
  end
endmodule
"""


def port_values(folder: str, files: Sequence[str], top: str, ports: Sequence[Port], vectors: Vectors) -> List[int]:
    """The values of a module's outputs, bit by bit in the order of the ports."""
    write_vectors(folder, vectors)
    at = {True: 0, False: 0}
    connections = []
    for port in ports:
        low = at[port.is_input]
        at[port.is_input] += port.width
        connections.append(f".{escaped(port.name)}({'in' if port.is_input else 'out'}[{low + port.width - 1}:{low}])")
    text = LOOP.format(last=at[True] - 1, vectors=len(vectors), places=at[False], top=escaped(top), connections=", ".join(connections))
    return columns(icarus(folder, text, files), len(vectors))


def escaped(name: str) -> str:
    return name if re.fullmatch("[A-Za-z_][A-Za-z0-9_]*", name) else f"\\{name} "


# ---- a drawn netlist in Verilog: each net is a wire, and so is each pin, so that either can be forced ----

def verilog(draft: Draft) -> Tuple[str, Dict[str, str], List[List[str]]]:
    """A module `drawn` of gate primitives, with its nets' wires, and the wires of each gate's pins. Its output has all nets, in their order."""
    nets = [*draft.inputs, *(gate.output for gate in draft.gates)]
    wires = {net: f"w{number}" for number, net in enumerate(nets)}
    pins: List[List[str]] = []
    lines = [f"module drawn (input [{len(draft.inputs) - 1}:0] in, output [{len(nets) - 1}:0] out);"]
    lines += [f"  wire {wire};" for wire in wires.values()]
    lines += [f"  assign {wires[net]} = in[{number}];" for number, net in enumerate(draft.inputs)]
    lines += [f"  assign out[{number}] = {wires[net]};" for number, net in enumerate(nets)]
    for number, gate in enumerate(draft.gates):
        pins.append([f"p{number}_{pin}" for pin in range(len(gate.nets))])
        lines += [f"  wire {pin}; assign {pin} = {wires[net]};" for pin, net in zip(pins[-1], gate.nets)]
        lines.append(f"  {primitive(gate.function, wires[gate.output], pins[-1])}")
    return "\n".join([*lines, "endmodule", ""]), wires, pins


def primitive(function: str, output: str, pins: Sequence[str]) -> str:
    if function in ("CONST0", "CONST1"):
        return f"assign {output} = 1'b{function[-1]};"
    if len(pins) == 1:
        function = "not" if function in ("NOT", "NAND", "NOR", "XNOR") else "buf"
    return f"{function.lower()} ({output}, {', '.join(pins)});"


def net_values(folder: str, draft: Draft, vectors: Vectors) -> Dict[str, int]:
    """The values of all nets."""
    text, wires, _ = verilog(draft)
    with open(os.path.join(folder, "drawn.v"), "w", encoding="ascii") as out:
        out.write(text)
    write_vectors(folder, vectors)
    bench = LOOP.format(last=len(draft.inputs) - 1, vectors=len(vectors), places=len(wires), top="drawn", connections=".in(in), .out(out)")
    return dict(zip(wires, columns(icarus(folder, bench, ["drawn.v"]), len(vectors))))


FORCED = """module tb;
  reg [{last}:0] in;
  reg [{last}:0] list [0:{vectors} - 1];
  reg [{places} - 1:0] good [0:{vectors} - 1];
  reg [{places} - 1:0] seen;
  wire [{places} - 1:0] out;
  integer t, first, tally;
  drawn dut (.in(in), .out(out));
  task measure;
    begin
      first = -1; tally = 0;
      for (t = 0; t < {vectors}; t = t + 1) begin
        in = list[t]; #1 if ((out & seen) !== (good[t] & seen)) begin
          if (tally == 0) first = t;
          tally = tally + 1;
        end
      end
      $display("%0d %0d", first, tally);
    end
  endtask
  initial begin
    $readmemb("vectors.txt", list);
    seen = {places}'b{mask};
    for (t = 0; t < {vectors}; t = t + 1) begin
      in = list[t]; #1 good[t] = out;
    end
{faults}
  end
endmodule
"""


def forced(folder: str, draft: Draft, vectors: Vectors) -> Dict[Tuple[str, int, int], Tuple[Optional[int], int]]:
    """First vector and tally of every fault: by the net or gate's net, the pin or -1, and the value."""
    text, wires, pins = verilog(draft)
    with open(os.path.join(folder, "drawn.v"), "w", encoding="ascii") as out:
        out.write(text)
    write_vectors(folder, vectors)
    sites = [((net, -1), wire) for net, wire in wires.items()]
    sites += [((gate.output, number), pin) for gate, row in zip(draft.gates, pins) for number, pin in enumerate(row)]
    faults = [f"    force dut.{wire} = 1'b{held}; measure; release dut.{wire};" for _, wire in sites for held in (0, 1)]
    mask = "".join("1" if net in draft.outputs else "0" for net in reversed(list(wires)))
    bench = FORCED.format(last=len(draft.inputs) - 1, vectors=len(vectors), places=len(wires), mask=mask, faults="\n".join(faults))
    lines = [tuple(map(int, line.split())) for line in icarus(folder, bench, ["drawn.v"])]
    keys = [(*site, held) for site, _ in sites for held in (0, 1)]
    if len(lines) != len(keys):
        raise RuntimeError(f"{len(lines)} lines for {len(keys)} faults")
    return {key: (None if first < 0 else first, tally) for key, (first, tally) in zip(keys, lines)}


# ---- ABC and Yosys ----

def abc_verilog(folder: str) -> None:
    """What ABC reads in abc.bench, written as abc.v, a module `abc`. It knows XORs of two inputs alone."""
    if os.path.exists(os.path.join(folder, "abc.v")):
        os.unlink(os.path.join(folder, "abc.v"))
    run("yosys-abc", "-c", "read_bench abc.bench; write_verilog abc.v", folder=folder)


def netlist_verilog(folder: str, json: str) -> None:
    """What Yosys reads in its JSON, written as netlist.v."""
    run("yosys", "-q", "-p", f"read_json {json}; write_verilog -noattr netlist.v", folder=folder)
