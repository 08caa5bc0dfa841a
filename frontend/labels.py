"""What the sites and faults of a design are called in reports: by the design's names, and by number where there are none."""

from __future__ import annotations

from frontend.design import fault_name

TYPE_CHECKING = False
if TYPE_CHECKING:
    from frontend.design import Design, Site
    from frontend.structure import Structure


class Labels:
    """The names of a design's faults. A site is a lead and a line of gates, a node and a graph of a card."""

    def __init__(self, design: Design, structure: Structure) -> None:
        self.design = design
        self.structure = structure
        self.inner, self.outer = ("lead", "line") if design.is_gates else ("node", "graph")
        self.reader = "lead" if design.is_gates else "reader"

    def is_inner(self, fault: int) -> bool:
        """Whether it is a lead's or node's fault."""
        return fault // 2 < self.structure.nodes

    def place(self, fault: int) -> tuple[str, int]:
        """What the fault's site is, and its number: `lead`, 173."""
        site = fault // 2
        return (self.inner, site) if self.is_inner(fault) else (self.outer, site - self.structure.nodes)

    def entry(self, fault: int) -> Site:
        """What the design says of the fault's site."""
        kind, number = self.place(fault)
        return (self.design.leads if kind == self.inner else self.design.lines)[number]

    def numbered(self, fault: int) -> str:
        """The site by number alone: `node 3 of graph 1`."""
        kind, number = self.place(fault)
        where = f" of graph {self.structure.owner[number]}" if kind == "node" else ""
        return f"{kind} {number}{where}"

    def name(self, fault: int) -> str:
        """The site by name, or by number where it has none: `U608/A`."""
        return self.entry(fault).name or self.numbered(fault)

    def site(self, fault: int) -> str:
        """The site by both: `U608/A, lead 173`."""
        name = self.entry(fault).name
        return f"{name}, {self.numbered(fault)}" if name else self.numbered(fault)

    def fault(self, fault: int) -> str:
        """The whole fault: `U608/A stuck-at-1, line 129, lead 173`."""
        if self.entry(fault).name:
            return fault_name(self.design, fault)
        if not self.design.is_gates and self.is_inner(fault):
            return f"{self.numbered(fault)} stuck at its {fault % 2}-exit"
        return f"{self.numbered(fault)} stuck-at-{fault % 2}"
