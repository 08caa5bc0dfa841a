"""The names of a joined card, by those of the cards that it is made of."""

from __future__ import annotations

from dataclasses import replace

from frontend.design import Design, Site, bare_design, give_names, read_names

TYPE_CHECKING = False
if TYPE_CHECKING:
    from collections.abc import Sequence

    from frontend.sources import Pair


def joined_design(pair: Pair, names: Sequence[str]) -> Design:
    """A joined card, whose parts are called A.NAME and B.NAME. The first names file is for card A, the second for card B."""
    parts = {part: bare_design(text.name, text.card, False) for part, text in (("A", pair.a), ("B", pair.b))}
    for part, name in zip(parts, names):
        parts[part] = give_names(parts[part], read_names(name))
    origins = pair.origins()
    now = {origin: graph for graph, origin in enumerate(origins)}
    return Design(
        file=f"{pair.b.name} on {pair.a.name}",
        words=pair.card,
        is_gates=False,
        inputs=[f"{part}.{parts[part].inputs[graph]}" for part, graph in origins if graph < len(parts[part].inputs)],
        outputs=[(f"{part}.{name}", now[part, graph]) for part in parts for name, graph in parts[part].outputs],
        leads=[_of_part(part, site) for part in parts for site in parts[part].leads],
        lines=[_of_part(part, parts[part].lines[graph]) for part, graph in origins],
        notes=[f"{part}: {note}" for part in parts for note in parts[part].notes],
    )


def _of_part(part: str, site: Site) -> Site:
    return replace(site, name=f"{part}.{site.name}") if site.name else site
