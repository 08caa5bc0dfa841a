#!/usr/bin/env python3
"""Benchmark cards for the logic-card grading engine.

Writes a file in cardgrade's input format: the card's word count, the card,
then the vector words, every word 32 bits, highest byte first.

  circuits.py --list                    names of the benchmark circuits
  circuits.py NAME [-v V] [-s SEED] [-o FILE]   one card with V random vectors
  circuits.py --verify                  check counts and functions, print them

Names with a number (xorN, adderN, multN, nmultN) take any number; "-gates"
after xor, adder, alu181 and mult gives the gate form, a graph for every line.
Standard library only.
"""
import argparse
import random
import re
import struct
import sys

MAX_GRAPHS, MAX_NODES, MAX_WORDS, MAX_VECTOR_WORDS = 1024, 4096, 9216, 16384


# ---------------------------------------------------------------- the card

class Card:
    """inputs: number of input graphs.  outs: list of (observable, nodes);
    nodes: list of (graph read, 0-exit, 1-exit), exits as in the card."""

    def __init__(self, inputs):
        self.inputs = inputs
        self.outs = []

    def add(self, nodes, observable=False):
        self.outs.append((observable, [tuple(n) for n in nodes]))
        return self.inputs + len(self.outs) - 1

    def observe(self, g):
        self.outs[g - self.inputs] = (True, self.outs[g - self.inputs][1])

    @property
    def graphs(self):
        return self.inputs + len(self.outs)

    @property
    def nodes(self):
        return sum(len(n) for _, n in self.outs)

    @property
    def observables(self):
        return [self.inputs + i for i, (o, _) in enumerate(self.outs) if o]

    def words(self):
        w = [0] * self.inputs
        for obs, nodes in self.outs:
            w.append((0x40000000 if obs else 0x20000000) | len(nodes))
            for read, e0, e1 in nodes:
                w.append(0x60000000 | read)
                w.append(0x80000000 | e0 << 14 | e1)
        return w

    def check(self):
        """Every rule of the card format; raises AssertionError."""
        assert self.inputs >= 1
        assert self.graphs <= MAX_GRAPHS, ("graphs", self.graphs)
        assert self.nodes <= MAX_NODES, ("nodes", self.nodes)
        assert len(self.words()) <= MAX_WORDS, ("words", len(self.words()))
        assert self.observables
        for i, (_, nodes) in enumerate(self.outs):
            n = len(nodes)
            assert n >= 1
            named = set()
            for k, (read, e0, e1) in enumerate(nodes):
                assert 0 <= read < self.inputs + i
                for e in (e0, e1):
                    assert e in (0, 1) or k < e - 2 < n, (i, k, e, n)
                    if e >= 2:
                        named.add(e - 2)
            assert named == set(range(1, n)), (i, nodes)
        return self

    def evaluate(self, columns, mask):
        """Bit-parallel values of all graphs; columns: one integer per input."""
        val = list(columns)
        for _, nodes in self.outs:
            v = [0] * (len(nodes) + 2)
            v[1] = mask
            for k in range(len(nodes) - 1, -1, -1):
                read, e0, e1 = nodes[k]
                r = val[read]
                v[k + 2] = (r & v[e1]) | (~r & mask & v[e0])
            val.append(v[2])
        return val

    def depth(self):
        d = [0] * self.inputs
        for _, nodes in self.outs:
            d.append(1 + max(d[n[0]] for n in nodes))
        return max(d)

    def vector_width(self):
        return (self.inputs + 15) // 16


def random_vectors(card, count, rng):
    """count vectors, each an integer whose bit i is input i."""
    return [rng.getrandbits(card.inputs) for _ in range(count)]


def vector_words(card, vectors):
    w = card.vector_width()
    return [0xA0000000 | (v >> 16 * j & 0xFFFF) for v in vectors for j in range(w)]


def file_bytes(card, vectors):
    words = card.words()
    words = [len(words)] + words + vector_words(card, vectors)
    return struct.pack(">%dI" % len(words), *words)


# ------------------------------------------------- gate networks and Bader

class Net:
    """A gate network.  Lines are numbered in the order made."""

    def __init__(self):
        self.type, self.ins, self.obs, self.outputs = [], [], set(), []

    def _line(self, t, ins):
        self.type.append(t)
        self.ins.append(list(ins))
        return len(self.type) - 1

    def inp(self):
        assert all(t == "IN" for t in self.type)
        return self._line("IN", [])

    def gate(self, t, *ins):
        assert t in ("AND", "OR", "NAND", "NOR", "NOT") and ins
        return self._line(t, ins)

    def observe(self, *lines):
        self.obs.update(lines)
        self.outputs += lines

    def gates(self):
        return sum(t != "IN" for t in self.type)

    def xor4(self, a, b):
        """Exclusive-or of four NAND gates, leads in the order of Bader's
        figure 6: C = (A, B), D = (A, C), E = (C, B), output = (D, E)."""
        c = self.gate("NAND", a, b)
        d = self.gate("NAND", a, c)
        e = self.gate("NAND", c, b)
        return self.gate("NAND", d, e)

    def order(self):
        """Gates by increasing level with Bader's two modifications (2.3):
        a hidden gate is raised to just below its lowest reader, and of equal
        levels the observable gates come first."""
        n = len(self.type)
        level = [0] * n
        for i in range(n):
            if self.type[i] != "IN":
                level[i] = 1 + max(level[k] for k in self.ins[i])
        readers = [[] for _ in range(n)]
        for i in range(n):
            for k in self.ins[i]:
                readers[k].append(i)
        for i in range(n - 1, -1, -1):
            if self.type[i] != "IN" and i not in self.obs and readers[i]:
                level[i] = max(level[i], min(level[r] for r in readers[i]) - 1)
        gates = [i for i in range(n) if self.type[i] != "IN"]
        return sorted(gates, key=lambda i: (level[i], i not in self.obs, i))

    @staticmethod
    def combine(t, parts):
        """Bader's figure 7: partial diagrams of the leads into one."""
        cur = None
        for p in parts:
            if cur is None:
                cur = list(p)
                continue
            into = 1 if t in ("AND", "NAND") else 0
            at = len(cur) + 2
            sh = len(cur)
            cur = [(r, at if a == into else a, at if b == into else b)
                   for r, a, b in cur]
            cur += [(r, a if a < 2 else a + sh, b if b < 2 else b + sh)
                    for r, a, b in p]
        if t in ("NOT", "NAND", "NOR"):
            flip = {0: 1, 1: 0}
            cur = [(r, flip.get(a, a), flip.get(b, b)) for r, a, b in cur]
        return cur

    def bader(self):
        """Bader's conversion: an input graph and a one-node graph for every
        primary input, a graph for every fan-out stem and observable gate."""
        n = len(self.type)
        fan = [0] * n
        for i in range(n):
            for k in self.ins[i]:
                fan[k] += 1
        inputs = [i for i in range(n) if self.type[i] == "IN"]
        card = Card(len(inputs))
        graph, part = {}, {}
        for k, i in enumerate(inputs):
            graph[i] = card.add([(k, 0, 1)], i in self.obs)
        for i in self.order():
            parts = [[(graph[k], 0, 1)] if k in graph else part[k]
                     for k in self.ins[i]]
            d = self.combine(self.type[i], parts)
            if fan[i] > 1 or i in self.obs:
                graph[i] = card.add(d, i in self.obs)
            else:
                assert fan[i] == 1, "a gate that nothing reads"
                part[i] = d
        card.outputs = [graph[i] for i in self.outputs]
        return card

    def gate_form(self):
        """A graph for every line and a node for every lead."""
        inputs = [i for i, t in enumerate(self.type) if t == "IN"]
        card = Card(len(inputs))
        graph = {i: k for k, i in enumerate(inputs)}
        for i in inputs:
            if i in self.obs:
                raise ValueError("observable input in gate form")
        for i in self.order():
            d = self.combine(self.type[i], [[(graph[k], 0, 1)] for k in self.ins[i]])
            graph[i] = card.add(d, i in self.obs)
        card.outputs = [graph[i] for i in self.outputs]
        return card


def xor_tree(inputs):
    net = Net()
    row = [net.inp() for _ in range(inputs)]
    assert inputs >= 2 and inputs & (inputs - 1) == 0
    while len(row) > 1:
        row = [net.xor4(row[i], row[i + 1]) for i in range(0, len(row), 2)]
    net.observe(row[0])
    return net


def full_adder(net, a, b, c):
    """Two-level full adder with three inverters: 3 + 12 + 6 = 21 leads that
    become nodes, 12 gates."""
    na, nb, nc = net.gate("NOT", a), net.gate("NOT", b), net.gate("NOT", c)
    s = net.gate("OR", net.gate("AND", na, nb, c), net.gate("AND", na, b, nc),
                 net.gate("AND", a, nb, nc), net.gate("AND", a, b, c))
    k = net.gate("OR", net.gate("AND", a, b), net.gate("AND", a, c),
                 net.gate("AND", b, c))
    return s, k


def half_adder(net, a, b):
    s = net.gate("OR", net.gate("AND", a, net.gate("NOT", b)),
                 net.gate("AND", net.gate("NOT", a), b))
    return s, net.gate("AND", a, b)


def adder(cells):
    """Inputs: a0 b0 a1 b1 ... and last the carry in; outputs: the sums and
    the last carry."""
    net = Net()
    ab = [(net.inp(), net.inp()) for _ in range(cells)]
    c = net.inp()
    for a, b in ab:
        s, c = full_adder(net, a, b, c)
        net.observe(s)
    net.observe(c)
    return net


def alu181():
    """The 74S181 from its well-known equations.  Inputs: A0-3, B0-3, S0-3,
    M, Cn.  Outputs: F0-3, A=B, X (P), Y (G), Cn+4.  With the single-lead ANDs
    of the data book's AND-OR-invert drawing there are 87 gates, as Bader says."""
    net = Net()
    A = [net.inp() for _ in range(4)]
    B = [net.inp() for _ in range(4)]
    S = [net.inp() for _ in range(4)]
    M = net.inp()
    Cn = net.inp()
    g = net.gate
    D, E = [], []
    for i in range(4):
        nb = g("NOT", B[i])
        D.append(g("NOR", g("AND", A[i]), g("AND", B[i], S[0]), g("AND", nb, S[1])))
        E.append(g("NOR", g("AND", A[i], nb, S[2]), g("AND", A[i], B[i], S[3])))
    nm = g("NOT", M)
    C = [g("NAND", nm, Cn),
         g("NOR", g("AND", nm, D[0]), g("AND", nm, E[0], Cn)),
         g("NOR", g("AND", nm, D[1]), g("AND", nm, D[0], E[1]),
           g("AND", nm, E[0], E[1], Cn)),
         g("NOR", g("AND", nm, D[2]), g("AND", nm, D[1], E[2]),
           g("AND", nm, D[0], E[1], E[2]), g("AND", nm, E[0], E[1], E[2], Cn))]
    Y = g("NOR", g("AND", D[3]), g("AND", D[2], E[3]), g("AND", D[1], E[2], E[3]),
          g("AND", D[0], E[1], E[2], E[3]))
    X = g("NAND", E[0], E[1], E[2], E[3])
    n5 = g("NAND", Cn, E[0], E[1], E[2], E[3])
    Cn4 = g("NAND", Y, n5)
    F = [net.xor4(net.xor4(D[i], E[i]), C[i]) for i in range(4)]
    AeqB = g("AND", F[0], F[1], F[2], F[3])
    net.observe(*F, AeqB, X, Y, Cn4)
    return net


def multiplier(n):
    """Braun's carry-save array, n by n, two-level full adders: n(n-2) full
    and n half adders.  Inputs x0.. then y0..; outputs p0..p(2n-1)."""
    net = Net()
    x = [net.inp() for _ in range(n)]
    y = [net.inp() for _ in range(n)]
    pp = [[net.gate("AND", x[j], y[i]) for j in range(n)] for i in range(n)]
    out = braun(n, pp, lambda a, b: half_adder(net, a, b),
                lambda a, b, c: full_adder(net, a, b, c))
    net.observe(*out)
    return net


def braun(n, pp, half, full):
    out = [pp[0][0]]
    s, c = pp[0], None
    for i in range(1, n):
        ns, nc = [], []
        for j in range(n - 1):
            if i == 1:
                a, k = half(pp[1][j], s[j + 1])
            else:
                a, k = full(pp[i][j], s[j + 1], c[j])
            ns.append(a)
            nc.append(k)
        s, c = ns + [pp[i][n - 1]], nc
        out.append(s[0])
    k = None
    for j in range(n - 1):
        a, k = half(s[j + 1], c[j]) if k is None else full(s[j + 1], c[j], k)
        out.append(a)
    out.append(k)
    return out


# ------------------------------------------------------ Akers's own diagrams

def akers_cell(card, a, b, c):
    """Akers's full adder, figure 14: E = A xor B; S = E xor C; the carry is
    A where E is 0 and C where E is 1.  His exit variables become nodes."""
    e = card.add([(a, 3, 4), (b, 0, 1), (b, 1, 0)])
    s = card.add([(e, 3, 4), (c, 0, 1), (c, 1, 0)])
    k = card.add([(e, 3, 4), (a, 0, 1), (c, 0, 1)])
    return e, s, k


def akers_ripple(n):
    """Inputs A0 B0 A1 B1 ... CIN.  Outputs S0..S(n-1), COUT."""
    card = Card(2 * n + 1)
    c = 2 * n
    for i in range(n):
        _, s, c = akers_cell(card, 2 * i, 2 * i + 1, c)
        card.observe(s)
    card.observe(c)
    return card


def akers_cla(n):
    """The look-ahead adder, figure 17: as the ripple adder, but the last carry
    is CIN ? P : G, where G and P are the carry's diagram with CIN put to 0, 1."""
    card = Card(2 * n + 1)
    cin = c = 2 * n
    es = []
    for i in range(n):
        a, b = 2 * i, 2 * i + 1
        e = card.add([(a, 3, 4), (b, 0, 1), (b, 1, 0)])
        s = card.add([(e, 3, 4), (c, 0, 1), (c, 1, 0)], True)
        es.append(e)
        if i + 1 < n:
            c = card.add([(e, 3, 4), (a, 0, 1), (c, 0, 1)])
    gp = []
    for k in (0, 1):
        nodes = []
        for i in range(n - 1, -1, -1):
            at = len(nodes)
            nodes.append((es[i], at + 3, at + 4 if i else k))
            nodes.append((2 * i, 0, 1))
        gp.append(card.add(nodes))
    card.add([(cin, 3, 4), (gp[0], 0, 1), (gp[1], 0, 1)], True)
    return card


def native_multiplier(n):
    """The array multiplier straight in decision graphs, Akers's cell for each
    full adder (3 graphs, 9 nodes): 16 by 16 is the largest that fits."""
    card = Card(2 * n)
    pp = [[card.add([(j, 0, 3), (n + i, 0, 1)]) for j in range(n)] for i in range(n)]

    def half(a, b):
        return (card.add([(a, 3, 4), (b, 0, 1), (b, 1, 0)]),
                card.add([(a, 0, 3), (b, 0, 1)]))

    def full(a, b, c):
        return akers_cell(card, a, b, c)[1:]

    card.outputs = braun(n, pp, half, full)
    for g in card.outputs:
        card.observe(g)
    return card


# ------------------------------------------------------------- random cards

def random_graph(rng, n, later=0.3, degenerate=False, bushy=0.0):
    """Exits of n nodes, every node but the first named by an earlier one.
    Chains pass few flips on; `bushy` is the share of graphs grown as full trees
    of multiplexers, which pass on more."""
    ex = [[None, None] for _ in range(n)]
    tree = bushy > 0 and rng.random() < bushy
    for k in range(1, n):
        free = [(p, s) for p in range(k) for s in (0, 1) if ex[p][s] is None]
        if tree:
            free = free[:1]
        elif rng.random() < 0.5:  # half the time extend the last node: a chain
            free = [f for f in free if f[0] == k - 1] or free
        p, s = rng.choice(free)
        ex[p][s] = k + 2
    for k in range(n):
        for s in (0, 1):
            if ex[k][s] is None:
                if k + 1 < n and rng.random() < later:
                    ex[k][s] = rng.randrange(k + 1, n) + 2
                else:
                    ex[k][s] = rng.randrange(2)
        if not degenerate and ex[k][0] == ex[k][1]:
            if ex[k][0] < 2:
                ex[k][1] ^= 1
            else:
                ex[k][rng.randrange(2)] = rng.randrange(2)
    # an equal pair names its node twice, so mending one of them orphans nothing
    return ex


def random_card(seed, inputs, graphs, nodes, pick, observed, bushy=0.0, parity=0.0,
                spread=0):
    """pick(rng, g) names a graph below g; the last `observed` graphs are
    observable.  `parity` is the share of graphs of 3, 5, ... nodes that become
    the exclusive-or of 2, 3, ... graphs, which every flip passes.  `spread`, if
    not 0, makes one in so many of the graphs that are not inputs observable
    besides, evenly by number."""
    rng = random.Random(seed)
    outs = graphs - inputs
    size = [nodes // outs + (i < nodes % outs) for i in range(outs)]
    for _ in range(4 * outs):  # uneven sizes, same total
        i, j = rng.randrange(outs), rng.randrange(outs)
        if size[i] > 1 and size[j] < 2 * (nodes // outs) + 1:
            size[i] -= 1
            size[j] += 1
    card = Card(inputs)
    for i in range(outs):
        g = inputs + i
        n = size[i]
        ex = random_graph(rng, n, bushy=bushy)
        reads = []
        for _ in range(n):
            r = pick(rng, g)
            for _ in range(3):
                if r not in reads:
                    break
                r = pick(rng, g)
            reads.append(r)
        if n >= 3 and n % 2 and parity > 0 and rng.random() < parity:
            ex = [(3, 4)]
            for k in range(1, n, 2):
                ex += ([(k + 4, k + 5), (k + 5, k + 4)] if k + 2 < n
                       else [(0, 1), (1, 0)])
                reads[k + 1] = reads[k]
        card.add([(r, e[0], e[1]) for r, e in zip(reads, ex)],
                 i >= outs - observed or (spread > 0 and i % spread == spread - 1))
    return card


def deep_pick(window, inputs, side):
    def pick(rng, g):
        if rng.random() < side:
            return rng.randrange(inputs)
        return max(0, g - 1 - rng.randrange(window))
    return pick


def wide_pick(inputs, width, graphs):
    """Layers of `width` graphs; a node reads the layer before, sometimes an
    older one.  The last half layer gathers from the layer below it."""
    def pick(rng, g):
        if g < inputs + width:
            return rng.randrange(inputs)
        if g >= graphs - width // 2:
            return g - 1 - rng.randrange(width)
        layer = (g - inputs) // width
        if rng.random() < 0.15:
            return rng.randrange(inputs + (layer - 1) * width)
        lo = inputs + (layer - 1) * width
        return lo + rng.randrange(width)
    return pick


def funnel_pick(inputs, graphs):
    """Wide at the bottom, narrowing to the last few graphs: reads reach back
    about a third of the way to the end."""
    def pick(rng, g):
        if rng.random() < 0.1:
            return rng.randrange(g)
        back = max(8, (graphs - g) // 3 + 8)
        return max(0, g - 1 - rng.randrange(back))
    return pick


def any_pick(rng, g):
    return rng.randrange(g)


RANDOM = {
    # name: (seed, inputs, graphs, nodes, pick, observables, bushy, parity, spread)
    "rand-deep": (11, 32, 1024, 4000, deep_pick(12, 32, 0.10), 4, 0.7, 1.0),
    "rand-deeper": (12, 16, 1024, 4000, deep_pick(5, 16, 0.15), 1, 0.0, 1.0),
    "rand-chaos": (11, 32, 1024, 4000, deep_pick(24, 32, 0.10), 4, 0.7, 0.3),
    "rand-wide": (13, 128, 1024, 4000, wide_pick(128, 112, 1024), 16, 0.3, 0.1),
    "rand-wider": (14, 256, 1024, 4000, wide_pick(256, 224, 1024), 32, 0.3, 0.1),
    # as rand-wide, but one in sixteen observable as well, seven in every layer
    "rand-spread": (18, 128, 1024, 4000, wide_pick(128, 112, 1024), 16, 0.3, 0.1, 16),
    "rand-funnel": (15, 128, 1024, 4000, funnel_pick(128, 1024), 2, 0.3, 0.3),
    "rand-any": (16, 64, 1024, 4000, any_pick, 8, 0.3, 0.3),
    "rand-bulky": (17, 32, 160, 4000, deep_pick(40, 32, 0.2), 4),
}


def worst_card():
    """The dearest card that we know: a chain of graphs of one node each, and above
    it one graph that reads them all, walks all of its nodes and is always 0. Each
    graph's change walk goes through everything above it and finds nothing."""
    card = Card(16)
    for g in range(16, MAX_GRAPHS - 1):
        card.add([(g - 1, 0, 1)])
    n = MAX_NODES - card.nodes
    card.add([(k % (MAX_GRAPHS - 1), k + 3, k + 3) for k in range(n - 1)]
             + [(MAX_GRAPHS - 2, 0, 0)], True)
    return card


# -------------------------------------------------------------------- names

NET = {"xor": xor_tree, "adder": adder, "mult": multiplier}


def build(name):
    form = "bader"
    base = name
    if name.endswith("-gates"):
        form, base = "gates", name[:-6]
    m = re.fullmatch(r"(xor|adder|mult)(\d+)", base)
    if m or base == "alu181":
        net = NET[m.group(1)](int(m.group(2))) if m else alu181()
        return net.bader() if form == "bader" else net.gate_form()
    if form == "gates":
        raise ValueError("no gate form of " + base)
    m = re.fullmatch(r"nmult(\d+)", base)
    if m:
        return native_multiplier(int(m.group(1)))
    m = re.fullmatch(r"(ripple|cla)(\d+)", base)
    if m:
        return (akers_ripple if m.group(1) == "ripple" else akers_cla)(int(m.group(2)))
    if base in RANDOM:
        return random_card(*RANDOM[base])
    if base == "worst":
        return worst_card()
    if base == "S":
        card = Card(1)
        card.add([(0, 0, 1)])
        card.add([(1, 0, 3), (0, 0, 1)], True)
        return card
    if base == "f":
        card = Card(3)
        card.add([(0, 3, 1), (1, 4, 0), (2, 0, 1)], True)
        return card
    raise ValueError("no circuit " + name)


# name and number of vectors of the benchmark set; the number is cut to what
# 16,384 vector words hold
BENCH = [
    ("ripple4", 4096), ("cla4", 4096),
    ("xor32", 4096), ("xor64", 4096), ("xor128", 2048), ("xor256", 1024),
    ("adder5", 4096), ("adder50", 2048), ("adder113", 1024),
    ("alu181", 4096),
    ("mult13", 4096), ("nmult16", 4096),
    ("rand-deep", 4096), ("rand-deeper", 4096), ("rand-chaos", 4096),
    ("rand-wide", 2048),
    ("rand-wider", 1024), ("rand-spread", 2048), ("rand-funnel", 2048),
    ("rand-any", 4096), ("rand-bulky", 4096), ("worst", 4096),
]


def write(path, data):
    if path == "-":
        sys.stdout.buffer.write(data)
    else:
        with open(path, "wb") as f:
            f.write(data)


def make(name, count, seed):
    card = build(name).check()
    count = min(count, MAX_VECTOR_WORDS // card.vector_width())
    rng = random.Random("%s/%s" % (name, seed))
    return card, file_bytes(card, random_vectors(card, count, rng))


# ------------------------------------------------------------------- verify

def verify():
    rng = random.Random(5)
    V = 256
    mask = (1 << V) - 1

    def columns(card):
        return [rng.getrandbits(V) for _ in range(card.inputs)]

    def bit(x, v):
        return x >> v & 1

    def num(cols, v):
        return sum(bit(c, v) << i for i, c in enumerate(cols))

    def line(name, card, extra=""):
        print("%-14s inputs %4d graphs %4d nodes %4d observable %3d depth %4d words %4d %s"
              % (name, card.inputs, card.graphs, card.nodes, len(card.observables),
                 card.depth(), len(card.words()), extra))

    # card S and Akers's f, word for word as the paper has them
    assert ["%08X" % w for w in build("S").words()] == (
        "00000000 20000001 60000000 80000001 40000002 60000001 80000003 "
        "60000000 80000001").split()
    assert ["%08X" % w for w in build("f").words()] == (
        "00000000 00000000 00000000 40000003 60000000 8000C001 60000001 "
        "80010000 60000002 80000001").split()

    # Bader's figures 4 to 6: one four-NAND cell
    two = xor_tree(2).bader()
    assert two.outs == [(False, [(0, 0, 1)]), (False, [(1, 0, 1)]),
                        (False, [(2, 1, 3), (3, 1, 0)]),
                        (True, [(2, 4, 3), (4, 4, 1), (4, 0, 5), (3, 0, 1)])]

    for n in (2, 4, 8, 16, 32, 64, 128, 256):
        for form in ("", "-gates"):
            try:
                card = build("xor%d%s" % (n, form)).check()
            except AssertionError:
                continue
            c = columns(card)
            p = 0
            for x in c:
                p ^= x
            assert card.evaluate(c, mask)[card.observables[0]] == p
            if n >= 32:
                line("xor%d%s" % (n, form), card)
            if not form:
                assert card.nodes == n + 6 * (n - 1)
            if n == 32 and not form:
                assert card.nodes == 218 and xor_tree(32).gates() == 4 * 31

    for n in (1, 5, 50, 113):
        for form in ("", "-gates"):
            try:
                card = build("adder%d%s" % (n, form)).check()
            except AssertionError:
                continue
            net = adder(n)
            c = columns(card)
            val = card.evaluate(c, mask)
            o = [val[g] for g in card.outputs]
            for v in range(V):
                a, b = num(c[0:2 * n:2], v), num(c[1:2 * n:2], v)
                assert num(o, v) == a + b + bit(c[2 * n], v)
            if n >= 5:
                line("adder%d%s" % (n, form), card, "gates %d" % net.gates())
            if not form:
                assert card.nodes == 2 * n + 1 + 21 * n
            if n == 50 and not form:
                assert card.nodes == 1151 and net.gates() == 600
                assert len(card.observables) == 51 and card.inputs == 101

    net = alu181()
    assert net.gates() == 87 and len(net.obs) == 8
    for form in ("", "-gates"):
        card = build("alu181" + form).check()
        W = 1 << 14
        full = (1 << W) - 1
        c = []
        for i in range(14):  # all 16,384 inputs
            p = (1 << (1 << i)) - 1
            col = 0
            for k in range(0, W, 2 << i):
                col |= p << (k + (1 << i))
            c.append(col)
        val = card.evaluate(c, full)
        check_alu(card, val, W)
        line("alu181" + form, card, "gates %d" % net.gates())
    assert card.inputs == 14

    for name in ("mult4", "mult13", "nmult4", "nmult16"):
        card = build(name).check()
        n = card.inputs // 2
        c = columns(card)
        val = card.evaluate(c, mask)
        for v in range(V):
            assert (num([val[g] for g in card.outputs], v)
                    == num(c[:n], v) * num(c[n:], v))
        assert sorted(card.outputs) == card.observables
        line(name, card)
    for name in ("mult14", "nmult17"):
        try:
            build(name).check()
            raise SystemExit(name + " fits after all")
        except AssertionError as e:
            print("%-14s does not fit: %s" % (name, e))

    for name in ("ripple4", "cla4"):
        card = build(name).check()
        W = 512
        full = (1 << W) - 1
        c = [sum(((k >> i) & 1) << k for k in range(W)) for i in range(9)]
        val = card.evaluate(c, full)
        for v in range(W):
            a = num(c[0:8:2], v)
            b = num(c[1:8:2], v)
            got = sum(bit(val[g], v) << i for i, g in enumerate(card.observables))
            assert got == a + b + bit(c[8], v)
        line(name, card)
    assert build("ripple4").nodes == 36

    for name in RANDOM:
        card = build(name).check()
        assert card.graphs <= 1024 and card.nodes == 4000
        read = {n[0] for _, ns in card.outs for n in ns} | set(card.observables)
        line(name, card, "unread %d" % (card.graphs - len(read)))
    line("worst", build("worst").check())
    print("verified: 32-input exclusive-or tree 218 nodes, 436 node faults; "
          "50-cell adder 1,151 nodes, 2,302 node faults, 600 gates; 74S181 87 gates")


def check_alu(card, val, W):
    """Active-high arithmetic and logic of the 74181 on all 16,384 inputs."""
    out = [val[g] for g in card.outputs]
    logic = [lambda a, b: ~a, lambda a, b: ~(a | b), lambda a, b: ~a & b,
             lambda a, b: 0, lambda a, b: ~(a & b), lambda a, b: ~b,
             lambda a, b: a ^ b, lambda a, b: a & ~b, lambda a, b: ~a | b,
             lambda a, b: ~(a ^ b), lambda a, b: b, lambda a, b: a & b,
             lambda a, b: 15, lambda a, b: a | ~b, lambda a, b: a | b,
             lambda a, b: a]
    n = lambda x: ~x & 15
    arith = [lambda a, b: a, lambda a, b: a | b, lambda a, b: a | n(b),
             lambda a, b: 15, lambda a, b: a + (a & n(b)),
             lambda a, b: (a | b) + (a & n(b)), lambda a, b: a + n(b),
             lambda a, b: (a & n(b)) + 15, lambda a, b: a + (a & b),
             lambda a, b: a + b, lambda a, b: (a | n(b)) + (a & b),
             lambda a, b: (a & b) + 15, lambda a, b: a + a,
             lambda a, b: (a | b) + a, lambda a, b: (a | n(b)) + a,
             lambda a, b: a + 15]
    for v in range(W):
        a, b, s = v & 15, v >> 4 & 15, v >> 8 & 15
        m, cn = v >> 12 & 1, v >> 13 & 1
        f = sum((out[i] >> v & 1) << i for i in range(4))
        if m:
            assert f == logic[s](a, b) & 15
        else:
            total = arith[s](a, b) + (1 - cn)
            assert f == total & 15
            assert (out[7] >> v & 1) == 1 - (total >> 4), (v, total)
        assert (out[4] >> v & 1) == (f == 15)


# --------------------------------------------------------------------- main

def main():
    ap = argparse.ArgumentParser(description=__doc__.split("\n")[0])
    ap.add_argument("name", nargs="?")
    ap.add_argument("-v", "--vectors", type=int, default=None)
    ap.add_argument("-s", "--seed", type=int, default=1)
    ap.add_argument("-o", "--out", default="-")
    ap.add_argument("--list", action="store_true")
    ap.add_argument("--verify", action="store_true")
    a = ap.parse_args()
    if a.list:
        for name, count in BENCH:
            print(name, count)
    elif a.verify:
        verify()
    elif a.name:
        count = a.vectors if a.vectors is not None else dict(BENCH).get(a.name, 1024)
        _, data = make(a.name, count, a.seed)
        write(a.out, data)
    else:
        ap.error("nothing to do")


if __name__ == "__main__":
    main()
