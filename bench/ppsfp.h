/* Parallel-pattern grading, included by peers.c. The word type is left open, so that a wider one can be tried.
 *
 * Needs: WT the word, WBITS its vectors, NAME(x), ANY(w), POP(w), LOW(w) the
 * number of the lowest set bit, ZERO, ONES, COLUMN(block, input), VALID(count).
 *
 * A block of WBITS vectors goes so:
 *   1. good values of all nodes; act[j], the vectors whose walk passes node j;
 *      sen[j], those where also its two exits differ (flipping node j's
 *      decision flips its graph): the critical path inside a graph, exact;
 *   2. from the highest graph down, obs[g], the vectors where flipping graph g
 *      alone flips an observable graph.  An observable graph: all of them.  A
 *      graph that one node reads: that node's sen and its graph's obs.  Others:
 *      the flip is propagated event-driven (stem);
 *   3. fault masks are sen & obs & decision, counted by population count.
 */

static WT NAME(gv)[MAXG], NAME(fv)[MAXG], NAME(ob)[MAXG];
static WT NAME(act)[MAXN], NAME(sen)[MAXN];
static WT NAME(tmp)[MAXN + 2], NAME(way)[MAXN + 2];

static inline WT NAME(eval)(int h)
{
    WT *t = NAME(tmp);
    const node_t *n = nd + gfirst[h];
    const WT *fv = NAME(fv);
    for (int k = gfirst[h + 1] - gfirst[h] - 1; k >= 0; k--) {
        WT a = t[n[k].e[0]], b = t[n[k].e[1]];
        t[k + 2] = a ^ ((a ^ b) & fv[n[k].read]);
    }
    COUNT(nevals, gfirst[h + 1] - gfirst[h]);
    COUNT(nevents, 1);
    return t[2];
}

/* good values, act and sen of one graph */
static inline void NAME(good)(int g)
{
    WT *t = NAME(tmp), *w = NAME(way), *gv = NAME(gv);
    int f = gfirst[g], n = gfirst[g + 1] - f;
    const node_t *p = nd + f;
    if (n == 1) {
        WT a = t[p->e[0]], b = t[p->e[1]];
        gv[g] = a ^ ((a ^ b) & gv[p->read]);
        NAME(act)[f] = ONES;
        NAME(sen)[f] = a ^ b;
        return;
    }
    for (int k = n - 1; k >= 0; k--) {
        WT a = t[p[k].e[0]], b = t[p[k].e[1]];
        NAME(sen)[f + k] = a ^ b;
        t[k + 2] = a ^ ((a ^ b) & gv[p[k].read]);
        w[k + 2] = ZERO;
    }
    gv[g] = t[2];
    w[2] = ONES;
    for (int k = 0; k < n; k++) {
        WT a = w[k + 2], r = gv[p[k].read];
        NAME(act)[f + k] = a;
        NAME(sen)[f + k] &= a;
        w[p[k].e[1]] |= a & r;
        w[p[k].e[0]] |= a & ~r;
    }
}

static inline void NAME(wake)(int c, WT d)
{
    for (int e = fostart[c]; e < fostart[c + 1]; e++) {
        unsigned h = fo[e].graph;
        queue[h >> 6] |= (uint64_t)ANY(NAME(act)[fo[e].node] & d) << (h & 63);
    }
}

/* Of the vectors in want, those where graph g's flip reaches an observable.
 * U: vectors not decided yet.  When h changes and nothing above h reads any
 * other changed graph (top <= h), what follows is just what follows from
 * flipping h alone, and obs[h] decides.  top goes by all readers, active or not:
 * an inactive node may be reached after the flip.  Nothing above top is ever in
 * the queue. */
static WT NAME(stem)(int g, WT want)
{
    WT *gv = NAME(gv), *fv = NAME(fv);
    WT U = want, O = ZERO;
    uint16_t changed[MAXG];
    int nc = 0, top = maxr[g];
    int wi = g >> 6;

    COUNT(nstems, 1);
    fv[g] = gv[g] ^ want;
    changed[nc++] = g;
    NAME(wake)(g, want);
    for (;;) {
        while (!queue[wi])
            if (++wi > top >> 6)
                goto done;
        int h = (wi << 6) + __builtin_ctzll(queue[wi]);
        queue[wi] &= queue[wi] - 1;
        WT d = (NAME(eval)(h) ^ gv[h]) & U;
        if (!ANY(d))
            continue;
        if (kind[h] == 2) {
            O |= d;
            U &= ~d;
        } else if (top <= h) {
            O |= d & NAME(ob)[h];
            U &= ~d;
        } else {
            fv[h] = gv[h] ^ d;
            changed[nc++] = h;
            if (top < maxr[h])
                top = maxr[h];
            NAME(wake)(h, d);
            continue;
        }
        if (!ANY(U)) {
            for (; wi <= top >> 6; wi++)
                queue[wi] = 0;
            break;
        }
    }
done:
    for (int i = 0; i < nc; i++)
        fv[changed[i]] = gv[changed[i]];
    return O;
}

static inline void NAME(count)(unsigned f, WT d, int base)
{
    if (first[f] < 0 && ANY(d))
        first[f] = base + LOW(d);
    tally[f] += POP(d);
}

static void NAME(run)(void)
{
    WT *gv = NAME(gv), *ob = NAME(ob);
    NAME(tmp)[0] = ZERO;
    NAME(tmp)[1] = ONES;
    NAME(columns_start)();
    for (int base = 0; base < V; base += WBITS) {
        WT valid = VALID(V - base);
        NAME(columns)(base, gv);
        for (int g = M; g < G; g++)
            NAME(good)(g);
        memcpy(NAME(fv), gv, G * sizeof(WT));
        for (int g = G - 1; g >= 0; g--) {
            WT o;
            if (kind[g] == 2)
                o = valid;
            else if (fostart[g] == fostart[g + 1])
                o = ZERO;
            else if (fostart[g] + 1 == fostart[g + 1])
                o = NAME(sen)[fo[fostart[g]].node] & ob[fo[fostart[g]].graph];
            else
                o = NAME(stem)(g, valid);
            ob[g] = o;
            if (!ANY(o))
                continue;
            for (int j = gfirst[g]; j < gfirst[g + 1]; j++) {
                WT d = NAME(sen)[j] & o, r = gv[nd[j].read];
                NAME(count)(2 * j, d & r, base);
                NAME(count)(2 * j + 1, d & ~r, base);
            }
            NAME(count)(2 * N + 2 * g, o & gv[g], base);
            NAME(count)(2 * N + 2 * g + 1, o & ~gv[g], base);
        }
    }
}
