/* Peers of the grading engine in plain C: several ways to the same grade, to time the engine against.
 *
 *   peers MODE [--repeat N] [--first K] [--quiet] < card-and-vectors
 *
 * serial   every fault re-evaluated for every vector
 * path     one vector at a time by the marking rules, event-driven
 * ppsfp    64 vectors a word, flips of stems propagated event-driven
 * full     one vector at a time, the change walk of every graph gone to its end
 * stopped  the same, each walk ended at the first observable graph that changes
 *
 * Reads cardgrade's input, writes cardgrade's output.  To stderr: the mode, the
 * best and the mean time of the grading (from checked words in memory to marks
 * and tallies in memory), and the set-up time (checking and decoding the words,
 * reader lists); all processor time, by clock_gettime.  --first K grades only
 * the first K vectors; --quiet prints no fault lines.  Built with -DSTATS it
 * also tells how many stems and graph evaluations there were.
 *
 * full and stopped differ in nothing else and have no other shortcut.  They also
 * tell how many graphs are observable and how many were walked again in one run;
 * full, besides, how many of them up to the first observable one that changed,
 * which is what stopped walks.
 */
#define _POSIX_C_SOURCE 200809L
#include <stdint.h>
#include <stdio.h>
#include <stdlib.h>
#include <string.h>
#include <time.h>

enum { MAXG = 1024, MAXN = 4096, MAXW = 9216, MAXVW = 16384 };

typedef struct { uint16_t read, graph, e[2]; } node_t;  /* exits as in the card */
typedef struct { uint16_t node, graph; } edge_t;

static uint32_t card[MAXW], vecs[MAXVW];
static int ncard, nvecs;

static int M, G, N, F, V, VW;           /* inputs, graphs, nodes, faults, vectors, w */
static node_t nd[MAXN];
static uint16_t gfirst[MAXG + 1];       /* first node of a graph */
static uint8_t kind[MAXG];              /* 0 input, 1 hidden, 2 observable */

/* readers, only those from which an observable graph can be reached */
static edge_t fo[MAXN];
static uint16_t fostart[MAXG + 1];
static uint16_t maxr[MAXG];             /* highest graph that reads it, or 0 */
static uint8_t live_graph[MAXG];
static int lastobs;

static int32_t first[2 * MAXN + 2 * MAXG];
static uint32_t tally[2 * MAXN + 2 * MAXG];
static uint64_t queue[MAXG / 64];

#ifdef STATS
static uint64_t nevals, nevents, nstems;
#define COUNT(what, by) ((what) += (by))
#else
#define COUNT(what, by) ((void)0)
#endif

/* ------------------------------------------------------------- reading */

static void refuse(int no, int pos)
{
    printf("refused %d %d\n", no, pos);
    exit(0);
}

static uint32_t word_at(const unsigned char *p)
{
    return (uint32_t)p[0] << 24 | p[1] << 16 | p[2] << 8 | p[3];
}

static void read_input(void)
{
    static unsigned char buf[4 + 4 * MAXW + 4 * MAXVW + 8];
    size_t len = fread(buf, 1, sizeof buf, stdin);
    if (len < 4) {
        puts("short");
        exit(0);
    }
    uint32_t n = word_at(buf);
    if (n > MAXW)
        refuse(1, 0);
    size_t rest = len - 4;
    if (rest < 4 * (size_t)n) {
        puts("short");
        exit(0);
    }
    rest -= 4 * n;
    if (rest / 4 > MAXVW) {
        puts("long");
        exit(0);
    }
    if (rest % 4) {
        puts("short");
        exit(0);
    }
    ncard = n;
    nvecs = rest / 4;
    for (int i = 0; i < ncard; i++)
        card[i] = word_at(buf + 4 + 4 * i);
    for (int i = 0; i < nvecs; i++)
        vecs[i] = word_at(buf + 4 + 4 * n + 4 * i);
}

static void check(void)
{
    int p = 0, obs = 0;
    M = G = N = 0;
    while (p < ncard) {
        uint32_t w = card[p];
        int k = w >> 29, head = p;
        if (G == MAXG)
            refuse(2, p);
        if (k > 2 || (k == 0 && G > M))
            refuse(4, p);
        if (w & (k ? 0x1FFF0000u : 0x1FFFFFFFu))
            refuse(5, p);
        p++;
        gfirst[G] = N;
        kind[G] = k;
        if (k == 0) {
            M++;
            G++;
            continue;
        }
        int n = w & 0xFFFF;
        if (n == 0 || N + n > MAXN)
            refuse(3, head);
        static uint8_t named[MAXN];
        memset(named, 0, n);
        for (int i = 0; i < n; i++) {
            if (p == ncard || card[p] >> 29 != 3)
                refuse(4, p);
            if (card[p] & 0x1FFF0000u)
                refuse(5, p);
            if ((int)(card[p] & 0xFFFF) >= G)
                refuse(6, p);
            node_t *d = &nd[N + i];
            d->read = card[p++];
            d->graph = G;
            if (p == ncard || card[p] >> 29 != 4)
                refuse(4, p);
            if (card[p] & 0x10000000u)
                refuse(5, p);
            d->e[0] = card[p] >> 14 & 0x3FFF;
            d->e[1] = card[p] & 0x3FFF;
            for (int s = 0; s < 2; s++)
                if (d->e[s] >= 2) {
                    if (d->e[s] - 2 <= i || d->e[s] - 2 >= n)
                        refuse(7, p);
                    named[d->e[s] - 2] = 1;
                }
            p++;
        }
        for (int i = 1; i < n; i++)
            if (!named[i])
                refuse(8, head);
        N += n;
        obs += k == 2;
        G++;
    }
    if (!obs)
        refuse(9, ncard);
    gfirst[G] = N;
    F = 2 * N + 2 * G;
    VW = (M + 15) / 16;
    if (nvecs % VW)
        refuse(10, 0);
    V = nvecs / VW;
    for (int i = 0; i < nvecs; i++) {
        int in = i % VW == VW - 1 ? M - 16 * (VW - 1) : 16;
        if (vecs[i] >> 29 != 5 || (vecs[i] & 0x1FFFFFFFu) >> in)
            refuse(10, i);
    }
}

static void prepare(void)
{
    static uint16_t deg[MAXG + 1];
    memset(live_graph, 0, sizeof live_graph);
    memset(maxr, 0, sizeof maxr);
    memset(deg, 0, sizeof deg);
    for (int g = G - 1; g >= 0; g--) {
        if (kind[g] == 2)
            live_graph[g] = 1;
        if (live_graph[g])
            for (int j = gfirst[g]; j < gfirst[g + 1]; j++) {
                int r = nd[j].read;
                live_graph[r] = 1;
                deg[r]++;
                if (maxr[r] < g)
                    maxr[r] = g;
            }
    }
    lastobs = G - 1;
    while (kind[lastobs] != 2)
        lastobs--;
    fostart[0] = 0;
    for (int g = 0; g < G; g++) {
        fostart[g + 1] = fostart[g] + deg[g];
        deg[g] = fostart[g];
    }
    for (int j = 0; j < N; j++)
        if (live_graph[nd[j].graph])
            fo[deg[nd[j].read]++] = (edge_t){ j, nd[j].graph };
}

static void clear_marks(void)
{
    memset(first, -1, F * sizeof first[0]);
    memset(tally, 0, F * sizeof tally[0]);
}

/* -------------------------------------------------------------- serial */

static inline unsigned walk_from(const node_t *n, unsigned e, const uint8_t *val)
{
    while (e >= 2)
        e = n[e - 2].e[val[n[e - 2].read]];
    return e;
}

static inline unsigned walk(int g, const uint8_t *val)
{
    return walk_from(nd + gfirst[g], 2, val);
}

static void load_vector(int v, uint8_t *val)
{
    const uint32_t *w = vecs + v * VW;
    for (int i = 0; i < M; i++)
        val[i] = w[i >> 4] >> (i & 15) & 1;
}

static uint8_t val[MAXG], fal[MAXG];

/* everything above g worked out again with g flipped */
static int above(int g)
{
    int h, hit = kind[g] == 2;
    fal[g] = !val[g];
    for (h = g < M ? M : g + 1; !hit && h <= lastobs; h++) {
        fal[h] = walk(h, fal);
        hit = kind[h] == 2 && fal[h] != val[h];
    }
    memcpy(fal + g, val + g, h - g);
    return hit;
}

static void mark(unsigned f, int v)
{
    if (tally[f]++ == 0)
        first[f] = v;
}

static void run_serial(void)
{
    for (int v = 0; v < V; v++) {
        load_vector(v, val);
        for (int g = M; g < G; g++)
            val[g] = walk(g, val);
        memcpy(fal, val, G);
        for (int g = M; g < G; g++)
            for (int j = gfirst[g]; j < gfirst[g + 1]; j++)
                for (int s = 0; s < 2; s++) {
                    const node_t *n = nd + gfirst[g];
                    unsigned e = 2;
                    while (e >= 2) {
                        const node_t *p = n + e - 2;
                        e = p->e[p == nd + j ? (unsigned)s : val[p->read]];
                    }
                    if (e != val[g] && above(g))
                        mark(2 * j + s, v);
                }
        for (int g = 0; g < G; g++)
            for (int s = 0; s < 2; s++)
                if (val[g] != s && above(g))
                    mark(2 * N + 2 * g + s, v);
    }
}

/* ---------------------------------------------------------------- path */

static uint32_t state[MAXN];            /* 2 * stamp + (exits differ) if active */
static uint8_t crit[MAXG];
static uint16_t actives[MAXN];

/* rules 2 and 3: the change list of g, ended at the first observable graph, or
 * where one changed graph is all that anything above still reads */
static int critical(int g, uint32_t stamp)
{
    uint16_t list[MAXG];
    int n = 0, hit = 0, top = maxr[g];
    int wi = g >> 6;
    COUNT(nstems, 1);
    fal[g] = !val[g];
    list[n++] = g;
    for (int c = g;;) {
        for (int e = fostart[c]; e < fostart[c + 1]; e++) {
            unsigned h = fo[e].graph;
            queue[h >> 6] |= (uint64_t)(state[fo[e].node] >> 1 == stamp) << (h & 63);
        }
        for (;;) {
            while (!queue[wi])
                if (++wi > top >> 6)
                    goto done;
            c = (wi << 6) + __builtin_ctzll(queue[wi]);
            queue[wi] &= queue[wi] - 1;
            COUNT(nevents, 1);
            unsigned x = walk(c, fal);
            if (x != val[c])
                break;
        }
        if (kind[c] == 2) {
            hit = 1;
            break;
        }
        if (top <= c) {
            hit = crit[c];
            break;
        }
        if (top < maxr[c])
            top = maxr[c];
        fal[c] = !val[c];
        list[n++] = c;
    }
    for (; wi <= top >> 6; wi++)
        queue[wi] = 0;
done:
    while (n)
        n--, fal[list[n]] = val[list[n]];
    return hit;
}

static void run_path(void)
{
    memset(state, 0, sizeof state);
    for (int v = 0; v < V; v++) {
        uint32_t stamp = v + 1;
        static uint16_t from[MAXG + 1];
        int na = 0;
        load_vector(v, val);
        /* rule 1, and whether the exits of each active node differ */
        for (int g = M; g < G; g++) {
            const node_t *n = nd + gfirst[g];
            unsigned e = 2;
            from[g] = na;
            do {
                actives[na++] = gfirst[g] + e - 2;
                e = n[e - 2].e[val[n[e - 2].read]];
            } while (e >= 2);
            val[g] = e;
            for (int i = from[g]; i < na; i++) {
                const node_t *p = nd + actives[i];
                unsigned o = walk_from(n, p->e[!val[p->read]], val);
                state[actives[i]] = 2 * stamp + (o != e);
            }
        }
        from[G] = na;
        memcpy(fal, val, G);
        for (int g = G - 1; g >= 0; g--) {
            if (kind[g] == 2)
                crit[g] = 1;
            else if (fostart[g] == fostart[g + 1])
                crit[g] = 0;
            else if (fostart[g] + 1 == fostart[g + 1])
                crit[g] = state[fo[fostart[g]].node] == 2 * stamp + 1
                          && crit[fo[fostart[g]].graph];
            else
                crit[g] = critical(g, stamp);
            if (!crit[g])
                continue;
            mark(2 * N + 2 * g + !val[g], v);
            if (g >= M)
                for (int i = from[g]; i < from[g + 1]; i++) {
                    int j = actives[i];
                    if (state[j] & 1)
                        mark(2 * j + !val[nd[j].read], v);
                }
        }
    }
}

/* ---------------------------------------------------- full and stopped */

static uint64_t readers[MAXG][MAXG / 64];   /* all readers, as a set of graphs */
static uint64_t walked, upto;               /* graphs walked again in a run */

static void make_readers(void)
{
    memset(readers, 0, G * sizeof readers[0]);
    for (int j = 0; j < N; j++)
        readers[nd[j].read][nd[j].graph >> 6] |= (uint64_t)1 << (nd[j].graph & 63);
}

static void not_rising(int g)
{
    fprintf(stderr, "the change list of graph %d is not rising\n", g);
    exit(1);
}

/* the change walk of g: is an observable graph on its change list?  With stop it ends
 * at the first one; the rest is the same, checks and counts too, so that the times
 * differ by the stop alone */
static int change_walk(int g, int stop)
{
    uint16_t list[MAXG];
    uint64_t due[MAXG / 64];
    int n = 0, hit = 0, again = 0, until = 0;
    int wi = g >> 6, words = (G + 63) / 64;
    memcpy(due, readers[g], words * sizeof due[0]);
    fal[g] = !val[g];
    list[n++] = g;
    while (wi < words) {
        if (!due[wi]) {
            wi++;       /* for good: readers are above what they read */
            continue;
        }
        int h = (wi << 6) + __builtin_ctzll(due[wi]);
        due[wi] &= due[wi] - 1;
        again++;
        until += !hit;
        if (walk(h, fal) == val[h])
            continue;
        if (h <= list[n - 1])
            not_rising(g);
        fal[h] = !val[h];
        list[n++] = h;
        hit |= kind[h] == 2;
        if (hit && stop)
            break;
        for (int w = wi; w < words; w++)
            due[w] |= readers[h][w];
    }
    walked += again;
    upto += until;
    while (n)
        n--, fal[list[n]] = val[list[n]];
    return hit;
}

/* the fault of a critical graph, and those of its active nodes whose exits differ */
static void mark_critical(int g, int v)
{
    const node_t *n = nd + gfirst[g];
    mark(2 * N + 2 * g + !val[g], v);
    for (unsigned e = g < M ? 0 : 2; e >= 2;) {
        const node_t *p = n + e - 2;
        unsigned d = val[p->read];
        if (walk_from(n, p->e[!d], val) != val[g])
            mark(2 * (p - nd) + !d, v);
        e = p->e[d];
    }
}

static void run_walks(int stop)
{
    walked = upto = 0;
    make_readers();
    for (int v = 0; v < V; v++) {
        load_vector(v, val);
        for (int g = M; g < G; g++)
            val[g] = walk(g, val);
        memcpy(fal, val, G);
        for (int g = 0; g < G; g++)
            if (kind[g] == 2 || change_walk(g, stop))
                mark_critical(g, v);
    }
}

static void run_full(void) { run_walks(0); }
static void run_stopped(void) { run_walks(1); }

static void tell_walked(int full)
{
    int observable = 0;
    for (int g = 0; g < G; g++)
        observable += kind[g] == 2;
    fprintf(stderr, " observable %d walked %llu", observable, (unsigned long long)walked);
    if (full)
        fprintf(stderr, " upto %llu", (unsigned long long)upto);
}

/* --------------------------------------------------------------- ppsfp */

/* 64 vectors of up to 64 inputs turned over: row v becomes column v */
static void turn(uint64_t a[64])
{
    uint64_t m = 0x00000000FFFFFFFFull;
    for (int j = 32; j; j >>= 1, m ^= m << j)
        for (int k = 0; k < 64; k = ((k | j) + 1) & ~j) {
            uint64_t t = (a[k] >> j ^ a[k | j]) & m;
            a[k] ^= t << j;
            a[k | j] ^= t;
        }
}

/* columns of the 64 vectors from base on: out[i] bit b = input i of base + b */
static void columns64(int base, uint64_t *out, int stride)
{
    int n = V - base < 64 ? V - base : 64;
    for (int j = 0; j < VW; j += 4) {
        uint64_t a[64];
        int q = VW - j < 4 ? VW - j : 4;
        for (int b = 0; b < 64; b++) {
            uint64_t x = 0;
            if (b < n)
                for (int k = 0; k < q; k++)
                    x |= (uint64_t)(vecs[(base + b) * VW + j + k] & 0xFFFF) << 16 * k;
            a[b] = x;
        }
        turn(a);
        for (int i = 0; i < 64 && 16 * j + i < M; i++)
            out[(16 * j + i) * stride] = a[i];
    }
}

#define NAME(x) x##_64
#define WT uint64_t
#define WBITS 64
#define ZERO ((uint64_t)0)
#define ONES (~(uint64_t)0)
#define ANY(w) ((w) != 0)
#define POP(w) __builtin_popcountll(w)
#define LOW(w) __builtin_ctzll(w)
#define VALID(n) ((n) >= 64 ? ONES : ((uint64_t)1 << (n)) - 1)
static void columns_start_64(void) { }
static void columns_64(int base, uint64_t *gv) { columns64(base, gv, 1); }
#include "ppsfp.h"

/* ---------------------------------------------------------------- main */

/* does a fault count?  Not those of a graph that is not observable and has one
 * reader; here readers are all nodes that read it, not only those of fo */
static int counts(int f, const uint16_t *readers)
{
    int g = f / 2 - N;
    return g < 0 || kind[g] == 2 || readers[g] != 1;
}

static void print_grade(int quiet)
{
    static uint16_t nreaders[MAXG];
    int marked = 0, total = 0;
    for (int j = 0; j < N; j++)
        nreaders[nd[j].read]++;
    printf("card %d %d %d %d\n", M, G, N, F);
    for (int f = 0; f < F; f++) {
        total += counts(f, nreaders);
        marked += counts(f, nreaders) && first[f] >= 0;
        if (quiet)
            continue;
        if (first[f] < 0)
            printf("%d - 0\n", f);
        else
            printf("%d %d %u\n", f, (int)first[f], (unsigned)tally[f]);
    }
    printf("grade %d %d\n", marked, total);
}

static double now(void)
{
    struct timespec t;
    clock_gettime(CLOCK_PROCESS_CPUTIME_ID, &t);
    return t.tv_sec * 1e9 + t.tv_nsec;
}

int main(int argc, char **argv)
{
    static const struct { const char *name; void (*run)(void); } mode[] = {
        { "serial", run_serial }, { "path", run_path }, { "ppsfp", run_64 },
        { "full", run_full }, { "stopped", run_stopped },
    };
    int m = -1, repeat = 1, cut = -1, quiet = 0;
    for (int i = 1; i < argc; i++) {
        if (!strcmp(argv[i], "--repeat") && i + 1 < argc)
            repeat = atoi(argv[++i]);
        else if (!strcmp(argv[i], "--first") && i + 1 < argc)
            cut = atoi(argv[++i]);
        else if (!strcmp(argv[i], "--quiet"))
            quiet = 1;
        else
            for (unsigned k = 0; k < sizeof mode / sizeof *mode; k++)
                if (!strcmp(argv[i], mode[k].name))
                    m = k;
    }
    if (m < 0 || repeat < 1) {
        fprintf(stderr, "usage: peers serial|path|ppsfp|full|stopped"
                        " [--repeat N] [--first K] [--quiet] < input\n");
        return 2;
    }
    read_input();
    double best = 0, sum = 0, setup = 0;
    for (int i = 0; i < repeat; i++) {
        double t0 = now();
        check();
        if (cut >= 0 && cut < V)
            V = cut;
        prepare();
        double t1 = now();
        clear_marks();
        mode[m].run();
        double t2 = now();
        if (!i || t2 - t1 < best)
            best = t2 - t1;
        if (!i || t1 - t0 < setup)
            setup = t1 - t0;
        sum += t2 - t1;
    }
    int nmarked = 0;
    for (int f = 0; f < 2 * N; f++)
        nmarked += first[f] >= 0;
    print_grade(quiet);
    fprintf(stderr, "%s best_ns %.0f mean_ns %.0f setup_ns %.0f repeat %d vectors %d"
                    " node_faults_marked %d of %d",
            mode[m].name, best, sum / repeat, setup, repeat, V, nmarked, 2 * N);
    if (mode[m].run == run_full || mode[m].run == run_stopped)
        tell_walked(mode[m].run == run_full);
    fputc('\n', stderr);
#ifdef STATS
    fprintf(stderr, "stems %.1f events %.1f evals %.1f per repeat\n",
            (double)nstems / repeat, (double)nevents / repeat, (double)nevals / repeat);
#endif
    return 0;
}
