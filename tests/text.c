/* text.c: the program cardgrade against brute force, byte for byte, on generated inputs.
 *
 *   text PROGRAM [SEED]    feeds the program through a pipe, in pieces of any length
 *   text --print           brute force's text for standard input
 */
#define _GNU_SOURCE
#include "brute.h"
#include "gen.h"

#include <errno.h>
#include <signal.h>
#include <spawn.h>
#include <stdio.h>
#include <stdlib.h>
#include <string.h>
#include <sys/wait.h>
#include <time.h>
#include <unistd.h>

enum { INPUTS = 2200, FRESH_INPUTS = 300, LIMIT_INPUTS = 36, MAX_VECTOR_WORDS = 16384 };
enum { ROOM = 4 + 4 * GEN_CARD_ROOM + 4 * GEN_VECTOR_ROOM + 8 };

static struct input in;
static uint8_t bytes[ROOM];
static size_t len;
static char want[BRUTE_TEXT], got[BRUTE_TEXT];

static struct {
    unsigned inputs, graded, refused, cut, overlong, differ;
} total;

/* ---- one run of the program ---- */

extern char **environ;

static pid_t start(const char *program, int from, int other_end, int to)
{
    posix_spawn_file_actions_t moves;
    char *args[] = { (char *)program, NULL };
    pid_t pid;
    posix_spawn_file_actions_init(&moves);
    posix_spawn_file_actions_adddup2(&moves, from, 0);
    posix_spawn_file_actions_adddup2(&moves, to, 1);
    posix_spawn_file_actions_addclose(&moves, from);
    posix_spawn_file_actions_addclose(&moves, other_end);
    if (posix_spawn(&pid, program, &moves, NULL, args, environ)) {
        fprintf(stderr, "text: %s does not start\n", program);
        exit(1);
    }
    posix_spawn_file_actions_destroy(&moves);
    return pid;
}

/* A program that has its answer may stop reading. */
static void feed(int pipe_end)
{
    size_t at = 0;
    unsigned piece = gen_chance(50) ? 100000 : 1 + gen_below(5000);
    while (at < len) {
        ssize_t n = write(pipe_end, bytes + at, len - at < piece ? len - at : piece);
        if (n < 0 && errno != EINTR)
            return;
        at += n > 0 ? (size_t)n : 0;
    }
}

/* The output's length; -1 where the program did not end well. */
static long run(const char *program, FILE *output)
{
    int ends[2], status;
    pid_t pid;
    if (ftruncate(fileno(output), 0) || lseek(fileno(output), 0, SEEK_SET) < 0 || pipe(ends))
        return -1;
    pid = start(program, ends[0], ends[1], fileno(output));
    close(ends[0]);
    feed(ends[1]);
    close(ends[1]);
    if (waitpid(pid, &status, 0) != pid || !WIFEXITED(status) || WEXITSTATUS(status))
        return -1;
    return (long)pread(fileno(output), got, sizeof got, 0);
}

static void count_text(void)
{
    total.inputs++;
    total.graded += want[0] == 'c';
    total.refused += want[0] == 'r';
    total.cut += want[0] == 's';
    total.overlong += want[0] == 'l';
}

static void compare(const char *program, FILE *output)
{
    size_t want_len = brute_text(bytes, len, want);
    long got_len = run(program, output);
    count_text();
    if (got_len == (long)want_len && !memcmp(got, want, want_len))
        return;
    total.differ++;
    if (total.differ <= 5)
        printf("DIFFERENCE: input %u of %zu bytes, first words %02X%02X%02X%02X; expected %zu bytes: %.40s; program %ld bytes: %.*s\n",
               total.inputs, len, bytes[0], bytes[1], bytes[2], bytes[3], want_len, want, got_len,
               got_len < 0 ? 0 : got_len < 40 ? (int)got_len : 40, got);
}

/* ---- the inputs ---- */

/* The count, the card and the vectors as they are meant. */
static void assemble(uint32_t count)
{
    len = gen_bytes(&count, 1, 0, bytes);
    len += gen_bytes(in.card, in.card_words, in.card_odd, bytes + len);
    len += gen_bytes(in.vectors, in.vector_words, in.vectors_odd, bytes + len);
}

static uint32_t pick_count(void)
{
    static const uint32_t odd[] = { 0, 1, 9215, 9216, 9217, 9218, 65536, 0x80000000, 0xFFFFFFFF };
    uint32_t n = (uint32_t)in.card_words;
    if (gen_chance(85))
        return n;
    return gen_chance(50) ? odd[gen_below(9)] : n - 2 + gen_below(5);
}

/* Vector words around the limit of the program. */
static void pick_vectors(void)
{
    static const unsigned lengths[] = { 0, 1, 1, 2, 3, 5, 9, 30 };
    unsigned w = (in.inputs + 15) / 16;
    if (gen_chance(97)) {
        gen_vectors(&in, lengths[gen_below(8)]);
        return;
    }
    gen_vectors(&in, MAX_VECTOR_WORDS / w + gen_below(3));
    in.vectors_odd = gen_chance(30) ? 1 + gen_below(3) : 0;
}

static void small_input(void)
{
    gen_small_card(&in, 20);
    pick_vectors();
    if (gen_chance(25))
        gen_spoil_card(&in);
    if (gen_chance(15))
        gen_spoil_vectors(&in);
    assemble(pick_count());
    if (gen_chance(8))
        len = gen_below((uint32_t)len + 1);
    if (gen_chance(3))
        len = gen_below(6);
}

static void limit_input(unsigned number)
{
    gen_limit_card(&in, number);
    gen_vectors(&in, gen_below(3));
    assemble((uint32_t)in.card_words);
}

static void all_inputs(const char *program, FILE *output, uint64_t seed, unsigned small, unsigned limits)
{
    gen_seed(seed);
    for (unsigned i = 0; i < small; i++) {
        small_input();
        compare(program, output);
    }
    for (unsigned i = 0; i < limits; i++) {
        limit_input(i);
        compare(program, output);
    }
}

/* ---- fixed inputs ---- */

static const uint32_t card_s[] = { 0,          0x20000001, 0x60000000, 0x80000001, 0x40000002,
                                   0x60000001, 0x80000003, 0x60000000, 0x80000001 };

/* A count, so many words of card S, so many vectors A0000000 and one last vector word, leftover bytes. */
static const struct fixed {
    uint32_t count, words, vectors, last;
    unsigned odd;
    const char *want;
} fixed_inputs[] = {
    { 9, 9, 1, 0xA0000001, 0, /* document 01's own lines, the last one document 02's */
      "card 1 3 3 12\n0 1 1\n1 - 0\n2 1 1\n3 - 0\n4 1 1\n5 - 0\n6 1 1\n7 0 1\n8 1 1\n9 - 0\n10 1 1\n11 0 1\ngrade 7 10\n" },
    { 9, 9, 0, 0, 0, /* no vectors */
      "card 1 3 3 12\n0 - 0\n1 - 0\n2 - 0\n3 - 0\n4 - 0\n5 - 0\n6 - 0\n7 - 0\n8 - 0\n9 - 0\n10 - 0\n11 - 0\ngrade 0 10\n" },
    { 9, 9, 16384, 0, 0,
      "card 1 3 3 12\n0 - 0\n1 - 0\n2 - 0\n3 - 0\n4 - 0\n5 - 0\n6 - 0\n7 0 16384\n8 - 0\n9 - 0\n10 - 0\n11 0 16384\ngrade 2 10\n" },
    { 9, 9, 16385, 0, 0, "long\n" },
    { 9, 9, 16385, 0, 3, "long\n" },
    { 9, 9, 16384, 0, 1, "short\n" },
    { 9, 9, 16384, 0x60000000, 0, "long\n" },
    { 9, 9, 16383, 0x60000000, 0, "refused 10 16383\n" },
    { 9, 9, 0, 0x60000000, 0, "refused 10 0\n" },
    { 9, 9, 1, 0xA0000002, 0, "refused 10 1\n" },
    { 9, 9, 1, 0xA0000002, 2, "short\n" },
    { 9, 9, 0, 0, 1, "short\n" },
    { 9, 8, 0, 0, 0, "short\n" },
    { 9, 8, 0, 0, 3, "short\n" },
    { 9, 0, 0, 0, 0, "short\n" },
    { 9216, 9, 0, 0, 0, "short\n" },
    { 9217, 0, 0, 0, 0, "refused 1 0\n" },
    { 9217, 9, 0, 0, 1, "refused 1 0\n" },
    { 9217, 9, 16400, 0, 0, "refused 1 0\n" },
    { 0xFFFFFFFF, 9, 1, 0, 3, "refused 1 0\n" },
    { 0x40000001, 9, 0, 0, 0, "refused 1 0\n" }, /* 4 times the count is 4 in 32 bits */
    { 0, 0, 0, 0, 0, "refused 9 0\n" },
    { 0, 9, 0, 0, 0, "refused 9 0\n" },
    { 0, 0, 16385, 0, 0, "long\n" },
    { 0, 0, 0, 0, 2, "short\n" },
    { 4, 9, 0, 0, 0, "refused 9 4\n" },
    { 8, 9, 0, 0, 0, "refused 4 8\n" },
    { 10, 9, 1, 0, 0, "refused 4 9\n" }, /* the vector taken for a header */
};

static void assemble_fixed(const struct fixed *f)
{
    static uint32_t list[16500];
    uint32_t n = 0;
    for (; n < f->vectors; n++)
        list[n] = 0xA0000000;
    if (f->last)
        list[n++] = f->last;
    len = gen_bytes(&f->count, 1, 0, bytes);
    len += gen_bytes(card_s, f->words, 0, bytes + len);
    len += gen_bytes(list, n, f->odd, bytes + len);
}

/* Which graphs count, by the last line: a card, and A0000000 and A0000001 as its vectors. The marked count alone does not tell
 * a graph of which no fault is caught. tests/cases.c has marks and tallies of such cards. */
static const struct stems {
    uint32_t words[16], count;
    const char *want;
} stem_inputs[] = {
    /* card S: the hidden graph is left out, the input has two readers */
    { { 0, 0x20000001, 0x60000000, 0x80000001, 0x40000002, 0x60000001, 0x80000003, 0x60000000, 0x80000001 }, 9, "grade 7 10\n" },
    /* the hidden graph is read by two nodes of one graph: it counts, and the input does not */
    { { 0, 0x20000001, 0x60000000, 0x80000001, 0x40000002, 0x60000001, 0x80000003, 0x60000001, 0x80000001 }, 9, "grade 8 10\n" },
    /* nobody reads the hidden graph: it counts, and its node is a reader of the input, which counts too */
    { { 0, 0x20000001, 0x60000000, 0x80000001, 0x40000001, 0x60000000, 0x80000001 }, 7, "grade 6 10\n" },
    /* an input that nobody reads, beside one with one reader */
    { { 0, 0, 0x40000001, 0x60000000, 0x80000001 }, 5, "grade 4 6\n" },
    /* one reader, of which nothing is seen: the hidden graph 2 is left out all the same */
    { { 0, 0x40000001, 0x60000000, 0x80000001, 0x20000001, 0x60000000, 0x80000001, 0x20000001, 0x60000002, 0x80000001 }, 10, "grade 6 12\n" },
    /* one reader, with equal exits: the input is left out all the same */
    { { 0, 0x40000001, 0x60000000, 0x80004001 }, 4, "grade 1 4\n" },
    /* an observable graph with one reader counts */
    { { 0, 0, 0x40000001, 0x60000000, 0x80000001, 0x40000002, 0x60000002, 0x80000003, 0x60000001, 0x80000001 }, 10, "grade 6 10\n" },
    /* an input with one reader, and nothing else */
    { { 0, 0x40000001, 0x60000000, 0x80000001 }, 4, "grade 4 4\n" },
    /* a chain of leads: the input and three hidden graphs are left out */
    { { 0, 0x20000001, 0x60000000, 0x80000001, 0x20000001, 0x60000001, 0x80004000, 0x20000001, 0x60000002, 0x80000001, 0x40000001, 0x60000003,
        0x80000001 }, 13, "grade 10 10\n" },
    /* three inputs and a hidden graph, all left out */
    { { 0, 0, 0, 0x20000002, 0x60000000, 0x80000003, 0x60000001, 0x80000001, 0x40000001, 0x60000003, 0x80000001, 0x40000001, 0x60000002,
        0x80004000 }, 14, "grade 5 12\n" },
};

/* The last line of brute force's text, which is the program's too, is what stands here. */
static void expect_last_line(const char *program, FILE *output, const struct stems *s)
{
    static const uint32_t both[] = { 0xA0000000, 0xA0000001 };
    size_t n = strlen(s->want), at;
    len = gen_bytes(&s->count, 1, 0, bytes);
    len += gen_bytes(s->words, s->count, 0, bytes + len);
    len += gen_bytes(both, 2, 0, bytes + len);
    compare(program, output);
    at = brute_text(bytes, len, want);
    if (at < n || memcmp(want + at - n, s->want, n)) {
        printf("DIFFERENCE: last line %u, expected %s", total.inputs, s->want);
        total.differ++;
    }
}

/* The program gives brute force's text, and both are what stands here. */
static void expect(const char *program, FILE *output, const char *text)
{
    compare(program, output);
    if (strlen(text) != brute_text(bytes, len, want) || memcmp(want, text, strlen(text))) {
        printf("DIFFERENCE: fixed input %u, expected %.40s, brute force %.40s\n", total.inputs, text, want);
        total.differ++;
    }
}

static void run_fixed(const char *program, FILE *output)
{
    for (size_t i = 0; i < sizeof fixed_inputs / sizeof *fixed_inputs; i++) {
        assemble_fixed(fixed_inputs + i);
        expect(program, output, fixed_inputs[i].want);
    }
    for (size_t i = 0; i < sizeof stem_inputs / sizeof *stem_inputs; i++)
        expect_last_line(program, output, stem_inputs + i);
    for (unsigned n = 0; n < 4; n++) {
        memset(bytes, 0xFF, n);
        len = n;
        expect(program, output, "short\n");
    }
}

static int print_text(void)
{
    len = fread(bytes, 1, sizeof bytes, stdin);
    fwrite(want, 1, brute_text(bytes, len, want), stdout);
    return 0;
}

int main(int argc, char **argv)
{
    FILE *output = tmpfile();
    uint64_t fresh = argc > 2 ? strtoull(argv[2], NULL, 10) : (uint64_t)time(NULL);
    if (argc < 2 || !output)
        return 2;
    if (!strcmp(argv[1], "--print"))
        return print_text();
    signal(SIGPIPE, SIG_IGN);
    run_fixed(argv[1], output);
    all_inputs(argv[1], output, 4, INPUTS, LIMIT_INPUTS);
    printf("text: fresh seed %llu\n", (unsigned long long)fresh);
    all_inputs(argv[1], output, fresh, FRESH_INPUTS, 0);
    printf("text: %u inputs: %u graded, %u refused, %u short, %u long; %u differ\n", total.inputs, total.graded,
           total.refused, total.cut, total.overlong, total.differ);
    fclose(output);
    return total.differ || total.inputs < 2000 || !total.graded || !total.refused || !total.cut || !total.overlong;
}
