/* The changeover as C programs call it: every cell that it fills, its refusals, which write no new cell, old tables that may only be read, a
   quote and a report that go on where they were, and the stack that it takes. With the word `time` it says how long it takes instead. */
#define _DEFAULT_SOURCE
#include <stdio.h>
#include <string.h>
#include <sys/mman.h>
#include <time.h>
#include <ucontext.h>

#include "tariff.h"

_Static_assert(sizeof(struct tariff_old_store) == 68496, "an old store's bytes, as published");

enum { OWNERS = 8, TIE_NUMBERS = 264, SUBTYPE_NUMBERS = 520, LOADS = 776, GROUPS = 937 };

static int checked = 0;
static int wrong = 0;

static void check(const char *what, int good)
{
    checked++;
    if (!good) {
        wrong++;
        printf("changeover: wrong: %s\n", what);
    }
}

static struct tariff_old_store *old; /* on pages of its own */
static struct tariff_store new, before;
static uint32_t answer[TARIFF_ANSWER];

static void may_write(int may)
{
    if (mprotect(old, sizeof *old, may ? PROT_READ | PROT_WRITE : PROT_READ) != 0)
        check("pages", 0);
}

/* What the first document's boot leaves, then two objects, three ties of which the first two are joined, and two subtype constraints. */
static void make_old(void)
{
    static const uint16_t counts[] = {1, 0, 1, 3, 2, 2, 0, 0}, ties[] = {1, 2, 10, 2, 3, 10, 4, 5, 11}, subtypes[] = {1, 12, 13, 2, 14, 15};
    may_write(1);
    memset(old, 0, sizeof *old);
    memcpy(old->counts, counts, sizeof counts);
    memcpy(old->ties, ties, sizeof ties);
    memcpy(old->subtypes, subtypes, sizeof subtypes);
    old->cache[1] = 2;
    old->frames[TARIFF_FRAMES - 1] = 77; /* past the used rows */
}

/* The sixteen lengths, the old tables' first. */
enum { OLD = 0, NEW = 8, LENGTHS = 16 };
static const size_t published[LENGTHS] = {TARIFF_OLD_COUNTS, TARIFF_CLASSES, TARIFF_KEPT,     TARIFF_CACHE,
                                          TARIFF_TIES,       TARIFF_SUBTYPES, TARIFF_OBJECTS, TARIFF_FRAMES,
                                          TARIFF_COUNTS,     TARIFF_CLASSES, TARIFF_KEPT,     TARIFF_CACHE,
                                          TARIFF_TIES,       TARIFF_SUBTYPES, TARIFF_OBJECTS, TARIFF_FRAMES};
static size_t n[LENGTHS];

/* The call on a stack that was painted, so that the deepest byte it used shows. Promised are 96 KiB. */
enum { STACK = 1 << 18, PAINT = 0xA5, PROMISED = 96 * 1024 };
static _Alignas(64) uint8_t stack[STACK];
static size_t deepest = 0;
static ucontext_t here, there;
static unsigned returned;

static void call(void)
{
    returned = tariff_change_over(old->counts, n[OLD], old->classes, n[OLD + 1], old->kept, n[OLD + 2], old->cache, n[OLD + 3],
                                  old->ties, n[OLD + 4], old->subtypes, n[OLD + 5], old->objects, n[OLD + 6], old->frames, n[OLD + 7],
                                  new.counts, n[NEW], new.classes, n[NEW + 1], new.kept, n[NEW + 2], new.cache, n[NEW + 3],
                                  new.ties, n[NEW + 4], new.subtypes, n[NEW + 5], new.objects, n[NEW + 6], new.frames, n[NEW + 7],
                                  answer, TARIFF_ANSWER);
}

/* With these lengths; the new tables held anything. */
static unsigned change(void)
{
    may_write(0);
    memset(&new, 0xA5, sizeof new);
    before = new;
    memset(stack, PAINT, STACK);
    getcontext(&there);
    there.uc_stack.ss_sp = stack;
    there.uc_stack.ss_size = STACK;
    there.uc_link = &here;
    makecontext(&there, call, 0);
    swapcontext(&here, &there);
    size_t unused = 0;
    while (stack[unused] == PAINT)
        unused++;
    if (deepest < STACK - unused)
        deepest = STACK - unused;
    memcpy(n, published, sizeof n);
    return returned;
}

static void fills(const char *what)
{
    check(what, change() == 0 && answer[TARIFF_CELL_KIND] == TARIFF_ACCEPTED);
    int good = memcmp(new.counts, old->counts, sizeof old->counts) == 0;
    for (unsigned i = 0; i < 256; i++)
        good = good && new.counts[OWNERS + i] == 1 && new.counts[TIE_NUMBERS + i] == i && new.counts[SUBTYPE_NUMBERS + i] == old->counts[3] + i;
    for (unsigned i = LOADS; i < GROUPS; i++)
        good = good && new.counts[i] == 0;
    check(what, good);
    check(what, memcmp(new.classes, old->classes, sizeof old->classes) == 0 && memcmp(new.kept, old->kept, sizeof old->kept) == 0
                    && memcmp(new.cache, old->cache, sizeof old->cache) == 0 && memcmp(new.ties, old->ties, sizeof old->ties) == 0
                    && memcmp(new.subtypes, old->subtypes, sizeof old->subtypes) == 0
                    && memcmp(new.objects, old->objects, sizeof old->objects) == 0 && memcmp(new.frames, old->frames, sizeof old->frames) == 0);
}

static void refuses(const char *what)
{
    check(what, change() == TARIFF_BROKEN && answer[TARIFF_CELL_KIND] == TARIFF_DENIED && answer[TARIFF_CELL_WORD] == TARIFF_BROKEN);
    check(what, memcmp(&new, &before, sizeof new) == 0);
}

static void filling(void)
{
    static const uint16_t groups[] = {0, 0, 2, 0, 0};
    make_old();
    fills("constraints and objects");
    check("groups", memcmp(new.counts + GROUPS, groups, sizeof groups) == 0);
    check("no load to take back", tariff_take_back(TARIFF_LEND(&new), answer, TARIFF_ANSWER) == TARIFF_TOO_LATE);
    check("both objects are swept", tariff_sweep(TARIFF_LEND(&new), answer, TARIFF_ANSWER) == 0 && answer[TARIFF_CELL_ONE] == 2);
    make_old();
    memset(old->counts, 0, sizeof old->counts);
    fills("before any boot");
}

static void refusing(void)
{
    make_old();
    for (int i = 0; i < LENGTHS; i++) {
        n[i] -= 1;
        refuses("a table that is short by a cell");
        n[i] = 0;
        refuses("a table without cells");
    }
    may_write(1);
    old->counts[3] = 257;
    refuses("too many ties");
    make_old();
    old->ties[0] = 16;
    refuses("a tie of no loader");
    make_old();
    old->objects[0] = 1;
    refuses("an object of no class");
    make_old();
    old->counts[5] = 257;
    refuses("too many objects");
}

/* Class 10 below Object, without fields and methods, in a file of that version. */
static void versions(void)
{
    static const uint8_t file[] = {0, 0, 6, 0, 10, 0, 2, 0, 0};
    for (unsigned version = 1; version <= 4; version++) {
        make_old();
        memcpy(old->kept, file, sizeof file);
        old->kept[0] = (uint8_t)version;
        old->counts[0] = 2;
        old->counts[1] = sizeof file;
        old->classes[5] = sizeof file;
        if (version == 1)
            fills("a file of version 1");
        else
            refuses("a file of another version");
    }
}

/* Class 10 of loader 1, whose method 20 returns its int; a quote of it that has pushed 7, and a report that begins with 9. */
static void going_on(void)
{
    static const uint8_t file[] = {1, 0, 17, 0, 10, 0, 2, 0, 1, 0, 20, 0, 1, 0, 1, 0, 3, 0x15, 1, 0xAC};
    static const uint16_t counts[] = {2, sizeof file, 3, 0, 0, 2, 1, 1}, classes[] = {0, 0, 0, 1, 0, sizeof file},
                          cache[] = {0, 2, 0, 1, 2, 0, 1, 10, 1};
    uint32_t *quote = old->frames, *report = old->frames + 32 * 52;
    make_old();
    memcpy(old->counts, counts, sizeof counts);
    memcpy(old->classes, classes, sizeof classes);
    memcpy(old->kept, file, sizeof file);
    memcpy(old->cache, cache, sizeof cache);
    old->objects[0] = old->objects[33] = quote[0] = report[0] = 1;
    quote[2] = 2, quote[3] = 1;                      /* at the return, with an operand */
    quote[4] = 3, quote[6] = 1, quote[7] = 7;        /* this, its int */
    quote[20] = 1, quote[21] = 7;                    /* the operand */
    report[4] = 3, report[5] = 1, report[6] = 1, report[7] = 9;
    fills("a quote and a report half run");
    check("the quote ends", tariff_step(TARIFF_LEND(&new), answer, TARIFF_ANSWER) == 0 && answer[TARIFF_CELL_ONE] == TARIFF_FINISHED
                                && answer[TARIFF_CELL_TWO] == TARIFF_QUOTE && answer[TARIFF_CELL_THREE] == 7);
    check("then the report", tariff_run(TARIFF_LEND(&new), 9, answer, TARIFF_ANSWER) == 0 && answer[TARIFF_CELL_ONE] == TARIFF_FINISHED
                                 && answer[TARIFF_CELL_TWO] == TARIFF_REPORT && answer[TARIFF_CELL_THREE] == 9 && answer[TARIFF_CELL_STEPS] == 1);
}

/* A store that is full of files, entries, constraints and objects, without frames: classes below Object, of one field each. */
static void fill_up(void)
{
    make_old();
    uint16_t *ties = old->ties, *subtypes = old->subtypes;
    for (unsigned c = 1; c < 64; c++) {
        const uint8_t file[] = {1, 0, 10, 0, (uint8_t)(10 + c), 0, 2, 1, 0, 5, 0, 1, 0};
        memcpy(old->kept + (c - 1) * sizeof file, file, sizeof file);
        old->classes[3 * c + 1] = (uint16_t)((c - 1) * sizeof file);
        old->classes[3 * c + 2] = sizeof file;
    }
    for (unsigned i = 1; i < 256; i++)
        old->cache[3 * i + 1] = (uint16_t)(i < 64 ? 10 + i : 1000 + i), old->cache[3 * i + 2] = (uint16_t)(i % 64);
    for (unsigned i = 0; i < 256; i++) {
        ties[3 * i] = i % 15, ties[3 * i + 1] = (uint16_t)(i % 15 + 1), ties[3 * i + 2] = (uint16_t)(10 + i / 15);
        subtypes[3 * i] = i % 16, subtypes[3 * i + 1] = (uint16_t)(10 + i / 16), subtypes[3 * i + 2] = (uint16_t)(30 + i / 16);
        old->objects[33 * i] = i % 63 + 1, old->objects[33 * i + 1] = 1;
    }
    static const uint16_t counts[] = {64, 63 * 13, 256, 256, 256, 256, 0, 0};
    memcpy(old->counts, counts, sizeof counts);
}

/* Microseconds a call, the best of some hundred rounds. */
static double best(void (*what)(void))
{
    double least = 1e9;
    for (int round = 0; round < 300; round++) {
        struct timespec from, to;
        clock_gettime(CLOCK_MONOTONIC, &from);
        for (int i = 0; i < 10; i++)
            what();
        clock_gettime(CLOCK_MONOTONIC, &to);
        double took = ((to.tv_sec - from.tv_sec) * 1e6 + (to.tv_nsec - from.tv_nsec) / 1e3) / 10;
        least = took < least ? took : least;
    }
    return least;
}

static void idle(void) { tariff_step(TARIFF_LEND(&new), answer, TARIFF_ANSWER); }

static void copy(void)
{
    memcpy(&before, &new, sizeof new);
    __asm__ volatile("" : : "r"(&before) : "memory");
}

static int say_time(void)
{
    fill_up();
    fills("a full store");
    double changed = best(call), stepped = best(idle), copied = best(copy);
    printf("changeover: a full store %.1f us; an idle step on it %.1f us, a copy %.1f us\n", changed, stepped, copied);
    return wrong;
}

int main(int count, char **words)
{
    memcpy(n, published, sizeof n);
    old = mmap(NULL, sizeof *old, PROT_READ | PROT_WRITE, MAP_PRIVATE | MAP_ANONYMOUS, -1, 0);
    if (old == MAP_FAILED) {
        perror("changeover");
        return 2;
    }
    if (1 < count && strcmp(words[1], "time") == 0)
        return say_time();
    filling();
    refusing();
    versions();
    going_on();
    fill_up();
    fills("a full store");
    printf("changeover: bytes of stack: %zu\n", deepest);
    check("the stack is measured, and as promised", 0 < deepest && deepest <= PROMISED);
    printf("changeover: %d checks, %d wrong\n", checked, wrong);
    return wrong == 0 && 0 < checked ? 0 : 1;
}
