/* Takes questions from standard input through the calls of include/kaukslini.h, in guarded memory, and writes the answers to
 * standard output, and to standard error how many bytes of stack a call took at most; it is compiled as C99 and as C++17.
 *
 * A question: a byte, `n` for the normal text, `v` for a value, `h` for the heading, `e` to explain a place; the place (0 but for
 * `e`); of each slice its length and its bytes: the text, kind, name and path (empty but for `v`); the output's length. An answer:
 * the members of the struct, and the whole output afterwards. Numbers have 8 bytes, the least first.
 *
 * Each slice ends at a page that traps in the first of two rounds and begins after one in the second; the bytes beside it are
 * compared before and after. What is lent for reading is read-only. A slice of length 0 is lent as NULL in the second round. The
 * calls are made on a thread whose stack has KAUKSLINI_STACK bytes for them, above a page that traps.
 */
#define _DEFAULT_SOURCE
#include "kaukslini.h"
#include <pthread.h>
#include <stdio.h>
#include <stdlib.h>
#include <string.h>
#include <sys/mman.h>

enum { SLICES = 5, OUTPUT = SLICES - 1, MOST = 1 << 18, GUARD = 1 << 16, BESIDE = 1 << 12, NOISE = 0xa5 };
enum { OWN_STACK = 1 << 16, STACK = KAUKSLINI_STACK + OWN_STACK, TOLD = 6 };

/* Memory between two guards, and the part of it that is lent. */
struct region {
    uint8_t *memory;
    uint8_t *lent;
    size_t length;
};

static struct region regions[SLICES];
static uint8_t bytes[SLICES][MOST];
static size_t lengths[SLICES];
static size_t place;

/* The stack, filled with noise before the calls, and where the calls begin on it. */
static uint8_t *stack;
static const uint8_t *calls_from;

static void fail(const char *what)
{
    fprintf(stderr, "%s\n", what);
    exit(3);
}

static void protect(struct region *region, int how)
{
    if (mprotect(region->memory, MOST, how) != 0)
        fail("mprotect");
}

/* Memory between two guards; it traps too. */
static uint8_t *map(size_t length)
{
    uint8_t *all = (uint8_t *)mmap(NULL, length + 2 * GUARD, PROT_NONE, MAP_PRIVATE | MAP_ANONYMOUS, -1, 0);

    if ((void *)all == MAP_FAILED)
        fail("mmap");
    return all + GUARD;
}

/* Whether the next byte of the input is there; it is read then. */
static int take(uint8_t *to, size_t count)
{
    return fread(to, 1, count, stdin) == count;
}

static size_t take_number(void)
{
    uint8_t cells[8];
    size_t number = 0, i;

    if (!take(cells, sizeof cells))
        fail("the question ends early");
    for (i = sizeof cells; i > 0; i--)
        number = number << 8 | cells[i - 1];
    return number;
}

static void give(const uint8_t *from, size_t count)
{
    if (fwrite(from, 1, count, stdout) != count)
        fail("cannot write");
}

static void give_number(size_t number)
{
    uint8_t cells[8];
    size_t i;

    for (i = 0; i < sizeof cells; i++) {
        cells[i] = (uint8_t)(number & 0xff);
        number >>= 8;
    }
    give(cells, sizeof cells);
}

/* The bytes beside what is lent, as many as are looked at. */
static uint8_t *beside(const struct region *region, int round, size_t *count)
{
    size_t left = MOST - region->length;

    *count = left < BESIDE ? left : (size_t)BESIDE;
    return round == 0 ? region->memory + (left - *count) : region->memory + region->length;
}

static void lend(size_t slice, int round)
{
    struct region *region = &regions[slice];
    uint8_t *canary;
    size_t count;

    protect(region, PROT_READ | PROT_WRITE);
    region->length = lengths[slice];
    canary = beside(region, round, &count);
    memset(canary, NOISE, count);
    region->lent = round == 0 ? region->memory + (MOST - region->length) : region->memory;
    memcpy(region->lent, bytes[slice], region->length);
    if (slice != OUTPUT)
        protect(region, PROT_READ);
    if (round != 0 && region->length == 0)
        region->lent = NULL;
}

static void check_beside(const struct region *region, int round)
{
    size_t count, i;
    const uint8_t *canary = beside(region, round, &count);

    for (i = 0; i < count; i++)
        if (canary[i] != NOISE)
            fail("a byte beside the output was changed");
}

/* What a call tells: the members of its struct, one after the other. */
static size_t ask(int which, size_t *told)
{
    const struct region *r = regions;
    struct kaukslini_answer answer;
    struct kaukslini_version_and_name heading;
    struct kaukslini_position position;

    calls_from = (const uint8_t *)__builtin_frame_address(0);
    switch (which) {
    case 'h':
        heading = kaukslini_heading(r[0].lent, r[0].length);
        memcpy(told, &heading, sizeof heading);
        return sizeof heading / sizeof *told;
    case 'e':
        position = kaukslini_explain(r[0].lent, r[0].length, place, r[OUTPUT].lent, r[OUTPUT].length);
        memcpy(told, &position, sizeof position);
        return sizeof position / sizeof *told;
    case 'n':
        answer = kaukslini_normal_text(r[0].lent, r[0].length, r[OUTPUT].lent, r[OUTPUT].length);
        break;
    default:
        answer = kaukslini_value(r[0].lent, r[0].length, r[1].lent, r[1].length, r[2].lent, r[2].length, r[3].lent, r[3].length,
                                 r[OUTPUT].lent, r[OUTPUT].length);
    }
    memcpy(told, &answer, sizeof answer);
    return sizeof answer / sizeof *told;
}

/* How many bytes of the output a call is to have written. */
static size_t written(int which, const size_t *told)
{
    if (which == 'h' || (which != 'e' && told[0] != KAUKSLINI_DONE))
        return 0;
    return told[2] < lengths[OUTPUT] ? told[2] : lengths[OUTPUT];
}

static void answer(int which)
{
    size_t first[TOLD], second[TOLD], slice, count, i;

    for (slice = 0; slice < SLICES; slice++)
        lend(slice, 0);
    count = ask(which, first);
    check_beside(&regions[OUTPUT], 0);
    for (i = 0; i < count; i++)
        give_number(first[i]);
    give(regions[OUTPUT].lent, lengths[OUTPUT]);
    memcpy(bytes[OUTPUT], regions[OUTPUT].lent, lengths[OUTPUT]);
    for (slice = 0; slice < SLICES; slice++)
        lend(slice, 1);
    memset(regions[OUTPUT].memory, NOISE, written(which, first));
    ask(which, second);
    check_beside(&regions[OUTPUT], 1);
    if (memcmp(first, second, count * sizeof *first) != 0)
        fail("the second round has another answer");
    if (memcmp(regions[OUTPUT].memory, bytes[OUTPUT], lengths[OUTPUT]) != 0)
        fail("the second round has another output");
}

static void *answer_all(void *nothing)
{
    size_t slice;
    uint8_t which;

    while (take(&which, 1)) {
        place = take_number();
        for (slice = 0; slice < SLICES; slice++) {
            lengths[slice] = take_number();
            if (lengths[slice] > MOST)
                fail("a slice is too long");
            if (slice == OUTPUT)
                memset(bytes[slice], 0x5a, lengths[slice]);
            else if (!take(bytes[slice], lengths[slice]))
                fail("the question ends early");
        }
        answer(which);
    }
    return nothing;
}

int main(void)
{
    pthread_attr_t attributes;
    pthread_t thread;
    size_t slice, untouched = 0;

    for (slice = 0; slice < SLICES; slice++)
        regions[slice].memory = map(MOST);
    stack = map(STACK);
    if (mprotect(stack, STACK, PROT_READ | PROT_WRITE) != 0)
        fail("mprotect");
    memset(stack, NOISE, STACK);
    if (pthread_attr_init(&attributes) != 0 || pthread_attr_setstack(&attributes, stack, STACK) != 0)
        fail("no stack");
    if (pthread_create(&thread, &attributes, answer_all, NULL) != 0 || pthread_join(thread, NULL) != 0)
        fail("no thread");
    while (untouched < STACK && stack[untouched] == NOISE)
        untouched++;
    if (calls_from != NULL)
        fprintf(stderr, "stack %lu\n", (unsigned long)(calls_from - (stack + untouched)));
    return 0;
}
