// The calls kaukslini_read, kaukslini_write, kaukslini_heading_cells, kaukslini_check_masks, kaukslini_plan_masks, kaukslini_compare,
// kaukslini_check_standard, kaukslini_expected, kaukslini_expand, kaukslini_read_texts, kaukslini_write_texts, kaukslini_mend_texts and those
// of kaukslini.h on each text of standard input, in guarded memory, and checks of what is promised of the lent memory and of the answer, whatever the text is.
// docs/ROBUSTNESS.md says what is checked.
//
//   harness [FOLDER]      the texts of standard input, as robust_texts writes them; a text that fails is saved in FOLDER
//   harness --self-test   faults are planted around the calls; each must be reported
//
// Compiled with -DMEMCHECK it is to be run under valgrind, without it with -fsanitize=address,undefined.

#define _GNU_SOURCE
#include "../../include/kaukslini.h"
#include <errno.h>
#include <inttypes.h>
#include <signal.h>
#include <stdarg.h>
#include <stdbool.h>
#include <stdint.h>
#include <stdio.h>
#include <stdlib.h>
#include <string.h>
#include <sys/mman.h>
#include <sys/time.h>
#include <sys/wait.h>
#include <unistd.h>

#ifdef MEMCHECK
#include <valgrind/memcheck.h>
#else
#include <sanitizer/asan_interface.h>
#endif

// The planted faults are not instrumented, as the library is not.
#define NOT_INSTRUMENTED __attribute__((noinline, no_sanitize("address", "undefined")))

uint8_t kaukslini_read(const uint8_t *text, size_t text_length, size_t *definitions, size_t definitions_length, size_t *enumerators,
                       size_t enumerators_length, size_t *objects, size_t objects_length, size_t *values, size_t values_length,
                       size_t *told, size_t told_length);

uint8_t kaukslini_write(const uint8_t *text, size_t text_length, size_t *definitions, size_t definitions_length, size_t *enumerators,
                        size_t enumerators_length, size_t *objects, size_t objects_length, size_t *values, size_t values_length,
                        uint8_t *output, size_t output_length, size_t *told, size_t told_length);

uint8_t kaukslini_heading_cells(const uint8_t *text, size_t text_length, size_t *told, size_t told_length);

uint8_t kaukslini_check_masks(const uint8_t *text, size_t text_length, const uint64_t *masks, size_t masks_length, size_t *told, size_t told_length);

uint8_t kaukslini_plan_masks(const uint8_t *text, size_t text_length, uint64_t *masks, size_t masks_length, size_t *told, size_t told_length);

// A difference by rows, each one more than the row or 0; which text is refused, with number and place, and the number of differences.
struct difference {
    size_t first_object, second_object, first_value, second_value;
};

struct compared {
    size_t which, number, place, total;
};

struct compared kaukslini_compare(const uint8_t *first, size_t first_length, const uint8_t *second, size_t second_length, struct difference *list,
                                  size_t list_length);
uint8_t kaukslini_check_standard(const uint8_t *text, size_t text_length, size_t *told, size_t told_length);

bool kaukslini_expected(const uint8_t *text, size_t text_length, size_t place, size_t flag);

size_t kaukslini_expand(const uint8_t *buffer, size_t buffer_length, const size_t *lengths, size_t lengths_length, uint8_t *expanded,
                        size_t expanded_length, size_t *origins, size_t origins_length, size_t *told, size_t told_length);

uint8_t kaukslini_read_texts(const uint8_t *buffer, size_t buffer_length, const size_t *lengths, size_t lengths_length, uint8_t *expanded,
                             size_t expanded_length, size_t *origins, size_t origins_length, size_t *definitions, size_t definitions_length,
                             size_t *enumerators, size_t enumerators_length, size_t *objects, size_t objects_length, size_t *values,
                             size_t values_length, size_t *told, size_t told_length);

// What is told of a writing over lent texts.
struct set_written {
    size_t number, place, length;
};

uint8_t kaukslini_mend_texts(const uint8_t *buffer, size_t buffer_length, const size_t *lengths, size_t lengths_length, uint8_t *expanded,
                             size_t expanded_length, size_t *origins, size_t origins_length, uint8_t *output, size_t output_length,
                             uint8_t *lines, size_t lines_length, size_t *told, size_t told_length);

struct set_written kaukslini_write_texts(const uint8_t *buffer, size_t buffer_length, const size_t *lengths, size_t lengths_length,
                                         uint8_t *expanded, size_t expanded_length, size_t *origins, size_t origins_length,
                                         size_t *definitions, size_t definitions_length, size_t *enumerators, size_t enumerators_length,
                                         size_t *objects, size_t objects_length, size_t *values, size_t values_length, uint8_t *output,
                                         size_t output_length);

// ---- The rooms, as docs/TABLES.md fixes them ----

enum { DEFINITIONS, ENUMERATORS, OBJECTS, VALUES, TABLES };

static const char *const NAMES[TABLES] = {"definitions", "enumerators", "objects", "values"};
static const size_t ROWS[TABLES] = {512, 1024, 256, 2048};
static const size_t WIDTHS[TABLES] = {13, 3, 8, 9};

#define MOST_PARTS ((size_t)512)     // of all objects
#define CELL sizeof(size_t)
#define LONGEST_TEXT ((size_t)65535) // that is not refused for its length
#define TOLD_BY_READ ((size_t)18)    // the place, four sizes, thirteen counts
#define TOLD_BY_WRITE ((size_t)2)    // the place, the length of the normal text
#define TOLD_BY_HEADING ((size_t)4)  // place and length of the version and of the name; or the place of the refusal
#define TOLD_OF_MASKS ((size_t)2)    // number and place of the refusal; or the event or the number of events, and 0
#define COUNT_OF_EVENTS ((size_t)12) // the cell of what `read` tells
#define MOST_TOLD ((size_t)21)
#define MOST_RECORDS ((size_t)64)    // that are listed
#define MOST_ENTRIES ((size_t)101)   // of a lent list
#define USUAL_OUTPUT ((size_t)65535)
#define PAST ((size_t)40)            // cells past the room of a longer table
#define TOLD_BY_MEND ((size_t)3)     // the place of the refusal, the lengths of the mended text and of the lines
#define TOLD_BY_EXPAND ((size_t)2)   // the place of the fault, the length of the expanded text
#define MOST_LENGTHS ((size_t)18)    // told for lent texts
#define TEXT_STEP ((size_t)65536)    // a place is the text's number times this, and the byte

enum { LAST_NUMBER = 24, TABLES_TOO_SHORT = 1, TEXT_TOO_LONG = 2, OUTPUT_TOO_SHORT = 20 };

// Whether no refusal has this number any more.
static bool is_retired(unsigned number) {
    return number == 10 || number == 12;
}

static size_t room(int table) {
    return ROWS[table] * WIDTHS[table] * CELL;
}

// ---- Guarded memory ----

// How the library sees lent memory.
enum view { WRITABLE, READ_ONLY, VIEWS };

// Memory that is mapped three times: between guards that trap, once writable and once read-only, and for the harness itself. A part of it is
// lent by one of the two views: it ends at the guard after it, or begins at the one before it.
struct region {
    const char *name;
    unsigned char *own, *views[VIEWS];
    enum view view;
    size_t size;
    size_t start, length; // the lent part
};

enum side { ENDS_AT_GUARD, BEGINS_AT_GUARD };

#define GUARD ((size_t)1 << 20)
#define TEXT_SIZE ((size_t)1 << 17)
#define OUTPUT_SIZE ((size_t)1 << 16)
// No normal text is longer: at most 2,048 lines whose words are of the text, besides the implementation and the objects.
#define LONG_OUTPUT_SIZE ((size_t)144 << 20)
// How much memory beside the lent part is a canary: all of it but for a long output, and for the text, which is read-only.
#define BESIDE ((size_t)1 << 16)

static struct region text, tables[TABLES], usual_output, long_output, told, masks, second, list, buffer, lengths, expanded, origins, lines;
static struct region *output = &usual_output;

#define NOISE ((size_t)1 << 18)
static uint64_t noise[NOISE / sizeof(uint64_t)];
static const unsigned char zeros[2048 * 9 * sizeof(size_t)];

static void stop(const char *what) {
    fprintf(stderr, "harness: %s: %s\n", what, strerror(errno));
    exit(2);
}

static void *map(void *at, size_t size, int protection, int flags, int file) {
    void *mapped = mmap(at, size, protection, flags, file, 0);
    if (mapped == MAP_FAILED)
        stop("mmap");
    return mapped;
}

static struct region new_region(const char *name, size_t size) {
    struct region region = {.name = name, .size = size};
    int file = memfd_create(name, 0);
    if (file < 0 || ftruncate(file, (off_t)size) != 0)
        stop("memfd_create");
    region.own = map(NULL, size, PROT_READ | PROT_WRITE, MAP_SHARED, file);
    for (int view = 0; view < VIEWS; view++) {
        unsigned char *reserved = map(NULL, GUARD + size + GUARD, PROT_NONE, MAP_PRIVATE | MAP_ANONYMOUS | MAP_NORESERVE, -1);
        int protection = view == WRITABLE ? PROT_READ | PROT_WRITE : PROT_READ;
        region.views[view] = map(reserved + GUARD, size, protection, MAP_SHARED | MAP_FIXED, file);
    }
    close(file);
    return region;
}

static size_t pages(size_t length) {
    size_t page = (size_t)sysconf(_SC_PAGESIZE);
    return (length + page - 1) / page * page;
}

static void make_regions(void) {
    uint64_t state = 31;
    for (size_t i = 0; i < NOISE / sizeof(uint64_t); i++) {
        state += 0x9e3779b97f4a7c15;
        uint64_t mixed = (state ^ (state >> 30)) * 0xbf58476d1ce4e5b9;
        mixed = (mixed ^ (mixed >> 27)) * 0x94d049bb133111eb;
        noise[i] = mixed | 1; // no cell of noise is zero
    }
    text = new_region("text", TEXT_SIZE);
    text.view = READ_ONLY;
    for (int t = 0; t < TABLES; t++)
        tables[t] = new_region(NAMES[t], pages(room(t) + PAST * CELL));
    usual_output = new_region("output", OUTPUT_SIZE);
    long_output = new_region("output", LONG_OUTPUT_SIZE);
    lines = new_region("lines", OUTPUT_SIZE);
    told = new_region("told", pages(MOST_TOLD * CELL));
    masks = new_region("masks", pages((ROWS[OBJECTS] + PAST) * sizeof(uint64_t)));
    second = new_region("second text", TEXT_SIZE);
    second.view = READ_ONLY;
    list = new_region("list", pages(MOST_ENTRIES * sizeof(struct difference)));
    buffer = new_region("buffer", 2 * TEXT_SIZE);
    buffer.view = READ_ONLY;
    lengths = new_region("lengths", pages(MOST_LENGTHS * CELL));
    lengths.view = READ_ONLY;
    expanded = new_region("expanded text", pages(LONGEST_TEXT + PAST));
    origins = new_region("origins", pages((LONGEST_TEXT + PAST) * CELL));
}

static size_t least(size_t a, size_t b) {
    return a < b ? a : b;
}

static void lend(struct region *region, enum side side, size_t length) {
    region->length = length;
    region->start = side == ENDS_AT_GUARD ? region->size - length : 0;
}

// The lent part as the library sees it, and as the harness does.
static unsigned char *lent(const struct region *region) {
    return region->views[region->view] + region->start;
}

static unsigned char *here(const struct region *region) {
    return region->own + region->start;
}

static size_t canary_start(const struct region *region) {
    return region->start - least(region->start, BESIDE);
}

static size_t canary_end(const struct region *region) {
    size_t end = region->start + region->length;
    return end + least(region->size - end, BESIDE);
}

// Fills the lent part and the canary with noise.
static void fill(struct region *region) {
    size_t from = canary_start(region), to = canary_end(region);
    while (from < to) {
        size_t at = from % NOISE, length = least(NOISE - at, to - from);
        memcpy(region->own + from, (unsigned char *)noise + at, length);
        from += length;
    }
}

static bool is_noise(const struct region *region, size_t from, size_t to) {
    while (from < to) {
        size_t at = from % NOISE, length = least(NOISE - at, to - from);
        if (memcmp(region->own + from, (unsigned char *)noise + at, length) != 0)
            return false;
        from += length;
    }
    return true;
}

// Whether the lent part is noise from a place in it on.
static bool is_noise_from(const struct region *region, size_t place) {
    return is_noise(region, region->start + place, region->start + region->length);
}

static bool is_noise_beside(const struct region *region) {
    return is_noise(region, canary_start(region), region->start) &&
           is_noise(region, region->start + region->length, canary_end(region));
}

// ---- What valgrind and the address sanitizer are told of it ----

// In a call the memory beside the lent parts is shut, and lent memory that may be written holds nothing that may decide anything.
static void shut_for_call(const struct region *region, bool is_unset) {
    unsigned char *beside = region->views[region->view] + canary_start(region);
    size_t size = canary_end(region) - canary_start(region);
#ifdef MEMCHECK
    VALGRIND_MAKE_MEM_NOACCESS(beside, size);
    if (is_unset)
        VALGRIND_MAKE_MEM_UNDEFINED(lent(region), region->length);
    else
        VALGRIND_MAKE_MEM_DEFINED(lent(region), region->length);
#else
    (void)is_unset;
    ASAN_POISON_MEMORY_REGION(beside, size);
    ASAN_UNPOISON_MEMORY_REGION(lent(region), region->length);
#endif
}

// Whether the call has set the first bytes of a lent part; only valgrind can tell.
static bool is_set(const struct region *region, size_t length) {
#ifdef MEMCHECK
    return VALGRIND_CHECK_MEM_IS_DEFINED(lent(region), length) == 0;
#else
    (void)region, (void)length;
    return true;
#endif
}

static unsigned long memcheck_errors(void) {
#ifdef MEMCHECK
    return VALGRIND_COUNT_ERRORS;
#else
    return 0;
#endif
}

// ---- Reports ----

// What is being tried.
static struct {
    uint64_t index; // of the text
    char *sort, *name;
    enum side side;
    const char *call;
    bool is_known; // the answer, from how the text was made
    unsigned number;
    size_t place;
    unsigned char bytes[TEXT_SIZE];
    size_t length;
} now;

static const char *folder = NULL;
static uint64_t failures = 0, calls = 0;

enum { MOST_REPORTED = 20 };

static void save_text(void) {
    if (folder == NULL)
        return;
    char path[4096];
    snprintf(path, sizeof path, "%s/failed-%" PRIu64 ".oil", folder, now.index);
    FILE *file = fopen(path, "wb");
    if (file == NULL)
        stop(path);
    fwrite(now.bytes, 1, now.length, file);
    fclose(file);
}

// Reports that something does not hold; always false.
__attribute__((format(printf, 1, 2))) static bool fail(const char *format, ...) {
    failures++;
    if (failures > MOST_REPORTED)
        return false;
    fprintf(stderr, "FAILED: text %" PRIu64 ", %s, %s: lent memory %s at a guard, %s: ", now.index, now.sort, now.name,
            now.side == ENDS_AT_GUARD ? "ends" : "begins", now.call);
    va_list rest;
    va_start(rest, format);
    vfprintf(stderr, format, rest);
    va_end(rest);
    fputc('\n', stderr);
    save_text();
    return false;
}

static void trapped(int signal, siginfo_t *info, void *context) {
    (void)context;
    if (signal == SIGVTALRM) {
        fail("the call does not end in time");
        _exit(1);
    }
    const unsigned char *at = info->si_addr;
    struct region *all[] = {&text, &tables[0], &tables[1], &tables[2], &tables[3], &usual_output, &long_output,
                            &told, &masks, &second, &list, &buffer, &lengths, &expanded, &origins, &lines};
    for (size_t i = 0; i < sizeof all / sizeof *all; i++) {
        const unsigned char *start = all[i]->views[all[i]->view], *end = start + all[i]->size;
        if (at >= start - GUARD && at < start)
            fail("an access before the lent memory: %s", all[i]->name);
        else if (at >= end && at < end + GUARD)
            fail("an access past the lent memory: %s", all[i]->name);
        else if (at >= start && at < end)
            fail("a write to read-only memory: %s", all[i]->name);
    }
    if (failures == 0)
        fail("signal %d at %p", signal, info->si_addr);
    _exit(1);
}

static void catch_traps(void) {
    static unsigned char stack[1 << 16];
    stack_t other = {.ss_sp = stack, .ss_size = sizeof stack};
    struct sigaction action = {.sa_sigaction = trapped, .sa_flags = SA_SIGINFO | SA_ONSTACK};
    sigemptyset(&action.sa_mask);
    if (sigaltstack(&other, NULL) != 0)
        stop("sigaltstack");
    const int signals[] = {SIGSEGV, SIGBUS, SIGILL, SIGFPE, SIGVTALRM};
    for (size_t i = 0; i < sizeof signals / sizeof *signals; i++)
        if (sigaction(signals[i], &action, NULL) != 0)
            stop("sigaction");
}

// ---- The calls ----

struct slices {
    const uint8_t *text;
    size_t text_length;
    size_t *tables[TABLES];
    size_t lengths[TABLES];
    uint8_t *output;
    size_t output_length;
    size_t *told;
    size_t told_length;
};

static unsigned library_read(const struct slices *s) {
    return kaukslini_read(s->text, s->text_length, s->tables[0], s->lengths[0], s->tables[1], s->lengths[1], s->tables[2], s->lengths[2],
                          s->tables[3], s->lengths[3], s->told, s->told_length);
}

static unsigned library_write(const struct slices *s) {
    return kaukslini_write(s->text, s->text_length, s->tables[0], s->lengths[0], s->tables[1], s->lengths[1], s->tables[2], s->lengths[2],
                           s->tables[3], s->lengths[3], s->output, s->output_length, s->told, s->told_length);
}

// What can be planted around the calls, to see that it is reported.
enum fault {
    NO_FAULT,
    PAST_THE_ROOM,
    BESIDE_A_TABLE,
    BEFORE_A_TABLE,
    PAST_A_TABLE,
    READS_BEFORE_A_TABLE,
    READS_AN_EMPTY_TABLE,
    READS_PAST_THE_TEXT,
    READS_BEFORE_THE_TEXT,
    WRITES_THE_TEXT,
    PAST_THE_OUTPUT,
    BESIDE_THE_OUTPUT,
    MEMSET_BESIDE_THE_OUTPUT,
    PAST_WHAT_IS_TOLD,
    OUTPUT_ON_A_REFUSAL,
    OUTPUT_ON_REFUSAL_20,
    OUTPUT_ON_REFUSAL_1,
    OUTPUT_PAST_THE_WRITTEN,
    CELL_ON_A_REFUSAL,
    CELL_ON_REFUSAL_20,
    CELL_ON_REFUSAL_1,
    CELL_OF_AN_UNUSED_ROW,
    CELL_OF_A_USED_ROW,
    NUMBER_TOO_GREAT,
    RETIRED_NUMBER,
    PLACE_PAST_THE_TEXT,
    OBJECT_WITHOUT_PARTS,
    OBJECT_COUNTED_TWICE,
    ROWS_ON_A_REFUSAL,
    OTHER_THE_SECOND_TIME,
    OTHER_PLACE_OF_WRITE,
    SHORT_TABLES_TAKEN,
    EXACT_OUTPUT_REFUSED,
    LONG_OUTPUT_REFUSED,
    SHORT_OUTPUT_TAKEN,
    OTHER_BYTE_WRITTEN,
    REFUSED_TEXT_TAKEN,
    DOES_NOT_END,
    DECIDES_BY_A_LENT_CELL,
    READS_BESIDE_THE_TEXT,
    READS_BESIDE_A_TABLE,
    CELL_OF_AN_UNSET_ONE,
    BYTE_OF_AN_UNSET_ONE,
    HEADING_IS_6,
    HEADING_AT_ANOTHER_PLACE,
    HEADING_WITH_A_QUOTE,
    HEADING_OF_ANOTHER_NAME,
    CELL_PAST_THE_HEADING,
    HEADING_READS_PAST_THE_TEXT,
    HEADING_READS_BESIDE_THE_TEXT,
    MASK_PAST_THE_EVENTS,
    MASK_OF_THREE_BITS,
    OTHER_COUNT_OF_MASKS,
    RECORD_PAST_THOSE_USED,
    RECORD_ON_A_REFUSAL,
    RECORD_OF_NO_ROW,
    RECORD_IS_ANOTHER,
    ONE_WITH_NORMAL_TEXT,
    OTHER_TOTAL_SWAPPED,
    OTHER_TEXT_REFUSED,
    BESIDE_THE_LIST,
    PAST_THE_LIST,
    READS_PAST_THE_SECOND,
    WRITES_THE_SECOND,
    READS_BESIDE_THE_SECOND,
    DECIDES_BY_A_RECORD,
    ATTRIBUTE_36,
    WRONG_AND_NO_NUMBER,
    EXPECTED_WITHOUT_4,
    BYTE_PAST_THE_EXPANDED,
    BYTE_OF_THE_EXPANDED,
    ORIGIN_ONE_OFF,
    ORIGIN_PAST_THE_ROOM,
    PLACE_OF_THE_EXPANDED,
    ROW_OF_THE_EXPANDED,
    NUMBER_3_FOR_A_HASH,
    THIRTY_EXPANDS,
    SHORT_ORIGINS_TAKEN,
    SHORT_EXPANDED_WRITTEN,
    READS_PAST_THE_BUFFER,
    WRITES_THE_LENGTHS,
    OTHER_LENGTH_OF_TEXTS,
    READS_BESIDE_THE_BUFFER,
    DECIDES_BY_AN_ORIGIN,
    VALUE_ON_REFUSAL_20,
    VALUE_NOT_FOUND,
    VALUE_PAST_THE_COPIED,
    VALUE_READS_PAST_THE_PATH,
    NORMAL_TEXT_WITH_A_PLACE,
    HEADING_WITH_A_LONGER_NAME,
    EXPLAINS_PAST_THE_LINES,
    MENDED_BYTE_IS_ANOTHER,
    LINE_ON_A_REFUSAL,
    MENDED_LENGTH_IS_ANOTHER,
    MEND_PAST_THE_MENDED,
};

static enum fault planted = NO_FAULT;

static unsigned spoil(const struct slices *s, bool is_write, unsigned number);
static unsigned spoil_heading(const struct slices *s, unsigned number);
static void spoil_mend(unsigned number);
static unsigned spoil_masks(uint64_t *list, size_t entries, size_t *cells, unsigned answer);
static void spoil_compare(const uint8_t *other, size_t length, bool is_swapped, struct difference *records, size_t entries, struct compared *answer);
static unsigned spoil_standard(size_t *cells, unsigned answer);
static unsigned spoil_texts(bool is_write, size_t *place, unsigned number);
static void spoil_alone(unsigned char *bytes, size_t length, struct kaukslini_answer *answer);

// What the text's first reading answered, and what was written first: all other calls must agree.
static struct {
    bool is_read, is_written, is_headed;
    unsigned number;
    size_t told[TOLD_BY_READ];
    unsigned heading_number;
    size_t heading[TOLD_BY_HEADING];
    unsigned char *rows[TABLES]; // of their rooms
    unsigned char *written;
    size_t length, written_room;
} first;

static size_t told_at(size_t cell) {
    size_t value;
    memcpy(&value, here(&told) + cell * CELL, CELL);
    return value;
}

// Calls `read` or `write` on what is lent, with so many cells for what is told.
static bool call(bool is_write, size_t told_cells, unsigned *number) {
    lend(&told, now.side, told_cells * CELL);
    fill(&told);
    struct slices s = {.text = lent(&text), .text_length = text.length};
    for (int t = 0; t < TABLES; t++) {
        s.tables[t] = (size_t *)(void *)lent(&tables[t]);
        s.lengths[t] = tables[t].length / CELL;
    }
    s.output = lent(output);
    s.output_length = output->length;
    s.told = (size_t *)(void *)lent(&told);
    s.told_length = told_cells;

    unsigned long errors = memcheck_errors();
    shut_for_call(&text, false);
    for (int t = 0; t < TABLES; t++)
        shut_for_call(&tables[t], true);
    if (is_write)
        shut_for_call(output, true);
    shut_for_call(&told, true);
    unsigned answer = is_write ? library_write(&s) : library_read(&s);
    if (planted != NO_FAULT)
        answer = spoil(&s, is_write, answer);
    bool are_set = is_set(&told, least(told_cells, is_write ? TOLD_BY_WRITE : TOLD_BY_READ) * CELL);
    for (int t = 0; t < TABLES && answer != TABLES_TOO_SHORT; t++)
        are_set = is_set(&tables[t], room(t)) && are_set;
    if (is_write && answer == 0)
        are_set = is_set(output, least(told_cells > 1 ? told_at(1) : first.length, output->length)) && are_set;
    calls++;
    *number = answer;
    if (!are_set)
        return fail("memory that the call is to set is not set");
    if (memcheck_errors() != errors)
        return fail("valgrind reports %lu errors", memcheck_errors() - errors);
    return true;
}

// ---- What must hold after a call ----

static bool told_holds(const size_t *expected, size_t cells) {
    size_t set = least(cells, told.length / CELL);
    for (size_t i = 0; i < set; i++)
        if (told_at(i) != expected[i])
            return fail("told cell %zu is %zu for %zu", i, told_at(i), expected[i]);
    if (!is_noise_from(&told, set * CELL))
        return fail("a cell past what is told is changed");
    return is_noise_beside(&told) || fail("memory beside the lent told is changed");
}

static bool output_holds(size_t written) {
    if (!is_noise_from(output, written))
        return fail("a byte of the output past the %zu written ones is changed", written);
    return is_noise_beside(output) || fail("memory beside the lent output is changed");
}

// The rows of the first reading where the text is accepted, and zeros up to the end of the room.
static bool tables_hold(unsigned number) {
    for (int t = 0; t < TABLES; t++) {
        size_t used = number == 0 ? first.told[1 + t] * WIDTHS[t] * CELL : 0;
        if (memcmp(here(&tables[t]), first.rows[t], used) != 0)
            return fail("%s: the rows are not those of the first reading", NAMES[t]);
        if (memcmp(here(&tables[t]) + used, zeros, room(t) - used) != 0)
            return fail("%s: an unused cell is not zero", NAMES[t]);
        if (!is_noise_from(&tables[t], room(t)))
            return fail("%s: a cell past the room is changed", NAMES[t]);
        if (!is_noise_beside(&tables[t]))
            return fail("memory beside the lent %s is changed", NAMES[t]);
    }
    return true;
}

// Each object has a part or more, and all have no more than there may be.
static bool parts_hold(size_t objects) {
    const size_t *rows = (const size_t *)(const void *)first.rows[OBJECTS];
    size_t all = 0;
    for (size_t i = 0; i < objects; i++) {
        size_t parts = rows[i * WIDTHS[OBJECTS] + WIDTHS[OBJECTS] - 1];
        if (parts == 0 || parts > MOST_PARTS)
            return fail("object %zu has %zu parts", i, parts);
        all += parts;
    }
    return all <= MOST_PARTS || fail("there are %zu parts", all);
}

// What the first reading answers is kept, if it can be an answer at all.
static bool keep_first(unsigned number) {
    size_t place = told_at(0), counted = 0;
    if (number > LAST_NUMBER || number == TABLES_TOO_SHORT || number == OUTPUT_TOO_SHORT || is_retired(number))
        return fail("the number is %u", number);
    if (place > now.length || (number == 0 && place != 0))
        return fail("the place is %zu of %zu with number %u", place, now.length, number);
    if ((number == TEXT_TOO_LONG) != (now.length > LONGEST_TEXT))
        return fail("the number is %u for %zu bytes", number, now.length);
    if (now.is_known && (number != now.number || place != now.place))
        return fail("refusal %u at %zu; known from how the text was made is %u at %zu", number, place, now.number, now.place);
    for (size_t i = 0; i < TOLD_BY_READ; i++) {
        first.told[i] = told_at(i);
        if (i > 0 && number != 0 && first.told[i] != 0)
            return fail("told cell %zu of a refused text is %zu", i, first.told[i]);
        counted += i > TABLES ? first.told[i] : 0;
    }
    for (int t = 0; t < TABLES; t++) {
        if (first.told[1 + t] > ROWS[t])
            return fail("there are %zu rows of %s", first.told[1 + t], NAMES[t]);
        memcpy(first.rows[t], here(&tables[t]), first.told[1 + t] * WIDTHS[t] * CELL);
    }
    if (counted != first.told[1 + OBJECTS])
        return fail("%zu objects are counted by kind, and there are %zu", counted, first.told[1 + OBJECTS]);
    if (!parts_hold(first.told[1 + OBJECTS]))
        return false;
    first.number = number;
    first.is_read = true;
    return true;
}

static void fill_tables(void) {
    for (int t = 0; t < TABLES; t++)
        fill(&tables[t]);
}

static bool try_read(const char *name, size_t told_cells) {
    unsigned number;
    now.call = name;
    if (!call(false, told_cells, &number))
        return false;
    if (!first.is_read && !keep_first(number))
        return false;
    if (number != first.number)
        return fail("the number is %u, and was %u", number, first.number);
    return told_holds(first.told, TOLD_BY_READ) && tables_hold(number);
}

static bool is_of_a_word(unsigned char byte) {
    return (byte >= 'a' && byte <= 'z') || (byte >= 'A' && byte <= 'Z') || (byte >= '0' && byte <= '9') || byte == '_';
}

// What the first heading tells are a string's inside and a word, in this order; what `read` refuses with 3, 4 or 5 lies after both.
static bool heading_holds(size_t version, size_t length, size_t name, size_t name_length) {
    const unsigned char *bytes = now.bytes;
    if (version == 0 || version > now.length || length >= now.length - version)
        return fail("the version is %zu bytes at %zu of %zu", length, version, now.length);
    if (bytes[version - 1] != '"' || bytes[version + length] != '"' || memchr(bytes + version, '"', length) != NULL)
        return fail("the version of %zu bytes at %zu is not the inside of a string", length, version);
    if (name <= version + length || name > now.length || name_length == 0 || name_length >= now.length - name)
        return fail("the name is %zu bytes at %zu of %zu", name_length, name, now.length);
    for (size_t i = 0; i < name_length; i++)
        if (!is_of_a_word(bytes[name + i]))
            return fail("the name of %zu bytes at %zu is no word", name_length, name);
    if (is_of_a_word(bytes[name - 1]) || is_of_a_word(bytes[name + name_length]))
        return fail("the name of %zu bytes at %zu is a part of a word", name_length, name);
    if (first.number >= 3 && first.number <= 5 && first.told[0] <= name + name_length)
        return fail("a heading is told, and refusal %u is at %zu", first.number, first.told[0]);
    return true;
}

static bool keep_heading(unsigned number) {
    for (size_t i = 0; i < TOLD_BY_HEADING; i++)
        first.heading[i] = told_at(i);
    if (number == 0 && !heading_holds(first.heading[0], first.heading[1], first.heading[2], first.heading[3]))
        return false;
    if (number != 0 && (number == TABLES_TOO_SHORT || number > 5 || number != first.number || first.heading[0] != first.told[0]))
        return fail("the heading is refused with %u at %zu, and the text with %u at %zu", number, first.heading[0], first.number, first.told[0]);
    if (number == 0 && now.length > LONGEST_TEXT)
        return fail("a heading of %zu bytes", now.length);
    first.heading_number = number;
    first.is_headed = true;
    return true;
}

// `heading`, which is lent no tables, with so many cells for what is told.
static bool try_heading(const char *name, size_t told_cells) {
    now.call = name;
    lend(&told, now.side, told_cells * CELL);
    fill(&told);
    struct slices s = {.text = lent(&text), .text_length = text.length, .told = (size_t *)(void *)lent(&told), .told_length = told_cells};
    unsigned long errors = memcheck_errors();
    shut_for_call(&text, false);
    shut_for_call(&told, true);
    unsigned number = kaukslini_heading_cells(s.text, s.text_length, s.told, s.told_length);
    if (planted != NO_FAULT)
        number = spoil_heading(&s, number);
    calls++;
    size_t cells = number == 0 ? TOLD_BY_HEADING : 1;
    if (!is_set(&told, least(told_cells, cells) * CELL))
        return fail("memory that the call is to set is not set");
    if (memcheck_errors() != errors)
        return fail("valgrind reports %lu errors", memcheck_errors() - errors);
    if (!first.is_headed && !keep_heading(number))
        return false;
    if (number != first.heading_number)
        return fail("the heading's number is %u, and was %u", number, first.heading_number);
    return told_holds(first.heading, cells);
}

// What the two calls on masks answer.
enum { MASKS_REFUSED, NOT_PLANNABLE, WRONG_LENGTH, EVENT_NAMED, MASKS_DONE };

// The checker or the planner on the lent list, which is noise before a plan.
static bool call_masks(bool is_plan, size_t entries, unsigned *answer) {
    lend(&told, now.side, (TOLD_OF_MASKS + 1) * CELL);
    fill(&told);
    lend(&masks, now.side, entries * sizeof(uint64_t));
    if (is_plan)
        fill(&masks);
    uint64_t *list = (uint64_t *)(void *)lent(&masks);
    size_t *cells = (size_t *)(void *)lent(&told);
    unsigned long errors = memcheck_errors();
    shut_for_call(&text, false);
    shut_for_call(&masks, is_plan);
    shut_for_call(&told, true);
    *answer = is_plan ? kaukslini_plan_masks(lent(&text), text.length, list, entries, cells, TOLD_OF_MASKS + 1)
                      : kaukslini_check_masks(lent(&text), text.length, list, entries, cells, TOLD_OF_MASKS + 1);
    if (planted != NO_FAULT && is_plan)
        *answer = spoil_masks(list, entries, cells, *answer);
    calls++;
    size_t planned = is_plan && *answer == MASKS_DONE ? least(first.told[COUNT_OF_EVENTS], entries) : 0;
    if (!is_set(&told, TOLD_OF_MASKS * CELL) || !is_set(&masks, planned * sizeof(uint64_t)))
        return fail("memory that the call is to set is not set");
    if (memcheck_errors() != errors)
        return fail("valgrind reports %lu errors", memcheck_errors() - errors);
    if (is_plan && !is_noise_from(&masks, planned * sizeof(uint64_t)))
        return fail("a mask past the plan is changed");
    return is_noise_beside(&masks) || fail("memory beside the lent masks is changed");
}

// What is told with an answer of the two calls, for so many events.
static bool masks_told(unsigned answer, size_t events) {
    size_t expected[TOLD_OF_MASKS] = {0, 0};
    if ((answer == MASKS_REFUSED) != (first.number != 0))
        return fail("the masks' answer is %u, and the text's number %u", answer, first.number);
    if (answer == MASKS_REFUSED) {
        expected[0] = first.number;
        expected[1] = first.told[0];
    }
    if (answer == MASKS_DONE)
        expected[0] = told_at(0) == 0 ? 0 : events; // the checker tells nothing
    if (answer == EVENT_NAMED) {
        expected[0] = told_at(0);
        if (expected[0] >= events)
            return fail("event %zu is named, of %zu", expected[0], events);
    }
    return told_holds(expected, TOLD_OF_MASKS);
}

static bool try_masks_of(const char *name, bool is_plan, size_t entries, size_t events, unsigned *answer) {
    now.call = name;
    return call_masks(is_plan, entries, answer) && masks_told(*answer, events);
}

// The planner with a list that is longer, shorter and as long as the events, and the checker on what was planned.
static bool try_masks(void) {
    size_t events = first.number == 0 ? first.told[COUNT_OF_EVENTS] : 0;
    unsigned planned, answer;
    if (!try_masks_of("plan, a longer list", true, events + 1 + now.index % 2, events, &planned))
        return false;
    if (planned == WRONG_LENGTH)
        return fail("a longer list is refused");
    if (planned == MASKS_REFUSED || planned == NOT_PLANNABLE)
        return try_masks_of("check", false, events, events, &answer) && (answer == planned || fail("the checker answers %u for %u", answer, planned));
    if (events > 0 && (!try_masks_of("plan, a shorter list", true, events - 1, events, &answer) || answer != WRONG_LENGTH))
        return fail("a shorter list is taken");
    if (!try_masks_of("plan", true, events, events, &answer) || answer != planned)
        return fail("the planner answers %u for %u", answer, planned);
    if (planned == MASKS_DONE && (!try_masks_of("check the plan", false, events, events, &answer) || answer != MASKS_DONE))
        return fail("the plan is not accepted");
    if (!try_masks_of("check, a longer list", false, events + 1, events, &answer) || answer != WRONG_LENGTH)
        return fail("a longer list is checked");
    return true;
}

// What is known of a text with which others are compared.
struct known {
    unsigned number;
    size_t place, objects, values;
};

// An earlier text; before the first one an empty one.
static struct {
    struct known known;
    unsigned char bytes[TEXT_SIZE];
    size_t length;
} earlier = {.known = {.number = 4}};

static struct known known_first(void) {
    return (struct known){first.number, first.told[0], first.told[1 + OBJECTS], first.told[1 + VALUES]};
}

static bool record_holds(const struct difference *record, const struct known *one, const struct known *other) {
    bool both = record->first_object != 0 && record->second_object != 0;
    bool some = both ? record->first_value != 0 || record->second_value != 0 : record->first_object != 0 || record->second_object != 0;
    bool within = record->first_object <= one->objects && record->first_value <= one->values && record->second_object <= other->objects &&
                  record->second_value <= other->values;
    bool alone = both || (record->first_value == 0 && record->second_value == 0);
    return (some && within && alone) || fail("a record of rows that are not there: %zu, %zu, %zu, %zu", record->first_object,
                                             record->second_object, record->first_value, record->second_value);
}

// The text compared with another one, or that one with the text, on a list of so many records.
static bool call_compare(const unsigned char *bytes, size_t length, bool is_swapped, size_t entries, struct compared *answer) {
    lend(&second, now.side, length);
    memcpy(second.own + second.start, bytes, length);
    lend(&list, now.side, entries * sizeof(struct difference));
    fill(&list);
    struct difference *records = (struct difference *)(void *)lent(&list);
    unsigned long errors = memcheck_errors();
    shut_for_call(&text, false);
    shut_for_call(&second, false);
    shut_for_call(&list, true);
    *answer = is_swapped ? kaukslini_compare(lent(&second), length, lent(&text), text.length, records, entries)
                         : kaukslini_compare(lent(&text), text.length, lent(&second), length, records, entries);
    if (planted != NO_FAULT)
        spoil_compare(lent(&second), length, is_swapped, records, entries, answer);
    calls++;
    size_t used = answer->which == 0 ? least(least(answer->total, MOST_RECORDS), entries) * sizeof(struct difference) : 0;
    if (!is_set(&list, used))
        return fail("memory that the call is to set is not set");
    if (memcheck_errors() != errors)
        return fail("valgrind reports %lu errors", memcheck_errors() - errors);
    if (!is_noise_from(&list, used))
        return fail("a record past those used is changed");
    return is_noise_beside(&list) || fail("memory beside the lent list is changed");
}

// The refusal of the first text that has one, and its total is 0; else the records are of rows that are there.
static bool compared_holds(const struct compared *answer, const struct known *one, const struct known *other, size_t entries) {
    size_t which = one->number != 0 ? 1 : other->number != 0 ? 2 : 0;
    const struct known *refused = which == 1 ? one : other;
    if (answer->which != which)
        return fail("text %zu is said to be refused, and it is %zu", answer->which, which);
    if (which != 0 && (answer->number != refused->number || answer->place != refused->place || answer->total != 0))
        return fail("text %zu: refusal %zu at %zu, total %zu", which, answer->number, answer->place, answer->total);
    if (which == 0 && (answer->number != 0 || answer->place != 0))
        return fail("no text is refused, with %zu at %zu", answer->number, answer->place);
    const struct difference *records = (const struct difference *)(const void *)here(&list);
    for (size_t i = 0; i < least(least(answer->total, MOST_RECORDS), entries); i++)
        if (!record_holds(&records[i], one, other))
            return false;
    return true;
}

static bool try_compare_of(const char *name, const unsigned char *bytes, size_t length, const struct known *other, bool is_swapped, size_t entries,
                           struct compared *answer) {
    struct known own = known_first();
    now.call = name;
    return call_compare(bytes, length, is_swapped, entries, answer) &&
           compared_holds(answer, is_swapped ? other : &own, is_swapped ? &own : other, entries);
}

// The same again on a list of another length: the answer is the same, and so are the records that both lists have.
static bool try_compare_again(const unsigned char *bytes, size_t length, const struct compared *answer, size_t entries) {
    static struct difference kept[MOST_ENTRIES];
    struct compared again;
    size_t had = list.length / sizeof *kept;
    memcpy(kept, here(&list), had * sizeof *kept);
    now.call = "compare again, another list";
    if (!call_compare(bytes, length, false, entries, &again))
        return false;
    if (memcmp(answer, &again, sizeof again) != 0)
        return fail("the second answer is another");
    size_t used = answer->which == 0 ? least(least(answer->total, MOST_RECORDS), least(had, entries)) : 0;
    return memcmp(kept, here(&list), used * sizeof *kept) == 0 || fail("a record is another the second time");
}

// With a copy of which one byte is another.
static bool try_changed(void) {
    static unsigned char changed[TEXT_SIZE];
    struct compared answer;
    memcpy(changed, now.bytes, now.length);
    uint64_t any = noise[now.index % (NOISE / sizeof(uint64_t))];
    if (now.length > 0)
        changed[any % now.length] = (unsigned char)"{}[];:=,TFAe1 \"/.5x"[(any >> 32) % 20];
    now.call = "compare with a changed copy";
    if (!call_compare(changed, now.length, false, MOST_ENTRIES, &answer))
        return false;
    if (answer.which > 2 || (answer.which == 1) != (first.number != 0) || answer.number > LAST_NUMBER || answer.place > now.length)
        return fail("text %zu is refused with %zu at %zu", answer.which, answer.number, answer.place);
    return try_compare_again(changed, now.length, &answer, now.index % MOST_ENTRIES);
}

// The text with itself, with an earlier one in both orders, and with a changed copy.
static bool try_compare(void) {
    struct compared answer, swapped;
    struct known own = known_first();
    size_t entries = (7 * now.index + 64) % MOST_ENTRIES;
    if (!try_compare_of("compare with itself", now.bytes, now.length, &own, false, now.index % MOST_ENTRIES, &answer))
        return false;
    if (answer.total != 0)
        return fail("%zu differences of a text with itself", answer.total);
    if (!try_compare_of("compare with an earlier text", earlier.bytes, earlier.length, &earlier.known, false, entries, &answer) ||
        !try_compare_again(earlier.bytes, earlier.length, &answer, MOST_ENTRIES - entries))
        return false;
    if (!try_compare_of("compare, swapped", earlier.bytes, earlier.length, &earlier.known, true, (3 * now.index + 65) % MOST_ENTRIES, &swapped))
        return false;
    if (answer.total != swapped.total)
        return fail("%zu differences, and %zu the other way", answer.total, swapped.total);
    return try_changed();
}

// An accepted text with its own normal text.
static bool try_compare_normal(void) {
    struct compared answer;
    struct known own = known_first();
    if (first.length > LONGEST_TEXT)
        return true;
    if (!try_compare_of("compare with its normal text", first.written, first.length, &own, false, now.index % MOST_ENTRIES, &answer))
        return false;
    return answer.total == 0 || fail("%zu differences of a text with its normal text", answer.total);
}

// Accepted texts are kept, and now and then a refused one.
static void keep_earlier(void) {
    if (first.number != 0 && now.index % 8 != 2)
        return;
    earlier.known = known_first();
    earlier.length = now.length;
    memcpy(earlier.bytes, now.bytes, now.length);
}

// What `check_standard` answers.
enum { STANDARD_REFUSED, NOTHING_WRONG, SOMETHING_WRONG, TOLD_OF_STANDARD = 3, STANDARD_ATTRIBUTES = 36 };

// The question of the standard attributes, whose first answer is kept.
static bool try_standard(const char *name, unsigned *answer, size_t *kept) {
    now.call = name;
    lend(&told, now.side, (TOLD_OF_STANDARD + 1) * CELL);
    fill(&told);
    size_t *cells = (size_t *)(void *)lent(&told);
    unsigned long errors = memcheck_errors();
    shut_for_call(&text, false);
    shut_for_call(&told, true);
    unsigned found = kaukslini_check_standard(lent(&text), text.length, cells, TOLD_OF_STANDARD + 1);
    if (planted != NO_FAULT)
        found = spoil_standard(cells, found);
    calls++;
    if (!is_set(&told, TOLD_OF_STANDARD * CELL))
        return fail("memory that the call is to set is not set");
    if (memcheck_errors() != errors)
        return fail("valgrind reports %lu errors", memcheck_errors() - errors);
    if ((found == STANDARD_REFUSED) != (first.number != 0))
        return fail("the standard's answer is %u, and the text's number %u", found, first.number);
    if (*answer == SOMETHING_WRONG + 1) {
        *answer = found;
        for (size_t i = 0; i < TOLD_OF_STANDARD; i++)
            kept[i] = told_at(i);
    }
    if (found != *answer)
        return fail("the standard's answer is %u, and was %u", found, *answer);
    if (found == STANDARD_REFUSED && (kept[0] != first.number || kept[1] != first.told[0] || kept[2] != 0))
        return fail("the standard tells %zu at %zu, and the text is refused with %u at %zu", kept[0], kept[1], first.number, first.told[0]);
    if (found == NOTHING_WRONG && (kept[0] != 0 || kept[1] != 0 || kept[2] != 0))
        return fail("nothing is wrong, and %zu at %zu is told", kept[0], kept[1]);
    if (found == SOMETHING_WRONG && ((kept[0] != 25 && kept[0] != 26) || kept[1] == 0 || kept[1] >= now.length || kept[2] >= STANDARD_ATTRIBUTES))
        return fail("%zu at %zu of %zu is told for attribute %zu", kept[0], kept[1], now.length, kept[2]);
    return told_holds(kept, TOLD_OF_STANDARD);
}

static bool try_standards(void) {
    unsigned answer = SOMETHING_WRONG + 1;
    size_t kept[TOLD_OF_STANDARD];
    return try_standard("standard", &answer, kept) && try_standard("standard again", &answer, kept);
}

enum { EXPECTED_FLAGS = 29 };

// One flag of `expected`, another one from text to text, at the place that `read` told: set only at a refusal 4, and the same the second time.
static bool try_expected(void) {
    now.call = "expected";
    size_t flag = now.index % (EXPECTED_FLAGS + 1), place = first.told[0];
    unsigned long errors = memcheck_errors();
    shut_for_call(&text, false);
    bool is_expected = kaukslini_expected(lent(&text), text.length, place, flag) || planted == EXPECTED_WITHOUT_4;
    bool is_again = kaukslini_expected(lent(&text), text.length, place, flag) || planted == EXPECTED_WITHOUT_4;
    calls += 2;
    if (memcheck_errors() != errors)
        return fail("valgrind reports %lu errors", memcheck_errors() - errors);
    if (is_expected && (first.number != 4 || flag == EXPECTED_FLAGS))
        return fail("flag %zu is set at %zu, and the text's number is %u", flag, place, first.number);
    return is_expected == is_again || fail("flag %zu at %zu is another the second time", flag, place);
}

// ---- The calls of kaukslini.h ----

// Whether a refusal is that of the first reading: 30 for 2, and one of 27 to 29 for 3 at a `#`.
static bool is_refused_alone(const struct kaukslini_answer *answer) {
    if (first.number == TEXT_TOO_LONG)
        return answer->number == KAUKSLINI_LONG_TEXT && answer->place == 0;
    if (answer->place != first.told[0])
        return false;
    if (first.number == KAUKSLINI_NO_TOKEN && now.bytes[answer->place] == '#')
        return answer->number >= KAUKSLINI_OPEN_TEXT && answer->number <= KAUKSLINI_NO_INCLUDE;
    return answer->number == first.number;
}

// A part of the text.
struct piece {
    size_t place, length;
};

static size_t cell_at(int table, size_t row, size_t column) {
    size_t cell;
    memcpy(&cell, first.rows[table] + (row * WIDTHS[table] + column) * CELL, CELL);
    return cell;
}

static struct piece piece_at(int table, size_t row, size_t column) {
    struct piece piece = {cell_at(table, row, column), cell_at(table, row, column + 1)};
    return piece;
}

// The path of a value's row, each list's name with its entry; the row of its object.
static size_t path_of(size_t row, unsigned char *path, size_t *length) {
    size_t owner = cell_at(VALUES, row, 2), definition = cell_at(VALUES, row, 0), entry = 0;
    if (cell_at(VALUES, row, 1) == 1) {
        owner = path_of(owner, path, length);
        path[(*length)++] = '.';
    }
    struct piece name = piece_at(DEFINITIONS, definition, 2);
    memcpy(path + *length, now.bytes + name.place, name.length);
    *length += name.length;
    for (size_t i = 0; i < row; i++)
        entry += cell_at(VALUES, i, 0) == definition && cell_at(VALUES, i, 1) == cell_at(VALUES, row, 1) && cell_at(VALUES, i, 2) == cell_at(VALUES, row, 2);
    if (cell_at(DEFINITIONS, definition, 6) == 1)
        *length += (size_t)sprintf((char *)path + *length, "[%zu]", entry);
    return owner;
}

// A value asked for with an output of so many bytes.
static bool call_value(const char *name, struct piece kind, struct piece object, size_t bytes, struct kaukslini_answer *answer) {
    now.call = name;
    output = &usual_output;
    lend(output, now.side, bytes);
    fill(output);
    unsigned long errors = memcheck_errors();
    shut_for_call(&text, false);
    shut_for_call(&second, false);
    shut_for_call(output, true);
    *answer = kaukslini_value(lent(&text), text.length, lent(&text) + kind.place, kind.length, lent(&text) + object.place, object.length, lent(&second),
                              second.length, lent(output), bytes);
    if (planted != NO_FAULT)
        spoil_alone(lent(output), bytes, answer);
    calls++;
    if (answer->length > bytes)
        return fail("a value of %zu bytes is copied into %zu", answer->length, bytes);
    if (!is_set(output, answer->length))
        return fail("memory that the call is to set is not set");
    if (memcheck_errors() != errors)
        return fail("valgrind reports %lu errors", memcheck_errors() - errors);
    if (answer->number != KAUKSLINI_DONE && answer->length != 0)
        return fail("%zu bytes are told with the number %zu", answer->length, answer->number);
    return output_holds(answer->length);
}

// The same, and whether the number is this one.
static bool try_value(const char *name, struct piece kind, struct piece object, size_t bytes, size_t number, struct kaukslini_answer *answer) {
    if (!call_value(name, kind, object, bytes, answer))
        return false;
    return answer->number == number || fail("the value's number is %zu for %zu", answer->number, number);
}

// A value of an accepted text by its path, with outputs that are long enough, just so and too short; and what is not there. Of a refused
// text its refusal.
static bool try_values(void) {
    static unsigned char path[1 << 17];
    const struct piece none = {0, 0};
    struct kaukslini_answer answer;
    size_t length = 0;
    lend(&second, now.side, 0);
    if (!call_value("value, no question", none, none, USUAL_OUTPUT, &answer))
        return false;
    if (first.number != 0)
        return is_refused_alone(&answer) || fail("the value is refused with %zu at %zu, and the text with %u at %zu", answer.number, answer.place, first.number, first.told[0]);
    if (answer.number != KAUKSLINI_NOT_FOUND)
        return fail("the value's number is %zu for no question", answer.number);
    size_t values = first.told[4];
    if (values == 0)
        return true;
    size_t row = now.index % values, object = path_of(row, path, &length);
    lend(&second, now.side, length);
    memcpy(second.own + second.start, path, length);
    struct piece kind = piece_at(OBJECTS, object, 1), name = piece_at(OBJECTS, object, 3), word = piece_at(VALUES, row, 7);
    if (!try_value("value", kind, name, USUAL_OUTPUT, KAUKSLINI_DONE, &answer))
        return false;
    if (answer.length == 0)
        return fail("an empty value is copied");
    if (cell_at(VALUES, row, 3) != 0 && (answer.length != word.length || memcmp(here(output), now.bytes + word.place, word.length) != 0))
        return fail("the value of row %zu is not its word", row);
    size_t copied = answer.length;
    return try_value("value, an output of the exact length", kind, name, copied, KAUKSLINI_DONE, &answer) &&
           try_value("value, an output one byte too short", kind, name, copied - 1, KAUKSLINI_SHORT_OUTPUT, &answer) &&
           try_value("value, of no kind", none, name, USUAL_OUTPUT, KAUKSLINI_NOT_FOUND, &answer);
}

// The normal text by the call of kaukslini.h, where `write` wrote it or the text was refused.
static bool try_normal_text(void) {
    now.call = "normal text";
    size_t bytes = first.number == 0 ? first.length : 64;
    output = bytes <= OUTPUT_SIZE ? &usual_output : &long_output;
    lend(output, now.side, bytes);
    fill(output);
    unsigned long errors = memcheck_errors();
    shut_for_call(&text, false);
    shut_for_call(output, true);
    struct kaukslini_answer answer = kaukslini_normal_text(lent(&text), text.length, lent(output), bytes);
    if (planted == NORMAL_TEXT_WITH_A_PLACE)
        answer.place++;
    calls++;
    if (memcheck_errors() != errors)
        return fail("valgrind reports %lu errors", memcheck_errors() - errors);
    if (first.number != 0) {
        if (!is_refused_alone(&answer) || answer.length != 0)
            return fail("the normal text is refused with %zu at %zu, and the text with %u at %zu", answer.number, answer.place, first.number, first.told[0]);
        return output_holds(0);
    }
    if (answer.number != KAUKSLINI_DONE || answer.place != 0 || answer.length != bytes || memcmp(here(output), first.written, bytes) != 0)
        return fail("the normal text is not what was written: %zu at %zu, %zu bytes", answer.number, answer.place, answer.length);
    return output_holds(bytes);
}

// The heading by the call of kaukslini.h: as it was told before.
static bool try_heading_alone(void) {
    now.call = "heading of the text alone";
    unsigned long errors = memcheck_errors();
    shut_for_call(&text, false);
    struct kaukslini_version_and_name found = kaukslini_heading(lent(&text), text.length);
    if (planted == HEADING_WITH_A_LONGER_NAME)
        found.name_length++;
    calls++;
    if (memcheck_errors() != errors)
        return fail("valgrind reports %lu errors", memcheck_errors() - errors);
    struct kaukslini_answer answer = {found.number, found.place, 0};
    size_t parts[TOLD_BY_HEADING] = {found.version, found.version_length, found.name, found.name_length};
    if (first.heading_number == 0)
        return (found.number == KAUKSLINI_DONE && found.place == 0 && memcmp(parts, first.heading, sizeof parts) == 0) ||
               fail("the heading of the text alone is not that of the text");
    if (parts[0] != 0 || parts[1] != 0 || parts[2] != 0 || parts[3] != 0)
        return fail("a refused heading is told");
    return is_refused_alone(&answer) ||
           fail("the heading is refused with %zu at %zu, and the text with %u at %zu", answer.number, answer.place, first.number, first.told[0]);
}

// A place explained, of the refusal or of any other, with an output that may be too short.
static bool try_explain(void) {
    now.call = "explain";
    size_t bytes = KAUKSLINI_PICTURE + 1 - now.index % (KAUKSLINI_PICTURE + 2), place = first.number == 0 ? now.index : first.told[0];
    output = &usual_output;
    lend(output, now.side, bytes);
    fill(output);
    unsigned long errors = memcheck_errors();
    shut_for_call(&text, false);
    shut_for_call(output, true);
    struct kaukslini_position found = kaukslini_explain(lent(&text), text.length, place, lent(output), bytes);
    size_t set = least(found.length, bytes);
    if (planted == EXPLAINS_PAST_THE_LINES && set < bytes)
        lent(output)[set] ^= 1;
    calls++;
    if (!is_set(output, set))
        return fail("memory that the call is to set is not set");
    if (memcheck_errors() != errors)
        return fail("valgrind reports %lu errors", memcheck_errors() - errors);
    if (found.line == 0 || found.column == 0 || found.line + found.column > least(place, text.length) + 2 || found.length < 3 || found.length > KAUKSLINI_PICTURE)
        return fail("place %zu is said to be in line %zu, column %zu, in %zu bytes", place, found.line, found.column, found.length);
    return output_holds(set);
}

static bool keep_written(void) {
    first.length = told_at(1);
    if (first.length == 0 || first.length > output->length)
        return fail("%zu bytes are written into %zu", first.length, output->length);
    if (first.length > first.written_room) {
        first.written_room = first.length;
        first.written = realloc(first.written, first.written_room);
        if (first.written == NULL)
            stop("realloc");
    }
    memcpy(first.written, here(output), first.length);
    first.is_written = true;
    return true;
}

// `write` with an output of so many bytes.
static bool try_write(const char *name, size_t bytes, size_t told_cells, unsigned *number) {
    now.call = name;
    output = bytes <= OUTPUT_SIZE ? &usual_output : &long_output;
    lend(output, now.side, bytes);
    fill(output);
    fill_tables();
    if (!call(true, told_cells, number))
        return false;
    unsigned expected = first.number;
    if (expected == 0 && (first.is_written ? bytes < first.length : *number == OUTPUT_TOO_SHORT))
        expected = OUTPUT_TOO_SHORT;
    if (*number != expected)
        return fail("the number is %u for %u, with %zu bytes of output", *number, expected, bytes);
    if (expected == 0 && !first.is_written && !keep_written())
        return false;
    size_t written = expected == 0 ? first.length : 0;
    const size_t answer[TOLD_BY_WRITE] = {expected == first.number ? first.told[0] : 0, written};
    if (!told_holds(answer, TOLD_BY_WRITE) || !tables_hold(expected))
        return false;
    if (memcmp(here(output), first.written, written) != 0)
        return fail("a written byte is not as it was");
    return output_holds(written);
}

static void lend_tables(bool longer) {
    for (int t = 0; t < TABLES; t++)
        lend(&tables[t], now.side, room(t) + (longer ? PAST * CELL : 0));
}

static void lend_for(enum view view) {
    for (int t = 0; t < TABLES; t++)
        tables[t].view = view;
    output->view = view;
}

// Each table one cell too short, and empty. Tables and output are read-only, so that any write to them traps.
static bool try_short_tables(bool longer) {
    static const size_t nothing[TOLD_BY_READ] = {0};
    for (int choice = 0; choice < 2 * TABLES; choice++) {
        int t = choice / 2;
        lend_tables(longer);
        lend(&tables[t], now.side, choice % 2 == 0 ? room(t) - CELL : 0);
        for (int is_write = 0; is_write < 2; is_write++) {
            unsigned number;
            now.call = is_write ? "write, a table too short" : "read, a table too short";
            if (!call(is_write, TOLD_BY_READ, &number))
                return false;
            if (number != TABLES_TOO_SHORT)
                return fail("the number is %u for 1, %zu cells of %s", number, tables[t].length / CELL, NAMES[t]);
            if (!told_holds(nothing, is_write ? TOLD_BY_WRITE : TOLD_BY_READ))
                return false;
        }
    }
    return true;
}

// ---- Lent texts ----

// How a text is lent: alone, or as the one that the main text includes.
enum lending { ALONE, INCLUDED };

static const char INCLUDING[] = "#include <a>\n";

#define INCLUDING_LENGTH (sizeof INCLUDING - 1)

// What the lent texts are expected to give.
static struct {
    size_t text;           // the number of the text that is tried
    size_t main;           // how long the main text is
    bool is_thirty;        // refused by 30, before the expansion where it is told wrong
    bool is_told;          // told as it has to be
    unsigned number;       // that `read` answers; 29 for each of 27 to 29
    size_t told[TOLD_BY_READ];
    unsigned char *rows[TABLES];
} expected;

static void lend_texts(enum lending how) {
    size_t told_lengths[] = {0, INCLUDING_LENGTH, 1, now.length};
    size_t front = how == ALONE ? 0 : INCLUDING_LENGTH + 1, count = how == ALONE ? 2 : 4;
    if (how == ALONE)
        told_lengths[1] = now.length;
    lend(&buffer, now.side, front + now.length);
    memcpy(here(&buffer), INCLUDING, how == ALONE ? 0 : INCLUDING_LENGTH);
    if (how == INCLUDED)
        here(&buffer)[INCLUDING_LENGTH] = 'a';
    memcpy(here(&buffer) + front, now.bytes, now.length);
    lend(&lengths, now.side, count * CELL);
    memcpy(here(&lengths), told_lengths, count * CELL);
    expected.text = how == ALONE ? 0 : 1;
    expected.main = how == ALONE ? now.length : INCLUDING_LENGTH;
    expected.is_told = now.length <= LONGEST_TEXT;
    expected.is_thirty = now.length + (how == ALONE ? 0 : 1) > LONGEST_TEXT;
}

// Where a place of the text is in the lent texts; its end is the main text's.
static size_t placed(size_t place) {
    return place < now.length ? expected.text * TEXT_STEP + place : expected.main;
}

// The columns of a table that hold places, each with a length after it.
static const size_t PLACES[TABLES][6] = {{5, 0, 2, 4, 8, 10}, {1, 1}, {3, 1, 3, 5}, {1, 7}};

static void expect_rows(int t) {
    memcpy(expected.rows[t], first.rows[t], first.told[1 + t] * WIDTHS[t] * CELL);
    size_t *cells = (size_t *)(void *)expected.rows[t];
    for (size_t row = 0; row < first.told[1 + t]; row++)
        for (size_t i = 1; i <= PLACES[t][0]; i++) {
            size_t cell = row * WIDTHS[t] + PLACES[t][i];
            if (cells[cell + 1] != 0)
                cells[cell] = placed(cells[cell]);
        }
}

// What `read` answers to the lent texts, by what it answered to the text.
static void expect_answer(void) {
    memset(expected.told, 0, sizeof expected.told);
    for (int t = 0; t < TABLES; t++)
        memset(expected.rows[t], 0, room(t));
    expected.number = expected.is_thirty ? 30 : first.number;
    if (expected.is_thirty)
        return;
    size_t place = first.told[0];
    if (first.number == 0) {
        memcpy(expected.told, first.told, sizeof expected.told);
        for (int t = 0; t < TABLES; t++)
            expect_rows(t);
        return;
    }
    if (first.number == 3 && now.bytes[place] == '#')
        expected.number = 29;
    expected.told[0] = first.number == 19 ? 0 : placed(place);
}

static void fill_texts(size_t bytes, size_t cells) {
    lend(&expanded, now.side, bytes);
    fill(&expanded);
    lend(&origins, now.side, cells * CELL);
    fill(&origins);
}

static void shut_texts(void) {
    shut_for_call(&buffer, false);
    shut_for_call(&lengths, false);
    shut_for_call(&expanded, true);
    shut_for_call(&origins, true);
}

// The expanded text and its origins, as far as they are lent: so many bytes of the text, then an LF where the text includes no fault.
static bool expanded_holds(size_t length) {
    size_t own = least(length, now.length);
    const unsigned char *bytes = here(&expanded);
    const size_t *cells = (const size_t *)(const void *)here(&origins);
    size_t stored = least(length, expanded.length), noted = least(length, origins.length / CELL);
    if (memcmp(bytes, now.bytes, least(own, stored)) != 0 || (stored > own && bytes[own] != '\n'))
        return fail("the expanded text is another");
    if (!is_noise_from(&expanded, stored) || !is_noise_beside(&expanded))
        return fail("a byte past the %zu expanded ones is changed", stored);
    for (size_t i = 0; i < noted; i++)
        if (cells[i] != (i < own ? expected.text * TEXT_STEP + i : 0))
            return fail("origin %zu is %zu", i, cells[i]);
    return (is_noise_from(&origins, noted * CELL) && is_noise_beside(&origins)) || fail("an origin past the %zu ones is changed", noted);
}

static bool is_number_of(unsigned number) {
    bool is_it = expected.number == 29 ? number >= 27 && number <= 29 : number == expected.number;
    return is_it || fail("the number of the lent texts is %u for %u", number, expected.number);
}

// How long the expanded text is: with an LF after an included text, unless this has a fault.
static size_t expanded_length;

static bool try_expand(const char *name, size_t bytes, size_t cells) {
    now.call = name;
    fill_texts(bytes, cells);
    lend(&told, now.side, (TOLD_BY_EXPAND + 1) * CELL);
    fill(&told);
    unsigned long errors = memcheck_errors();
    shut_texts();
    shut_for_call(&told, true);
    size_t number = kaukslini_expand(lent(&buffer), buffer.length, (size_t *)(void *)lent(&lengths), lengths.length / CELL, lent(&expanded),
                                     expanded.length, (size_t *)(void *)lent(&origins), origins.length / CELL, (size_t *)(void *)lent(&told),
                                     TOLD_BY_EXPAND + 1);
    calls++;
    if (!is_set(&told, TOLD_BY_EXPAND * CELL))
        return fail("memory that the call is to set is not set");
    if (memcheck_errors() != errors)
        return fail("valgrind reports %lu errors", memcheck_errors() - errors);
    bool is_fault = number == 3 || (number >= 27 && number <= 29), is_included = expected.text == 1;
    if (expected.is_thirty ? number != 30 : number != 0 && !is_fault)
        return fail("the expansion's number is %zu", number);
    expanded_length = expected.is_thirty ? 0 : now.length + (is_included && number == 0 ? 1 : 0);
    size_t answer[TOLD_BY_EXPAND] = {is_fault ? told_at(0) : expanded_length, expanded_length};
    if (is_fault && answer[0] >= now.length)
        return fail("the fault is at %zu of %zu", answer[0], now.length);
    if (!told_holds(answer, TOLD_BY_EXPAND))
        return false;
    return expanded_holds(!expected.is_told ? 0 : expected.is_thirty ? LONGEST_TEXT : expanded_length);
}

static bool set_tables_hold(bool is_answered) {
    for (int t = 0; t < TABLES; t++) {
        if (memcmp(here(&tables[t]), is_answered ? expected.rows[t] : zeros, room(t)) != 0)
            return fail("%s: the rows of the lent texts are others", NAMES[t]);
        if (!is_noise_from(&tables[t], room(t)) || !is_noise_beside(&tables[t]))
            return fail("%s: memory past the room is changed", NAMES[t]);
    }
    return true;
}

// The arguments that both calls have.
#define SET_SLICES                                                                                                                          \
    lent(&buffer), buffer.length, (size_t *)(void *)lent(&lengths), lengths.length / CELL, lent(&expanded), expanded.length,                \
        (size_t *)(void *)lent(&origins), origins.length / CELL, (size_t *)(void *)lent(&tables[0]), tables[0].length / CELL,               \
        (size_t *)(void *)lent(&tables[1]), tables[1].length / CELL, (size_t *)(void *)lent(&tables[2]), tables[2].length / CELL,           \
        (size_t *)(void *)lent(&tables[3]), tables[3].length / CELL

// `read` over lent texts, or `write` with an output of so many bytes; the number, the place and the length.
static bool call_texts(bool is_write, struct set_written *answer) {
    lend(&told, now.side, TOLD_BY_READ * CELL);
    fill(&told);
    unsigned long errors = memcheck_errors();
    shut_texts();
    for (int t = 0; t < TABLES; t++)
        shut_for_call(&tables[t], true);
    shut_for_call(&told, true);
    if (is_write)
        shut_for_call(output, true);
    if (is_write) {
        *answer = kaukslini_write_texts(SET_SLICES, lent(output), output->length);
    } else {
        answer->number = kaukslini_read_texts(SET_SLICES, (size_t *)(void *)lent(&told), told.length / CELL);
        answer->place = told_at(0);
        answer->length = 0;
    }
    if (planted != NO_FAULT) {
        answer->number = spoil_texts(is_write, &answer->place, (unsigned)answer->number);
        if (planted == OTHER_LENGTH_OF_TEXTS && is_write)
            answer->length++;
    }
    calls++;
    bool are_set = is_write || is_set(&told, TOLD_BY_READ * CELL);
    for (int t = 0; t < TABLES && answer->number != TABLES_TOO_SHORT; t++)
        are_set = is_set(&tables[t], room(t)) && are_set;
    if (!are_set)
        return fail("memory that the call is to set is not set");
    if (memcheck_errors() != errors)
        return fail("valgrind reports %lu errors", memcheck_errors() - errors);
    return true;
}

static bool try_read_texts(const char *name) {
    struct set_written answer;
    now.call = name;
    fill_texts(LONGEST_TEXT + now.index % 2 * PAST, LONGEST_TEXT + now.index % 3 * PAST / 2);
    fill_tables();
    if (!call_texts(false, &answer) || !is_number_of((unsigned)answer.number))
        return false;
    if (answer.place != expected.told[0])
        return fail("the place in the lent texts is %zu for %zu", answer.place, expected.told[0]);
    if (!told_holds(expected.told, TOLD_BY_READ) || !set_tables_hold(true))
        return false;
    return expanded_holds(!expected.is_told ? 0 : expected.is_thirty ? LONGEST_TEXT : expanded_length);
}

static bool try_write_texts(const char *name, size_t bytes) {
    struct set_written answer;
    now.call = name;
    output = bytes <= OUTPUT_SIZE ? &usual_output : &long_output;
    lend(output, now.side, bytes);
    fill(output);
    fill_texts(LONGEST_TEXT, LONGEST_TEXT);
    fill_tables();
    if (!call_texts(true, &answer))
        return false;
    bool is_short = expected.number == 0 && bytes < first.length;
    size_t written = expected.number == 0 && !is_short ? first.length : 0;
    if (is_short ? answer.number != OUTPUT_TOO_SHORT : !is_number_of((unsigned)answer.number))
        return fail("the number of the lent texts is %zu, with %zu bytes of output", answer.number, bytes);
    if (answer.place != (is_short ? 0 : expected.told[0]) || answer.length != written)
        return fail("the lent texts are written at %zu with %zu bytes for %zu", answer.place, answer.length, written);
    if (memcmp(here(output), first.written, written) != 0)
        return fail("a byte of the lent texts' normal text is another");
    return output_holds(written) && set_tables_hold(written > 0);
}

// Whether a refusal comes from a stage before 13, or is one that no drop cures: then it is that of the mended text too.
static bool is_not_mended(unsigned number) {
    return number != 13 && number != 14;
}

// `mend` over lent texts, with outputs of so many bytes for the mended text and for the lines.
static bool try_mend(const char *name, size_t bytes, size_t bytes_of_lines) {
    now.call = name;
    output = &usual_output;
    lend(output, now.side, bytes);
    fill(output);
    lend(&lines, now.side, bytes_of_lines);
    fill(&lines);
    lend(&told, now.side, TOLD_BY_MEND * CELL);
    fill(&told);
    fill_texts(LONGEST_TEXT, LONGEST_TEXT);
    unsigned long errors = memcheck_errors();
    shut_texts();
    shut_for_call(output, true);
    shut_for_call(&lines, true);
    shut_for_call(&told, true);
    unsigned number = kaukslini_mend_texts(lent(&buffer), buffer.length, (size_t *)(void *)lent(&lengths), lengths.length / CELL, lent(&expanded),
                                           expanded.length, (size_t *)(void *)lent(&origins), origins.length / CELL, lent(output),
                                           output->length, lent(&lines), lines.length, (size_t *)(void *)lent(&told), TOLD_BY_MEND);
    if (planted != NO_FAULT)
        spoil_mend(number);
    calls++;
    if (!is_set(&told, TOLD_BY_MEND * CELL))
        return fail("memory that the call is to set is not set");
    if (memcheck_errors() != errors)
        return fail("valgrind reports %lu errors", memcheck_errors() - errors);
    size_t place = told_at(0), mended = told_at(1), lined = told_at(2);
    if (number != 0 ? mended != 0 || lined != 0 : place != 0 || mended > bytes || lined > bytes_of_lines)
        return fail("number %u at %zu, and %zu and %zu bytes are told", number, place, mended, lined);
    if (expected.number == 0 && bytes < expanded_length) {
        if (number != OUTPUT_TOO_SHORT || place != 0)
            return fail("the number is %u for 20, with %zu bytes of output", number, bytes);
    } else if (expected.number == 0) {
        if (number != 0 || mended != expanded_length || lined != 0 || memcmp(here(output), here(&expanded), mended) != 0)
            return fail("an accepted text is mended to another: %u, %zu and %zu bytes", number, mended, lined);
    } else if (is_not_mended(expected.number)) {
        if (!is_number_of(number))
            return false;
        if (place != expected.told[0])
            return fail("mending is refused with %u at %zu for %zu", number, place, expected.told[0]);
    } else if (number == 0 ? mended >= expanded_length || lined == 0 : number != 15 && number != 16 && number < 18) {
        return fail("a text with a fault of %u is mended: %u, %zu and %zu bytes", expected.number, number, mended, lined);
    }
    if (!is_noise_from(&lines, lined) || !is_noise_beside(&lines))
        return fail("a byte past the %zu bytes of lines is changed", lined);
    return output_holds(mended);
}

// Short memory for the expanded text or the origins is refused by 1, and read-only memory shows that nothing is touched.
static bool try_short_texts(void) {
    struct set_written answer;
    now.call = "lent texts, short memory";
    output = &usual_output;
    lend(output, now.side, USUAL_OUTPUT);
    fill(output);
    lend_for(READ_ONLY);
    expanded.view = origins.view = READ_ONLY;
    bool holds = true;
    for (int choice = 0; choice < 4 && holds; choice++) {
        fill_texts(LONGEST_TEXT - (choice / 2 == 0 ? 1 : 0), LONGEST_TEXT - (choice / 2 == 0 ? 0 : 1));
        holds = call_texts(choice % 2 == 1, &answer);
        if (holds && (answer.number != TABLES_TOO_SHORT || answer.place != 0))
            holds = fail("the number is %zu for 1, %zu bytes and %zu origins", answer.number, expanded.length, origins.length / CELL);
    }
    lend_for(WRITABLE);
    expanded.view = origins.view = WRITABLE;
    return holds;
}

// Told lengths that overrun the buffer, that are odd, too many or none.
static bool try_told_wrong(void) {
    const size_t far[] = {buffer.length + 1, SIZE_MAX, SIZE_MAX / 2, SIZE_MAX - 65535};
    size_t *cells = (size_t *)(void *)here(&lengths), count = lengths.length / CELL;
    size_t wrong[MOST_LENGTHS] = {0};
    memcpy(wrong, cells, count * CELL);
    switch (now.index % 4) {
    case 0:
        wrong[now.index / 4 % count] = far[now.index / 32 % 4];
        break;
    case 1:
        count += 1;
        break;
    case 2:
        count = MOST_LENGTHS;
        break;
    default:
        count = 0;
    }
    lend(&lengths, now.side, count * CELL);
    memcpy(here(&lengths), wrong, count * CELL);
    expected.is_told = false;
    expected.is_thirty = true;
    expect_answer();
    return try_expand("expand, told wrong", LONGEST_TEXT, LONGEST_TEXT) && try_read_texts("read over texts, told wrong");
}

static bool try_texts_as(enum lending how) {
    lend_texts(how);
    expect_answer();
    if (!try_expand("expand", LONGEST_TEXT + PAST, LONGEST_TEXT) || !try_read_texts("read over texts"))
        return false;
    if (!try_expand("expand, short memory", now.index % 300, LONGEST_TEXT - now.index % 300))
        return false;
    size_t room_of_output = expected.number == 0 ? first.length : now.index % 400;
    if (!try_write_texts("write over texts", room_of_output))
        return false;
    if (expected.number == 0 && !try_write_texts("write over texts, an output one byte too short", first.length - 1))
        return false;
    if (!try_mend("mend", LONGEST_TEXT, OUTPUT_SIZE))
        return false;
    if (expected.number == 0 && !try_mend("mend, an output one byte too short", expanded_length - 1, 0))
        return false;
    return try_short_texts() && try_told_wrong();
}

static bool try_texts(void) {
    return try_texts_as(ALONE) && try_texts_as(INCLUDED);
}

// All calls on a text with lent memory that ends, or begins, at the guards.
static bool try_side(enum side side, bool longer) {
    now.side = side;
    lend(&text, side, now.length);
    memcpy(text.own + text.start, now.bytes, now.length);
    output = &usual_output;
    lend(output, side, USUAL_OUTPUT);
    fill(output);
    lend_for(READ_ONLY);
    if (!try_short_tables(longer))
        return false;
    lend_for(WRITABLE);
    lend_tables(longer);
    fill_tables();
    if (!try_read("read", TOLD_BY_READ) || !try_read("read again, into what was left", now.index % MOST_TOLD))
        return false;
    if (!try_heading("heading", TOLD_BY_HEADING + 1) || !try_heading("heading again", now.index % MOST_TOLD))
        return false;
    if (!try_masks() || !try_compare() || !try_standards() || !try_expected() || !try_values() || !try_heading_alone() || !try_explain())
        return false;

    unsigned number;
    size_t bytes = USUAL_OUTPUT;
    if (!try_write("write", bytes, TOLD_BY_READ, &number))
        return false;
    while (number == OUTPUT_TOO_SHORT) {
        if (bytes == LONG_OUTPUT_SIZE)
            return fail("no output is long enough");
        size_t too_short = bytes;
        bytes = least(8 * bytes, LONG_OUTPUT_SIZE);
        if (!try_write("write, a longer output", bytes, TOLD_BY_WRITE, &number))
            return false;
        if (number == 0 && first.length <= too_short)
            return fail("%zu bytes of output were refused, and %zu are written", too_short, first.length);
    }
    if (number == 0) {
        if (!try_write("write, an output of the exact length", first.length, TOLD_BY_WRITE, &number))
            return false;
        if (!try_write("write, an output one byte too short", first.length - 1, now.index % 3, &number))
            return false;
        if (!try_compare_normal())
            return false;
    }
    return try_write("write, an empty output", 0, TOLD_BY_WRITE, &number) && try_normal_text() && try_texts();
}

// The calls on one text end within so many seconds of the processor's time.
static int most_seconds = 60;

static void limit_seconds(int seconds) {
    struct itimerval limit = {.it_value = {.tv_sec = seconds}};
    if (setitimer(ITIMER_VIRTUAL, &limit, NULL) != 0)
        stop("setitimer");
}

static bool try_text(void) {
    first.is_read = first.is_written = first.is_headed = false;
    bool odd = now.index % 2 == 1;
    limit_seconds(most_seconds);
    bool holds = try_side(ENDS_AT_GUARD, odd) && try_side(BEGINS_AT_GUARD, !odd);
    limit_seconds(0);
    if (holds)
        keep_earlier();
    return holds;
}

// ---- Counts ----

enum { MOST_SORTS = 64 };

static struct count {
    char *sort;
    uint64_t texts, known, numbers[LAST_NUMBER + 1];
} counts[MOST_SORTS], all = {.sort = "all"};

static int sorts = 0;
static uint64_t written_too_long = 0;

static const size_t SIZES[] = {16, 256, 1024, 4096, 16384, 65535, TEXT_SIZE};
enum { SIZE_COUNT = sizeof SIZES / sizeof *SIZES };
static uint64_t of_size[SIZE_COUNT];

// FNV-1a: the same texts give the same number, and the same answers another.
static uint64_t texts_hash = 0xcbf29ce484222325, answers_hash = 0xcbf29ce484222325;

static void hash(uint64_t *into, const void *bytes, size_t length) {
    for (size_t i = 0; i < length; i++)
        *into = (*into ^ ((const unsigned char *)bytes)[i]) * 0x100000001b3;
}

static void add(struct count *count) {
    count->texts++;
    count->known += now.is_known;
    count->numbers[first.number]++;
}

static void count_text(void) {
    int sort = 0;
    while (sort < sorts && strcmp(counts[sort].sort, now.sort) != 0)
        sort++;
    if (sort == sorts) {
        if (sorts++ == MOST_SORTS)
            stop("too many sorts");
        counts[sort].sort = strdup(now.sort);
    }
    add(&counts[sort]);
    add(&all);
    int size = 0;
    while (now.length > SIZES[size])
        size++;
    of_size[size]++;
    hash(&texts_hash, now.bytes, now.length);
    hash(&texts_hash, &now.length, sizeof now.length);
    hash(&answers_hash, &first.number, sizeof first.number);
    hash(&answers_hash, first.told, sizeof first.told);
    hash(&answers_hash, &first.heading_number, sizeof first.heading_number);
    hash(&answers_hash, first.heading, (first.heading_number == 0 ? TOLD_BY_HEADING : 1) * CELL);
    if (first.is_written) {
        hash(&answers_hash, first.written, first.length);
        written_too_long += first.length > USUAL_OUTPUT;
    }
}

// A number with commas between thousands, in one of a few buffers.
static const char *grouped(uint64_t number) {
    static char buffers[8][32];
    static int next = 0;
    char *buffer = buffers[next++ % 8], digits[24];
    int length = snprintf(digits, sizeof digits, "%" PRIu64, number), at = 0;
    for (int i = 0; i < length; i++) {
        if (i > 0 && (length - i) % 3 == 0)
            buffer[at++] = ',';
        buffer[at++] = digits[i];
    }
    buffer[at] = '\0';
    return buffer;
}

static void print_count(const struct count *count) {
    printf("| %s | %s | %s | %s | ", count->sort, grouped(count->texts), grouped(count->known), grouped(count->numbers[0]));
    const char *before = "";
    for (int number = 1; number <= LAST_NUMBER; number++)
        if (count->numbers[number] > 0) {
            printf("%s%d: %s", before, number, grouped(count->numbers[number]));
            before = ", ";
        }
    printf(" |\n");
}

static void print_counts(void) {
    printf("| Sort of text | Texts | Answer known | Accepted | Refused by number |\n|---|---|---|---|---|\n");
    for (int sort = 0; sort < sorts; sort++)
        print_count(&counts[sort]);
    print_count(&all);
    printf("\n| Bytes of a text, at most |");
    for (int size = 0; size < SIZE_COUNT; size++)
        printf(" %s |", grouped(SIZES[size]));
    printf("\n|---|---|---|---|---|---|---|---|\n| Texts |");
    for (int size = 0; size < SIZE_COUNT; size++)
        printf(" %s |", grouped(of_size[size]));
    printf("\n\n%s accepted texts are written with more than 65,535 bytes (refusal 20 of the program).\n", grouped(written_too_long));
    printf("Hash of the texts %016" PRIx64 ", of the answers %016" PRIx64 ".\n", texts_hash, answers_hash);
    printf("%s texts, %s calls, %s failures\n", grouped(all.texts), grouped(calls), grouped(failures));
}

// ---- Texts from standard input ----

// The next field of a line, which is separated by tabs.
static char *field(char **line) {
    char *start = strsep(line, "\t");
    if (start == NULL) {
        fprintf(stderr, "harness: a line before a text has not five fields\n");
        exit(2);
    }
    return start;
}

static bool next_text(void) {
    static char *line = NULL;
    static size_t room_of_line = 0;
    ssize_t length = getline(&line, &room_of_line, stdin);
    if (length < 0)
        return false;
    line[length - 1] = '\0';
    char *rest = line;
    now.sort = field(&rest);
    now.name = field(&rest);
    const char *number = field(&rest), *place = field(&rest);
    now.is_known = strcmp(number, "-") != 0;
    now.number = (unsigned)strtoul(number, NULL, 10);
    now.place = strtoul(place, NULL, 10);
    now.length = strtoul(field(&rest), NULL, 10);
    now.index++;
    if (now.length > TEXT_SIZE || fread(now.bytes, 1, now.length, stdin) != now.length) {
        fprintf(stderr, "harness: a text that is too long or not whole\n");
        exit(2);
    }
    return true;
}

static int run(void) {
    static char buffer[1 << 20];
    setvbuf(stdin, buffer, _IOFBF, sizeof buffer);
    while (next_text()) {
        if (try_text())
            count_text();
        else
            all.texts++;
        if (now.index % 100000 == 0)
            fprintf(stderr, "harness: %s texts, %s failures\n", grouped(now.index), grouped(failures));
    }
    print_counts();
    return all.texts > 0 && failures == 0 ? 0 : 1;
}

// ---- Planted faults ----

// What a fault makes of a call that has answered, and the number that it answers instead.
static NOT_INSTRUMENTED unsigned spoil(const struct slices *s, bool is_write, unsigned number) {
    volatile const uint8_t *bytes = s->text;
    volatile size_t *definitions = s->tables[DEFINITIONS], *enumerators = s->tables[ENUMERATORS];
    volatile size_t *objects = s->tables[OBJECTS], *values = s->tables[VALUES], *cells = s->told;
    volatile uint8_t *written = s->output;
    volatile size_t length = s->output_length;
    const size_t room_of_objects = room(OBJECTS) / CELL, room_of_values = room(VALUES) / CELL;
    static volatile size_t times = 0;
    bool is_read = !is_write, begins = now.side == BEGINS_AT_GUARD, ends = !begins;
    bool is_taken = number != TABLES_TOO_SHORT, is_refused = is_taken && number != 0 && number != OUTPUT_TOO_SHORT;
    bool has_place = s->told_length > 0, has_length = s->told_length > 1;

    switch (planted) {
    case NO_FAULT:
        break;
    case PAST_THE_ROOM:
        if (is_read && is_taken && s->lengths[OBJECTS] > room_of_objects)
            objects[room_of_objects] ^= 1;
        break;
    case BESIDE_A_TABLE:
        if (is_read && is_taken && begins && s->lengths[OBJECTS] == room_of_objects)
            objects[room_of_objects + 1] ^= 1;
        break;
    case BEFORE_A_TABLE:
        if (is_write && is_taken && ends)
            enumerators[-1] ^= 1;
        break;
    case PAST_A_TABLE:
        if (is_write && ends)
            values[s->lengths[VALUES]] = 0;
        break;
    case READS_BEFORE_A_TABLE:
        if (is_read && begins)
            times += definitions[-1];
        break;
    case READS_AN_EMPTY_TABLE:
        if (is_read && ends && s->lengths[DEFINITIONS] == 0)
            times += definitions[0];
        break;
    case READS_PAST_THE_TEXT:
        if (is_read && ends)
            times += bytes[s->text_length];
        break;
    case READS_BEFORE_THE_TEXT:
        if (is_read && begins)
            times += bytes[-1];
        break;
    case WRITES_THE_TEXT:
        *(volatile uint8_t *)(uintptr_t)s->text = 'O';
        break;
    case PAST_THE_OUTPUT:
        if (is_write && ends && number == 0)
            written[length] = 0;
        break;
    case BESIDE_THE_OUTPUT:
        if (is_write && begins && length < 1000)
            written[length + 1000] ^= 1;
        break;
    case MEMSET_BESIDE_THE_OUTPUT:
        if (is_write && begins && number == 0 && length < USUAL_OUTPUT)
            memset(s->output, 0, length + 16);
        break;
    case PAST_WHAT_IS_TOLD:
        if (is_write && s->told_length > TOLD_BY_WRITE)
            cells[TOLD_BY_WRITE] ^= 1;
        break;
    case OUTPUT_ON_A_REFUSAL:
        if (is_write && is_refused && length > 0)
            written[length / 2] ^= 1;
        break;
    case OUTPUT_ON_REFUSAL_20:
        if (is_write && number == OUTPUT_TOO_SHORT && length > 0)
            written[0] ^= 1;
        break;
    case OUTPUT_ON_REFUSAL_1:
        if (is_write && !is_taken)
            written[length - 1] ^= 1;
        break;
    case OUTPUT_PAST_THE_WRITTEN:
        if (is_write && number == 0 && has_length && cells[1] < length)
            written[cells[1]] ^= 1;
        break;
    case CELL_ON_A_REFUSAL:
        if (is_read && is_refused)
            values[room_of_values - 1] = 1;
        break;
    case CELL_ON_REFUSAL_20:
        if (is_write && number == OUTPUT_TOO_SHORT)
            enumerators[0] = 1;
        break;
    case CELL_ON_REFUSAL_1:
        if (is_read && !is_taken && s->lengths[DEFINITIONS] > 0)
            definitions[0] ^= 1;
        break;
    case CELL_OF_AN_UNUSED_ROW:
        if (is_read && number == 0)
            definitions[room(DEFINITIONS) / CELL - 1] = 1;
        break;
    case CELL_OF_A_USED_ROW:
        if (is_write && number == 0)
            objects[0]++;
        break;
    case NUMBER_TOO_GREAT:
        return is_read && is_refused ? LAST_NUMBER + 1 : number;
    case RETIRED_NUMBER:
        return is_read && is_refused ? 10 : number;
    case PLACE_PAST_THE_TEXT:
        if (is_read && is_refused && has_place)
            cells[0] = s->text_length + 1;
        break;
    case OBJECT_WITHOUT_PARTS:
        if (is_read && number == 0)
            objects[WIDTHS[OBJECTS] - 1] = 0;
        break;
    case OBJECT_COUNTED_TWICE:
        if (is_read && number == 0 && s->told_length == TOLD_BY_READ)
            cells[TOLD_BY_READ - 1]++;
        break;
    case ROWS_ON_A_REFUSAL:
        if (is_read && is_refused && has_length)
            cells[1] = 1;
        break;
    case OTHER_THE_SECOND_TIME:
        return is_read && is_refused && ++times == 2 ? number + 1 : number;
    case OTHER_PLACE_OF_WRITE:
        if (is_write && is_refused && has_place)
            cells[0]++;
        break;
    case SHORT_TABLES_TAKEN:
        return is_write && s->lengths[VALUES] == room_of_values - 1 ? 0 : number;
    case EXACT_OUTPUT_REFUSED:
        return is_write && number == 0 && has_length && cells[1] == length ? OUTPUT_TOO_SHORT : number;
    case LONG_OUTPUT_REFUSED:
        if (!is_write || number != 0 || length != USUAL_OUTPUT)
            return number;
        for (int t = 0; t < TABLES; t++)
            memset(s->tables[t], 0, room(t));
        memcpy(s->output, (unsigned char *)noise + output->start, cells[1]);
        cells[1] = 0;
        return OUTPUT_TOO_SHORT;
    case SHORT_OUTPUT_TAKEN:
        return is_write && number == OUTPUT_TOO_SHORT && length > 0 ? 0 : number;
    case OTHER_BYTE_WRITTEN:
        if (is_write && number == 0 && has_length && cells[1] == length)
            written[length - 1] ^= 1;
        break;
    case REFUSED_TEXT_TAKEN:
        return is_refused ? 0 : number;
    case DOES_NOT_END:
        while (is_write && length == 0)
            times++;
        break;
    case DECIDES_BY_A_LENT_CELL:
        if (is_read && !is_taken && s->lengths[VALUES] > 0 && values[7] == 7)
            times++;
        break;
    case READS_BESIDE_THE_TEXT:
        if (is_read && begins)
            times += bytes[s->text_length];
        break;
    case READS_BESIDE_A_TABLE:
        if (is_read && begins)
            times += enumerators[s->lengths[ENUMERATORS]];
        break;
    case CELL_OF_AN_UNSET_ONE:
        if (is_write && number == 0 && s->lengths[VALUES] > room_of_values)
            values[0] += (values[room_of_values] & 1) - 1; // noise is odd, so that the cell keeps its value
        break;
    case BYTE_OF_AN_UNSET_ONE:
        if (is_write && number == 0 && has_length && cells[1] < length)
            written[0] ^= written[cells[1]] ^ written[cells[1]]; // the byte keeps its value
        break;
    case HEADING_IS_6:
    case HEADING_AT_ANOTHER_PLACE:
    case HEADING_WITH_A_QUOTE:
    case HEADING_OF_ANOTHER_NAME:
    case CELL_PAST_THE_HEADING:
    case HEADING_READS_PAST_THE_TEXT:
    case HEADING_READS_BESIDE_THE_TEXT:
        break; // of `heading`
    case MASK_PAST_THE_EVENTS:
    case MASK_OF_THREE_BITS:
    case OTHER_COUNT_OF_MASKS:
        break; // of the masks
    case RECORD_PAST_THOSE_USED:
    case RECORD_ON_A_REFUSAL:
    case RECORD_OF_NO_ROW:
    case RECORD_IS_ANOTHER:
    case ONE_WITH_NORMAL_TEXT:
    case OTHER_TOTAL_SWAPPED:
    case OTHER_TEXT_REFUSED:
    case BESIDE_THE_LIST:
    case PAST_THE_LIST:
    case READS_PAST_THE_SECOND:
    case WRITES_THE_SECOND:
    case READS_BESIDE_THE_SECOND:
    case DECIDES_BY_A_RECORD:
        break; // of `compare`
    case ATTRIBUTE_36:
    case WRONG_AND_NO_NUMBER:
        break; // of the standard
    case EXPECTED_WITHOUT_4:
        break; // of `expected`
    case BYTE_PAST_THE_EXPANDED:
    case BYTE_OF_THE_EXPANDED:
    case ORIGIN_ONE_OFF:
    case ORIGIN_PAST_THE_ROOM:
    case PLACE_OF_THE_EXPANDED:
    case ROW_OF_THE_EXPANDED:
    case NUMBER_3_FOR_A_HASH:
    case THIRTY_EXPANDS:
    case SHORT_ORIGINS_TAKEN:
    case SHORT_EXPANDED_WRITTEN:
    case READS_PAST_THE_BUFFER:
    case WRITES_THE_LENGTHS:
    case OTHER_LENGTH_OF_TEXTS:
    case READS_BESIDE_THE_BUFFER:
    case DECIDES_BY_AN_ORIGIN:
        break; // of lent texts
    case VALUE_ON_REFUSAL_20:
    case VALUE_NOT_FOUND:
    case VALUE_PAST_THE_COPIED:
    case VALUE_READS_PAST_THE_PATH:
    case NORMAL_TEXT_WITH_A_PLACE:
    case HEADING_WITH_A_LONGER_NAME:
    case EXPLAINS_PAST_THE_LINES:
    case MENDED_BYTE_IS_ANOTHER:
    case LINE_ON_A_REFUSAL:
    case MENDED_LENGTH_IS_ANOTHER:
    case MEND_PAST_THE_MENDED:
        break; // of the calls of kaukslini.h
    }
    return number;
}

// The same of `heading`.
static NOT_INSTRUMENTED unsigned spoil_heading(const struct slices *s, unsigned number) {
    volatile const uint8_t *bytes = s->text;
    volatile size_t *cells = s->told;
    static volatile size_t read = 0;
    bool ends = now.side == ENDS_AT_GUARD, is_told = number == 0 && s->told_length >= TOLD_BY_HEADING;

    switch (planted) {
    case HEADING_IS_6:
        return number == 0 ? 6 : number;
    case HEADING_AT_ANOTHER_PLACE:
        if (number == 3 && s->told_length > 0)
            cells[0] = 1;
        break;
    case HEADING_WITH_A_QUOTE:
        if (is_told)
            cells[1] += 1;
        break;
    case HEADING_OF_ANOTHER_NAME:
        if (is_told)
            cells[2] += 1;
        break;
    case CELL_PAST_THE_HEADING:
        if (is_told && s->told_length > TOLD_BY_HEADING)
            cells[TOLD_BY_HEADING] ^= 1;
        break;
    case HEADING_READS_PAST_THE_TEXT:
        if (ends)
            read += bytes[s->text_length];
        break;
    case HEADING_READS_BESIDE_THE_TEXT:
        if (!ends)
            read += bytes[s->text_length];
        break;
    default:
        break;
    }
    return number;
}

// The same of the planner.
static NOT_INSTRUMENTED unsigned spoil_masks(uint64_t *list, size_t entries, size_t *cells, unsigned answer) {
    size_t events = first.told[COUNT_OF_EVENTS];
    if (answer != MASKS_DONE || events == 0)
        return answer;
    if (planted == MASK_PAST_THE_EVENTS && entries > events)
        list[events] ^= 1;
    if (planted == MASK_OF_THREE_BITS && entries == events)
        list[0] ^= 6;
    if (planted == OTHER_COUNT_OF_MASKS)
        cells[0] += 1;
    return answer;
}

// The same of `compare`.
static NOT_INSTRUMENTED void spoil_compare(const uint8_t *other, size_t length, bool is_swapped, struct difference *records, size_t entries,
                                           struct compared *answer) {
    volatile const uint8_t *bytes = other;
    volatile struct difference *listed = records;
    static volatile size_t read = 0, times = 0;
    bool ends = now.side == ENDS_AT_GUARD, is_refused = answer->which != 0;
    size_t used = is_refused ? 0 : least(least(answer->total, MOST_RECORDS), entries);

    switch (planted) {
    case RECORD_PAST_THOSE_USED:
        if (!is_refused && entries > used)
            listed[used].second_value ^= 1;
        break;
    case RECORD_ON_A_REFUSAL:
        if (is_refused && entries > 0)
            listed[0].first_object ^= 1;
        break;
    case RECORD_OF_NO_ROW:
        if (used > 0)
            listed[used - 1].first_object = 4;
        break;
    case RECORD_IS_ANOTHER:
        if (used > 0 && strstr(now.call, "again") != NULL)
            listed[0].first_object ^= 3;
        break;
    case ONE_WITH_NORMAL_TEXT:
    case OTHER_TOTAL_SWAPPED:
        if (planted == ONE_WITH_NORMAL_TEXT ? strstr(now.call, "normal") == NULL : !is_swapped || answer->total == 0)
            break;
        answer->total++;
        if (entries > used)
            listed[used].first_object = listed[used].second_object = listed[used].first_value = listed[used].second_value = 1;
        break;
    case OTHER_TEXT_REFUSED:
        if (answer->which == 2)
            answer->which = 1;
        break;
    case BESIDE_THE_LIST:
        if (!ends && entries < 50)
            listed[entries + 1].first_value ^= 1;
        break;
    case PAST_THE_LIST:
        if (ends)
            listed[entries].first_object = 0;
        break;
    case READS_PAST_THE_SECOND:
        if (ends)
            read += bytes[length];
        break;
    case WRITES_THE_SECOND:
        if (length > 0)
            *(volatile uint8_t *)(uintptr_t)other = 'O';
        break;
    case READS_BESIDE_THE_SECOND:
        if (!ends)
            read += bytes[length];
        break;
    case DECIDES_BY_A_RECORD:
        if (entries > used && listed[used].first_object == 7)
            times++;
        break;
    default:
        break;
    }
}

// The same of `check_standard`.
static NOT_INSTRUMENTED unsigned spoil_standard(size_t *cells, unsigned answer) {
    if (answer != SOMETHING_WRONG)
        return answer;
    if (planted == ATTRIBUTE_36)
        cells[2] = STANDARD_ATTRIBUTES;
    if (planted == WRONG_AND_NO_NUMBER)
        cells[0] = 24;
    return answer;
}

// The same of `read` and `write` over lent texts.
static NOT_INSTRUMENTED unsigned spoil_texts(bool is_write, size_t *place, unsigned number) {
    volatile uint8_t *bytes = lent(&expanded);
    volatile size_t *cells = (size_t *)(void *)lent(&origins), *objects = (size_t *)(void *)lent(&tables[OBJECTS]);
    volatile const uint8_t *in_buffer = lent(&buffer);
    static volatile size_t times = 0;
    bool ends = now.side == ENDS_AT_GUARD, is_taken = number != TABLES_TOO_SHORT, is_expanded = is_taken && expected.is_told;
    bool is_read = !is_write, is_included = expected.text == 1;

    switch (planted) {
    case BYTE_PAST_THE_EXPANDED:
        if (is_read && is_expanded)
            bytes[expanded_length] ^= 1;
        break;
    case BYTE_OF_THE_EXPANDED:
        if (is_read && is_expanded)
            bytes[0] ^= 1;
        break;
    case ORIGIN_ONE_OFF:
        if (is_read && is_expanded && is_included && expanded_length > now.length)
            cells[now.length]++;
        break;
    case ORIGIN_PAST_THE_ROOM:
        if (is_read && is_taken && origins.length > LONGEST_TEXT * CELL)
            cells[LONGEST_TEXT] ^= 1;
        break;
    case PLACE_OF_THE_EXPANDED:
        if (number != 0 && is_taken && is_included && *place >= TEXT_STEP)
            *place -= TEXT_STEP;
        break;
    case ROW_OF_THE_EXPANDED:
        if (is_read && number == 0 && is_included)
            objects[1] -= TEXT_STEP;
        break;
    case NUMBER_3_FOR_A_HASH:
        return number == 29 ? 3 : number;
    case THIRTY_EXPANDS:
        if (is_read && number == 30 && !expected.is_told)
            bytes[0] ^= 1;
        break;
    case SHORT_ORIGINS_TAKEN:
        return origins.length < LONGEST_TEXT * CELL ? 30 : number;
    case SHORT_EXPANDED_WRITTEN:
        if (!is_taken)
            bytes[0] = 0;
        break;
    case READS_PAST_THE_BUFFER:
        if (ends)
            times += in_buffer[buffer.length];
        break;
    case WRITES_THE_LENGTHS:
        *(volatile size_t *)(void *)lent(&lengths) = 1;
        break;
    case READS_BESIDE_THE_BUFFER:
        if (!ends)
            times += in_buffer[buffer.length];
        break;
    case DECIDES_BY_AN_ORIGIN:
        if (is_read && is_expanded && cells[expanded_length] == 7)
            times++;
        break;
    default:
        break;
    }
    return number;
}

// The same of `kaukslini_value`.
static NOT_INSTRUMENTED void spoil_alone(unsigned char *bytes, size_t length, struct kaukslini_answer *answer) {
    static volatile size_t read = 0;
    volatile const unsigned char *path = lent(&second);

    switch (planted) {
    case VALUE_ON_REFUSAL_20:
        if (answer->number == KAUKSLINI_SHORT_OUTPUT && length > 0)
            bytes[0] ^= 1;
        break;
    case VALUE_NOT_FOUND:
        if (answer->number == KAUKSLINI_DONE) {
            answer->number = KAUKSLINI_NOT_FOUND;
            answer->length = 0;
        }
        break;
    case VALUE_PAST_THE_COPIED:
        if (answer->number == KAUKSLINI_DONE && answer->length < length)
            bytes[answer->length] ^= 1;
        break;
    case VALUE_READS_PAST_THE_PATH:
        if (now.side == ENDS_AT_GUARD)
            read += path[second.length];
        break;
    default:
        break;
    }
}

// The same of `kaukslini_mend_texts`.
static NOT_INSTRUMENTED void spoil_mend(unsigned number) {
    size_t *cells = (size_t *)(void *)lent(&told);

    switch (planted) {
    case MENDED_BYTE_IS_ANOTHER:
        if (number == 0)
            lent(output)[0] ^= 1;
        break;
    case LINE_ON_A_REFUSAL:
        if (number != 0 && lines.length > 0)
            lent(&lines)[0] ^= 1;
        break;
    case MENDED_LENGTH_IS_ANOTHER:
        if (number == 0)
            cells[1]--;
        break;
    case MEND_PAST_THE_MENDED:
        if (number == 0 && cells[1] < output->length)
            lent(output)[cells[1]] ^= 1;
        break;
    default:
        break;
    }
}

// Each fault, a part of what is to be reported, and whether it takes valgrind to see it.
static const struct {
    const char *name, *reported;
    bool by_valgrind;
} FAULTS[] = {
    [NO_FAULT] = {"nothing", "", false},
    [PAST_THE_ROOM] = {"a cell past the room is changed", "objects: a cell past the room is changed", false},
    [BESIDE_A_TABLE] = {"a cell behind a table is changed", "memory beside the lent objects is changed", false},
    [BEFORE_A_TABLE] = {"a cell before a table is changed", "memory beside the lent enumerators is changed", false},
    [PAST_A_TABLE] = {"a cell is stored past a table", "an access past the lent memory: values", false},
    [READS_BEFORE_A_TABLE] = {"a cell before a table is read", "an access before the lent memory: definitions", false},
    [READS_AN_EMPTY_TABLE] = {"an empty table is read", "an access past the lent memory: definitions", false},
    [READS_PAST_THE_TEXT] = {"the byte past the text is read", "an access past the lent memory: text", false},
    [READS_BEFORE_THE_TEXT] = {"the byte before the text is read", "an access before the lent memory: text", false},
    [WRITES_THE_TEXT] = {"the text is written", "a write to read-only memory: text", false},
    [PAST_THE_OUTPUT] = {"a byte is written past the output", "an access past the lent memory: output", false},
    [BESIDE_THE_OUTPUT] = {"a byte behind the output is changed", "memory beside the lent output is changed", false},
    [MEMSET_BESIDE_THE_OUTPUT] = {"memset goes past the output", "use-after-poison", false},
    [PAST_WHAT_IS_TOLD] = {"a cell past what is told is changed", "a cell past what is told is changed", false},
    [OUTPUT_ON_A_REFUSAL] = {"a refusal changes the output", "past the 0 written ones is changed", false},
    [OUTPUT_ON_REFUSAL_20] = {"refusal 20 changes the output", "past the 0 written ones is changed", false},
    [OUTPUT_ON_REFUSAL_1] = {"refusal 1 changes the output", "a write to read-only memory: output", false},
    [OUTPUT_PAST_THE_WRITTEN] = {"a byte past the written ones is changed", "past the 188 written ones is changed", false},
    [CELL_ON_A_REFUSAL] = {"a refusal leaves a cell", "values: an unused cell is not zero", false},
    [CELL_ON_REFUSAL_20] = {"refusal 20 leaves a cell", "enumerators: an unused cell is not zero", false},
    [CELL_ON_REFUSAL_1] = {"refusal 1 changes a cell", "a write to read-only memory: definitions", false},
    [CELL_OF_AN_UNUSED_ROW] = {"a cell of an unused row is left", "definitions: an unused cell is not zero", false},
    [CELL_OF_A_USED_ROW] = {"write leaves another row than read", "objects: the rows are not those of the first reading", false},
    [NUMBER_TOO_GREAT] = {"the number is 25", "the number is 25", false},
    [RETIRED_NUMBER] = {"the number is 10", "the number is 10", false},
    [PLACE_PAST_THE_TEXT] = {"the place is past the text", "the place is 2 of 1", false},
    [OBJECT_WITHOUT_PARTS] = {"an object has no part", "object 0 has 0 parts", false},
    [OBJECT_COUNTED_TWICE] = {"an object is counted twice", "4 objects are counted by kind, and there are 3", false},
    [ROWS_ON_A_REFUSAL] = {"a refused text has a definition", "told cell 1 of a refused text is 1", false},
    [OTHER_THE_SECOND_TIME] = {"the second answer is another", "the number is 4, and was 3", false},
    [OTHER_PLACE_OF_WRITE] = {"write tells another place than read", "told cell 0 is 1 for 0", false},
    [SHORT_TABLES_TAKEN] = {"too short tables are taken", "the number is 0 for 1, 18431 cells of values", false},
    [EXACT_OUTPUT_REFUSED] = {"an output of the exact length is refused", "the number is 20 for 0", false},
    [LONG_OUTPUT_REFUSED] = {"an output that is long enough is refused", "65535 bytes of output were refused, and 188 are written", false},
    [SHORT_OUTPUT_TAKEN] = {"an output that is too short is taken", "the number is 0 for 20", false},
    [OTHER_BYTE_WRITTEN] = {"a written byte is another the second time", "a written byte is not as it was", false},
    [REFUSED_TEXT_TAKEN] = {"a text that is refused is accepted", "known from how the text was made is 3 at 0", false},
    [DOES_NOT_END] = {"a call does not end", "the call does not end in time", false},
    [DECIDES_BY_A_LENT_CELL] = {"a lent cell that was not set decides", "valgrind reports 1 errors", true},
    [READS_BESIDE_THE_TEXT] = {"a byte behind the text is read", "valgrind reports 1 errors", true},
    [READS_BESIDE_A_TABLE] = {"a cell behind a table is read", "valgrind reports 1 errors", true},
    [CELL_OF_AN_UNSET_ONE] = {"a cell is made of one that was not set", "memory that the call is to set is not set", true},
    [BYTE_OF_AN_UNSET_ONE] = {"a written byte is made of one that was not set", "memory that the call is to set is not set", true},
    [HEADING_IS_6] = {"a heading is refused with 6", "the heading is refused with 6 at 15, and the text with 0 at 0", false},
    [HEADING_AT_ANOTHER_PLACE] = {"a heading is refused at another place", "the heading is refused with 3 at 1, and the text with 3 at 0", false},
    [HEADING_WITH_A_QUOTE] = {"a version has its closing quote", "the version of 4 bytes at 15 is not the inside of a string", false},
    [HEADING_OF_ANOTHER_NAME] = {"a name is told a byte later", "the name of 1 bytes at 37 is no word", false},
    [CELL_PAST_THE_HEADING] = {"a cell past a heading is changed", "a cell past what is told is changed", false},
    [HEADING_READS_PAST_THE_TEXT] = {"a heading reads past the text", "an access past the lent memory: text", false},
    [HEADING_READS_BESIDE_THE_TEXT] = {"a heading reads a byte behind the text", "valgrind reports 1 errors", true},
    [MASK_PAST_THE_EVENTS] = {"a mask past the events is changed", "a mask past the plan is changed", false},
    [MASK_OF_THREE_BITS] = {"a planned mask has three bits", "the plan is not accepted", false},
    [OTHER_COUNT_OF_MASKS] = {"a plan of another number of masks is told", "told cell 0 is 3 for 2", false},
    [RECORD_PAST_THOSE_USED] = {"a record past those used is changed", "a record past those used is changed", false},
    [RECORD_ON_A_REFUSAL] = {"a refusal changes a record", "a record past those used is changed", false},
    [RECORD_OF_NO_ROW] = {"a record tells an object that is not there", "a record of rows that are not there", false},
    [RECORD_IS_ANOTHER] = {"a record is another the second time", "a record is another the second time", false},
    [ONE_WITH_NORMAL_TEXT] = {"a text differs from its normal text", "1 differences of a text with its normal text", false},
    [OTHER_TOTAL_SWAPPED] = {"the total is another the other way", "the other way", false},
    [OTHER_TEXT_REFUSED] = {"the other text is said to be refused", "text 1 is said to be refused, and it is 2", false},
    [BESIDE_THE_LIST] = {"a record past the list is changed", "memory beside the lent list is changed", false},
    [PAST_THE_LIST] = {"a record is stored past the list", "an access past the lent memory: list", false},
    [READS_PAST_THE_SECOND] = {"the byte past the second text is read", "an access past the lent memory: second text", false},
    [WRITES_THE_SECOND] = {"the second text is written", "a write to read-only memory: second text", false},
    [READS_BESIDE_THE_SECOND] = {"a byte past the second text is read", "valgrind reports 1 errors", true},
    [DECIDES_BY_A_RECORD] = {"a record that was not set decides", "valgrind reports 1 errors", true},
    [ATTRIBUTE_36] = {"attribute 36 is told", "is told for attribute 36", false},
    [WRONG_AND_NO_NUMBER] = {"24 is told for a standard attribute", "24 at", false},
    [EXPECTED_WITHOUT_4] = {"a flag is set without a refusal 4", "is set at 0, and the text's number is 0", false},
    [BYTE_PAST_THE_EXPANDED] = {"a byte past the expanded text is changed", "expanded ones is changed", false},
    [BYTE_OF_THE_EXPANDED] = {"a byte of the expanded text is another", "the expanded text is another", false},
    [ORIGIN_ONE_OFF] = {"an origin is one off", "origin 174 is 1", false},
    [ORIGIN_PAST_THE_ROOM] = {"an origin past the room is changed", "an origin past the", false},
    [PLACE_OF_THE_EXPANDED] = {"a refusal's place is that of the expanded text", "the place in the lent texts is 0 for 65536", false},
    [ROW_OF_THE_EXPANDED] = {"a row's place is that of the expanded text", "objects: the rows of the lent texts are others", false},
    [NUMBER_3_FOR_A_HASH] = {"3 is told for a `#`", "the number of the lent texts is 3 for 29", false},
    [THIRTY_EXPANDS] = {"texts that are told wrong are expanded", "a byte past the 0 expanded ones is changed", false},
    [SHORT_ORIGINS_TAKEN] = {"too few origins are taken", "the number is 30 for 1, 65535 bytes and 65534 origins", false},
    [SHORT_EXPANDED_WRITTEN] = {"refusal 1 changes the expanded text", "a write to read-only memory: expanded text", false},
    [READS_PAST_THE_BUFFER] = {"the byte past the buffer is read", "an access past the lent memory: buffer", false},
    [WRITES_THE_LENGTHS] = {"a told length is written", "a write to read-only memory: lengths", false},
    [OTHER_LENGTH_OF_TEXTS] = {"another length of the normal text is told", "bytes for", false},
    [READS_BESIDE_THE_BUFFER] = {"a byte after the buffer is read", "valgrind reports 1 errors", true},
    [DECIDES_BY_AN_ORIGIN] = {"an origin that was not set decides", "valgrind reports 1 errors", true},
    [VALUE_ON_REFUSAL_20] = {"refusal 20 of a value changes the output", "past the 0 written ones is changed", false},
    [VALUE_NOT_FOUND] = {"a value that is there is not found", "past the 0 written ones is changed", false},
    [VALUE_PAST_THE_COPIED] = {"a byte past a value is changed", "written ones is changed", false},
    [VALUE_READS_PAST_THE_PATH] = {"the byte past the path is read", "an access past the lent memory: second text", false},
    [NORMAL_TEXT_WITH_A_PLACE] = {"normal text is told a place", "the normal text is not what was written", false},
    [HEADING_WITH_A_LONGER_NAME] = {"a longer name is told by kaukslini_heading", "the heading of the text alone is not that of the text", false},
    [EXPLAINS_PAST_THE_LINES] = {"a byte past the two lines is changed", "written ones is changed", false},
    [MENDED_BYTE_IS_ANOTHER] = {"a byte of an accepted text is mended", "an accepted text is mended to another", false},
    [LINE_ON_A_REFUSAL] = {"a refusal changes the lines", "a byte past the 0 bytes of lines is changed", false},
    [MENDED_LENGTH_IS_ANOTHER] = {"another length of the mended text is told", "an accepted text is mended to another", false},
    [MEND_PAST_THE_MENDED] = {"a byte past the mended text is changed", "written ones is changed", false},
};

enum { FAULT_COUNT = sizeof FAULTS / sizeof *FAULTS };

static const char WORKED[] = "OIL_VERSION = \"2.5\";\n"
                             "IMPLEMENTATION m { OS { BOOLEAN H = FALSE; }; TASK { UINT32 [1..0xff] STACKSIZE = 16; }; };\n"
                             "CPU c { OS o; APPMODE a {}; TASK t { STACKSIZE = 0x20; }; };\n";

static const char EVENTS[] = "OIL_VERSION = \"2.5\";\n"
                             "IMPLEMENTATION m { EVENT { UINT64 WITH_AUTO MASK = AUTO; }; TASK { EVENT_TYPE EVENT[]; }; };\n"
                             "CPU c { OS o; APPMODE a; EVENT e; EVENT f; TASK t { EVENT = e; EVENT = f; }; };\n";

static bool try_known(const char *bytes, unsigned number) {
    static char sort[] = "self-test";
    now.sort = now.name = sort;
    now.is_known = true;
    now.number = number;
    now.place = 0;
    now.length = strlen(bytes);
    memcpy(now.bytes, bytes, now.length);
    now.index++;
    return try_text();
}

// Whether all is said to hold of an accepted and a refused text, each tried twice with a planted fault or none; what is
// reported goes to `report`.
static bool try_planted(enum fault fault, char *report, size_t room_of_report) {
    int ends[2];
    if (pipe(ends) != 0)
        stop("pipe");
    fflush(stdout);
    pid_t child = fork();
    if (child < 0)
        stop("fork");
    if (child == 0) {
        dup2(ends[1], STDERR_FILENO);
        planted = fault;
#ifdef MEMCHECK
        most_seconds = 60;
#else
        most_seconds = 2;
#endif
        bool hold = true;
        for (int times = 0; times < 2 && hold; times++)
            hold = try_known(WORKED, 0) && try_known("#", 3) && try_known(EVENTS, 0);
        _exit(hold ? 0 : 1);
    }
    close(ends[1]);
    size_t length = 0;
    char rest[4096];
    for (;;) {
        bool is_full = length + 1 >= room_of_report;
        ssize_t got = is_full ? read(ends[0], rest, sizeof rest) : read(ends[0], report + length, room_of_report - length - 1);
        if (got <= 0)
            break;
        length += is_full ? 0 : (size_t)got;
    }
    report[length] = '\0';
    close(ends[0]);
    int status;
    if (waitpid(child, &status, 0) != child)
        stop("waitpid");
    return WIFEXITED(status) && WEXITSTATUS(status) == 0;
}

static int self_test(void) {
    static char report[1 << 14];
#ifdef MEMCHECK
    const bool by_valgrind = true;
#else
    const bool by_valgrind = false;
#endif
    int tried = 0, reported = 0;
    bool holds = try_planted(NO_FAULT, report, sizeof report);
    printf("nothing planted: %s\n", holds ? "nothing reported" : report);
    for (int fault = NO_FAULT + 1; fault < FAULT_COUNT; fault++) {
        if (FAULTS[fault].by_valgrind != by_valgrind)
            continue;
        bool is_reported = !try_planted((enum fault)fault, report, sizeof report) && strstr(report, FAULTS[fault].reported) != NULL;
        tried++;
        reported += is_reported;
        if (is_reported)
            printf("planted, %s: reported\n", FAULTS[fault].name);
        else
            printf("planted, %s: NOT REPORTED: %s\n", FAULTS[fault].name, report);
    }
    printf("%d faults planted, %d reported\n", tried, reported);
    return holds && reported == tried ? 0 : 1;
}

int main(int count, char **arguments) {
    make_regions();
    catch_traps();
    for (int t = 0; t < TABLES; t++) {
        first.rows[t] = malloc(room(t));
        expected.rows[t] = malloc(room(t));
        if (first.rows[t] == NULL || expected.rows[t] == NULL)
            stop("malloc");
    }
    first.written_room = USUAL_OUTPUT;
    first.written = malloc(first.written_room);
    if (first.written == NULL)
        stop("malloc");
    if (count == 2 && strcmp(arguments[1], "--self-test") == 0)
        return self_test();
    folder = count == 2 ? arguments[1] : NULL;
    return run();
}
