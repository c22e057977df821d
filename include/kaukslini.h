/* Kaukslini: a reader of OIL 2.5 texts, for programs in C and C++.
 *
 * A text is bytes, in any encoding and without a closing NUL; it is read alone, without the files that it includes. A call keeps
 * nothing, allocates nothing and may be made from several threads at once. It reads and writes only the memory that it is lent:
 * `X` and `X_length` are the first byte and how many there are. A pointer may be NULL where its length is 0. What is lent for
 * reading must not overlap what is lent for writing.
 *
 * Each call needs KAUKSLINI_STACK bytes of its thread's stack.
 */
#ifndef KAUKSLINI_H
#define KAUKSLINI_H

#include <stddef.h>
#include <stdint.h>

#ifdef __cplusplus
extern "C" {
#endif

/* The numbers of answers. All but KAUKSLINI_DONE and KAUKSLINI_NOT_FOUND are refusals; docs/REFUSALS.md says of each what it means
 * and what to do. */
enum kaukslini_number {
    KAUKSLINI_DONE = 0,
    KAUKSLINI_NO_TOKEN = 3,       /* no token; string or comment without an end */
    KAUKSLINI_NOT_ADMITTED = 4,   /* a token that the grammar does not admit, or the text ends early */
    KAUKSLINI_TOO_DEEP = 5,       /* the seventeenth open brace */
    KAUKSLINI_OTHER_VERSION = 6,  /* the version string is not 2.5 */
    KAUKSLINI_MANY_DEFINED = 7,   /* definition 513 or enumerator 1,025 */
    KAUKSLINI_DEFINED_AGAIN = 8,  /* a kind, an attribute of a scope or an enumerator of a list, a second time */
    KAUKSLINI_OTHER_TYPE = 9,     /* one name under two values of an attribute with two types */
    KAUKSLINI_MANY_APPLIED = 11,  /* object 257, part 513 or statement 2,049 */
    KAUKSLINI_NOT_DEFINED = 13,   /* a name that is not defined in its scope */
    KAUKSLINI_STATED_AGAIN = 14,  /* a single attribute stated again */
    KAUKSLINI_WRONG_VALUE = 15,   /* a value that its attribute does not take; braces after a reference */
    KAUKSLINI_NOT_STATED = 16,    /* an attribute that must be stated is not */
    KAUKSLINI_COUNT_OF_KIND = 17, /* too few or too many objects of a kind */
    KAUKSLINI_NO_OBJECT = 18,     /* a reference to no object of its kind */
    KAUKSLINI_MANY_VALUES = 19,   /* more than 2,048 resolved values */
    KAUKSLINI_SHORT_OUTPUT = 20,  /* the output is too short */
    KAUKSLINI_WRONG_BOUND = 21,   /* a bound or listed number outside its type, or a low above its high */
    KAUKSLINI_WRONG_DEFAULT = 22, /* a default outside type, range or enumerator list */
    KAUKSLINI_AUTO_DEFAULT = 23,  /* AUTO as a default without WITH_AUTO */
    KAUKSLINI_OTHER_KIND = 24,    /* a name already used by an object of another kind */
    KAUKSLINI_OPEN_TEXT = 27,     /* a text that includes itself */
    KAUKSLINI_NO_TEXT = 28,       /* an include line: the file is not lent */
    KAUKSLINI_NO_INCLUDE = 29,    /* a `#` that begins no include line */
    KAUKSLINI_LONG_TEXT = 30,     /* the text is longer than KAUKSLINI_TEXT */
    KAUKSLINI_NOT_FOUND = 255     /* no such value */
};

/* Sizes in bytes. */
enum {
    KAUKSLINI_TEXT = 65535,   /* the longest text, and so the longest value */
    KAUKSLINI_PICTURE = 157,  /* enough for what kaukslini_explain writes */
    KAUKSLINI_STACK = 983040 /* enough stack for a call */
};

/* What a call answers: a number of enum kaukslini_number; the byte of the text at which it is refused, counted from 0, and 0 for
 * every other answer; how many bytes of the output were written, 0 where none were. */
struct kaukslini_answer {
    size_t number;
    size_t place;
    size_t length;
};

/* The normal text of a text, to the front of the output: every value stated, in the order of the definitions. A normal text may
 * be longer than its text: after KAUKSLINI_SHORT_OUTPUT ask again with a longer output. Where the number is not KAUKSLINI_DONE, the
 * output stays as it was; else the bytes past the normal text stay. */
struct kaukslini_answer kaukslini_normal_text(const uint8_t *text, size_t text_length, uint8_t *output, size_t output_length);

/* The value of one attribute, to the front of the output, as normal text writes it: a number in decimal, a string with its
 * quotes, without what is in braces after it. The attribute is that of the object of this kind (`TASK`) and name, by a path of
 * names with dots between them (`SCHEDULE.PERIOD`); `[n]` after a list's name is its entry n, counted from 0, and without it
 * entry 0. The number is KAUKSLINI_DONE, KAUKSLINI_NOT_FOUND, KAUKSLINI_SHORT_OUTPUT, or the text's own refusal, which comes
 * first; where it is not KAUKSLINI_DONE, the output stays as it was. KAUKSLINI_TEXT bytes are enough for every value. */
struct kaukslini_answer kaukslini_value(const uint8_t *text, size_t text_length, const uint8_t *kind, size_t kind_length,
                                        const uint8_t *name, size_t name_length, const uint8_t *path, size_t path_length,
                                        uint8_t *output, size_t output_length);

/* Where the version string, inside its quotes, and the implementation's name stand in a text, from byte 0, and how long they are;
 * or the number and the place of a refusal, with 0 for all others. */
struct kaukslini_version_and_name {
    size_t number;
    size_t place;
    size_t version;
    size_t version_length;
    size_t name;
    size_t name_length;
};

/* Version and name, told from the front of a text, through the brace after the name: what stands after it may be at fault. */
struct kaukslini_version_and_name kaukslini_heading(const uint8_t *text, size_t text_length);

/* Line and column of a place, both counted from 1, the column in characters where the bytes before the place in its line are UTF-8,
 * and else in bytes; the length of the two lines that show it. */
struct kaukslini_position {
    size_t line;
    size_t column;
    size_t length;
};

/* Line and column of a place of a text, such as that of a refusal; and to the front of the output two lines for people, as far as
 * it reaches: what stands around the place, and a mark under the token there. Each ends in LF; what is not printable is shown as `?`. The text
 * may be of any length; a place past it is its end. */
struct kaukslini_position kaukslini_explain(const uint8_t *text, size_t text_length, size_t place, uint8_t *output,
                                            size_t output_length);

#ifdef __cplusplus
}
#endif

#endif
