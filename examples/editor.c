/* What an editor asks of an OIL text: `editor KIND NAME PATH < text` prints the value of one attribute, or shows where the text is
 * at fault. README.md says how it is compiled. */
#include "kaukslini.h"
#include <stdio.h>
#include <string.h>

static const uint8_t *bytes(const char *word)
{
    return (const uint8_t *)word;
}

int main(int count, char **words)
{
    static uint8_t text[KAUKSLINI_TEXT + 1], output[KAUKSLINI_TEXT];
    struct kaukslini_answer answer;
    struct kaukslini_position at;
    size_t length;

    if (count != 4)
        return fputs("usage: editor KIND NAME PATH < text\n", stderr), 2;
    length = fread(text, 1, sizeof text, stdin);
    answer = kaukslini_value(text, length, bytes(words[1]), strlen(words[1]), bytes(words[2]), strlen(words[2]), bytes(words[3]),
                             strlen(words[3]), output, sizeof output);
    if (answer.number == KAUKSLINI_DONE)
        return fwrite(output, 1, answer.length, stdout), putchar('\n'), 0;
    if (answer.number == KAUKSLINI_NOT_FOUND)
        return puts("not found"), 1;
    at = kaukslini_explain(text, length, answer.place, output, sizeof output);
    printf("line %u, column %u: refusal %u\n", (unsigned)at.line, (unsigned)at.column, (unsigned)answer.number);
    fwrite(output, 1, at.length, stdout);
    return 1;
}
