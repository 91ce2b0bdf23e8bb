/* count_tokens < FILE: how many bytes, lines and tokens a script has, and how many tokens of each kind, or why it is refused.
 *
 *     cc -Iinclude examples/c/count_tokens.c target/staticlib/liblexpage.a -o target/count_tokens
 *
 * Exit status: 0, 1 (the text is refused), 2 (no memory, or the input cannot be read). */
#include <inttypes.h>
#include <stdio.h>
#include <stdlib.h>

#include "lexpage.h"

enum { KINDS = 93, LINES_BUFFER = 3 };

static void *room(void *old, size_t bytes) {
    void *more = realloc(old, bytes);
    if (more == NULL) {
        fputs("count_tokens: no memory\n", stderr);
        exit(2);
    }
    return more;
}

/* The whole of standard input. */
static uint8_t *input(size_t *length) {
    size_t most = 4096;
    uint8_t *text = room(NULL, most);
    *length = 0;
    for (size_t got; (got = fread(text + *length, 1, most - *length, stdin)) > 0;) {
        *length += got;
        if (*length == most) {
            most *= 2;
            text = room(text, most);
        }
    }
    if (ferror(stdin)) {
        perror("count_tokens: standard input");
        exit(2);
    }
    return text;
}

/* The message of a failure, with the line and a caret. */
static void print_message(const uint8_t *text, size_t length) {
    uint64_t reply[16];
    uint8_t none = 0;
    lexpage_report(text, length, &none, 0, reply);
    if (reply[0] != 5) {
        return;
    }
    size_t least = reply[2];
    uint8_t *out = room(NULL, least);
    lexpage_report(text, length, out, least, reply);
    fwrite(out, 1, reply[1], stdout);
    putchar('\n');
    free(out);
}

static void print_refusal(const uint8_t *text, size_t length, const uint64_t *reply) {
    switch (reply[0]) {
    case 1:
        printf("refused: %" PRIu64 " bytes; at most 1048576 are read\n", reply[1]);
        break;
    case 2:
        printf("refused: not UTF-8 at byte %" PRIu64 "\n", reply[1]);
        break;
    case 3:
        print_message(text, length);
        break;
    case 4:
        printf("refused: line %" PRIu64 " would open a 17th level\n", reply[1]);
        break;
    default: /* a reading never refuses 6 or 7, and 5 is met with more room */
        printf("refused: %" PRIu64 "\n", reply[0]);
    }
}

static void print_counts(const uint64_t *header, const uint32_t *tokens) {
    uint64_t counts[KINDS] = {0}, step[16];
    size_t words = 5 * (size_t)header[3];
    for (size_t next = 0; lexpage_walk_step(tokens, words, next, step), step[1] == 1; next = step[2]) {
        counts[step[3]]++;
    }
    printf("%" PRIu64 " bytes, %" PRIu64 " lines, %" PRIu64 " tokens\n", header[1], header[2], header[3]);
    for (size_t kind = 0; kind < KINDS; kind++) {
        if (counts[kind] > 0) {
            printf("kind %zu: %" PRIu64 "\n", kind, counts[kind]);
        }
    }
}

int main(void) {
    size_t length, lines_len = 21, tokens_len = 5;
    uint8_t *text = input(&length);
    uint32_t *lines = room(NULL, lines_len * sizeof *lines);
    uint32_t *tokens = room(NULL, tokens_len * sizeof *tokens);
    uint64_t reply[16];
    /* Each 5 names a buffer and its least length: at most two rounds more. */
    while (lexpage_read(text, length, lines, lines_len, tokens, tokens_len, reply), reply[0] == 5) {
        if (reply[1] == LINES_BUFFER) {
            lines_len = reply[2];
            lines = room(lines, lines_len * sizeof *lines);
        } else {
            tokens_len = reply[2];
            tokens = room(tokens, tokens_len * sizeof *tokens);
        }
    }
    int refused = reply[0] != 0;
    if (refused) {
        print_refusal(text, length, reply);
    } else {
        print_counts(reply, tokens);
    }
    free(tokens);
    free(lines);
    free(text);
    return refused;
}
