/*
 * Prints what a call leaves in the dead part of the stack. The call runs on a stack of its own, which is cleared afterwards.
 *
 *     residue verify FILE HEX...  standard input: the token; FILE: the key table
 *     residue sign FILE HEX...    standard input: the header; the payload is empty
 *
 * First the answer; then for each HEX the longest run of its bytes that stands in the stack, after the call and after clearing. The first
 * HEX is left there by the caller of the call: a search that finds nothing is so told from a stack with nothing in it.
 */
#include "own_stack.h"

enum { BYTES_MAX = 64, HEX_MAX = 32 };

static uint8_t input[JWS_TOKEN_MAX];
static uint8_t header[JWS_HEADER_MAX], payload[JWS_PAYLOAD_MAX], token[JWS_TOKEN_MAX];
static uint64_t record[JWS_RECORD_WORDS], token_length;
static size_t length;
static uint8_t answer;

static uint8_t bytes[HEX_MAX][BYTES_MAX];
static size_t counts[HEX_MAX];

static void leave(volatile uint8_t *left)
{
    size_t i;
    for (i = 0; i < counts[0]; i++) {
        left[i] = bytes[0][i];
    }
}

static void call_verify(void)
{
    volatile uint8_t left[BYTES_MAX];
    leave(left);
    answer = jws_verify(input, length, table, table_length, header, sizeof header, payload, sizeof payload, record);
}

static void call_sign(void)
{
    volatile uint8_t left[BYTES_MAX];
    leave(left);
    answer = jws_sign(input, length, payload, 0, table, table_length, token, sizeof token, &token_length);
}

/* Past the compiler, which could leave out stores that nothing reads. */
static void clear(void)
{
    volatile uint8_t *byte = stack;
    size_t i;
    for (i = 0; i < sizeof stack; i++) {
        byte[i] = 0;
    }
}

/* The length of the longest run of a HEX's bytes that stands in the stack. */
static size_t longest(int which)
{
    size_t at, from, run, best = 0;
    for (at = 0; at < ROOM; at++) {
        for (from = 0; from < counts[which]; from++) {
            run = 0;
            while (from + run < counts[which] && at + run < ROOM && stack[at + run] == bytes[which][from + run]) {
                run++;
            }
            best = run > best ? run : best;
        }
    }
    return best;
}

static void read_hex(const char *text, int which)
{
    unsigned value;
    while (counts[which] < BYTES_MAX && sscanf(text + 2 * counts[which], "%2x", &value) == 1) {
        bytes[which][counts[which]++] = (uint8_t)value;
    }
}

int main(int count, char **words)
{
    size_t found[HEX_MAX];
    int i;
    if (count < 4 || count > 3 + HEX_MAX || !read_table(words[2])) {
        return 2;
    }
    length = fread(input, 1, sizeof input, stdin);
    count -= 3;
    for (i = 0; i < count; i++) {
        read_hex(words[3 + i], i);
    }

    run(strcmp(words[1], "verify") == 0 ? call_verify : call_sign);
    for (i = 0; i < count; i++) {
        found[i] = longest(i);
    }
    clear();
    printf("%d\n", answer);
    for (i = 0; i < count; i++) {
        printf("%zu %zu\n", found[i], longest(i));
    }
    return 0;
}
