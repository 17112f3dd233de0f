/*
 * Prints how many bytes of stack a call takes, from its return address on: the call runs on a stack of its own, which is filled with a
 * pattern first.
 *
 *     stack member K     standard input: the header
 *     stack verify FILE  standard input: the token; FILE: the key table
 *     stack sign FILE    standard input: the header; the payload is empty
 */
#include "own_stack.h"

#include <stdlib.h>

static uint8_t input[JWS_TOKEN_MAX];
static uint8_t header[JWS_HEADER_MAX], payload[JWS_PAYLOAD_MAX], token[JWS_TOKEN_MAX];
static uint64_t member[JWS_MEMBER_WORDS], record[JWS_RECORD_WORDS], token_length;
static size_t length, k;
static volatile uintptr_t frame;
static volatile uint8_t answer;

/* These have no locals. The call's return address, and the arguments that go by the stack, come right below the frame's address. */
static void call_member(void)
{
    frame = (uintptr_t)__builtin_frame_address(0);
    answer = jws_member(input, length, k, member);
}

static void call_verify(void)
{
    frame = (uintptr_t)__builtin_frame_address(0);
    answer = jws_verify(input, length, table, table_length, header, sizeof header, payload, sizeof payload, record);
}

static void call_sign(void)
{
    frame = (uintptr_t)__builtin_frame_address(0);
    answer = jws_sign(input, length, payload, 0, table, table_length, token, sizeof token, &token_length);
}

/* The bytes below the frame of `call`, down to the lowest one that is written. */
static size_t taken(void (*call)(void))
{
    size_t at = 0;
    run(call);
    while (at < ROOM && stack[at] == PATTERN) {
        at++;
    }
    return frame - (uintptr_t)(stack + at);
}

/* Prints the answer and the bytes of stack. */
int main(int count, char **words)
{
    void (*call)(void) = call_member;
    size_t bytes;
    if (count != 3) {
        return 2;
    }
    if (strcmp(words[1], "member") == 0) {
        k = strtoull(words[2], NULL, 10);
    } else if (!read_table(words[2])) {
        return 2;
    } else {
        call = strcmp(words[1], "verify") == 0 ? call_verify : call_sign;
    }
    length = fread(input, 1, sizeof input, stdin);
    bytes = taken(call);
    printf("%d %zu\n", answer, bytes);
    return 0;
}
