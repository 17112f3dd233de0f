/*
 * Verifies the payload of RFC 7515 A.1 under a header that names its key, prints what the token holds, and signs it again. Both calls run
 * on a stack of their own, which is cleared afterwards: what they leave there may be the MAC and the secret.
 *
 *     cc -std=c99 -Wall -Wextra -Werror -Iinclude examples/verify.c target/staticlib/libjws_ffi.a -o verify
 *     cc -std=c99 examples/verify.c $(pkg-config --cflags --libs jws) -o verify       after make install
 */
#define _XOPEN_SOURCE 700 /* ucontext.h */
#include "jws.h"

#include <stdio.h>
#include <string.h>
#include <ucontext.h>

/* One key: its id "RFC 7515 A.1", its secret of 64 bytes, HS256 and format 1 allowed. */
static const uint8_t table[96] = {
    0, 1, 0, 1, 0, 0, 0, 96,                           /* edition, count, total length */
    0, 20, 0, 12, 0, 32, 0, 64, 1, 1, 0, 0,            /* id, secret, algorithms, formats */
    'R', 'F', 'C', ' ', '7', '5', '1', '5', ' ', 'A', '.', '1', /* the id */
    0x03, 0x23, 0x35, 0x4b, 0x2b, 0x0f, 0xa5, 0xbc, 0x83, 0x7e, 0x06, 0x65, 0x77, 0x7b, 0xa6, 0x8f, /* the secret */
    0x5a, 0xb3, 0x28, 0xe6, 0xf0, 0x54, 0xc9, 0x28, 0xa9, 0x0f, 0x84, 0xb2, 0xd2, 0x50, 0x2e, 0xbf,
    0xd3, 0xfb, 0x5a, 0x92, 0xd2, 0x06, 0x47, 0xef, 0x96, 0x8a, 0xb4, 0xc3, 0x77, 0x62, 0x3d, 0x22,
    0x3d, 0x2e, 0x21, 0x72, 0x05, 0x2e, 0x4f, 0x08, 0xc0, 0xcd, 0x9a, 0xf5, 0x67, 0xd0, 0x80, 0xa3,
};

/* Its header: {"typ":"JWT","alg":"HS256","kid":"RFC 7515 A.1"} */
static const char token[] = "eyJ0eXAiOiJKV1QiLCJhbGciOiJIUzI1NiIsImtpZCI6IlJGQyA3NTE1IEEuMSJ9"
                            ".eyJpc3MiOiJqb2UiLA0KICJleHAiOjEzMDA4MTkzODAsDQogImh0dHA6Ly9leGFtcGxlLmNvbS9pc19yb290Ijp0cnVlfQ"
                            ".0ProYvRktBGSika-JrP2qSB7-nUzWXax5Np-pOrx8ak";
enum { TOKEN_LENGTH = sizeof token - 1 };

/* What the calls write. */
static uint8_t header[JWS_HEADER_MAX], payload[JWS_PAYLOAD_MAX], again[JWS_TOKEN_MAX];
static uint64_t record[JWS_RECORD_WORDS], length;
static uint8_t answer;

static void verify(void)
{
    answer = jws_verify((const uint8_t *)token, TOKEN_LENGTH, table, sizeof table, header, sizeof header, payload,
                        sizeof payload, record);
}

static void sign(void)
{
    answer = jws_sign(header, record[JWS_RECORD_HEADER_LENGTH], payload, jws_payload(record, sizeof payload), table,
                      sizeof table, again, sizeof again, &length);
}

/*
 * The calls' own stack. On a node this is the stack of a task that makes these calls and no others, and whoever waits for it clears it.
 * By its object code a call takes at most 5,080 bytes; the rest is for memset and memcpy, and for signals or interrupts.
 */
enum { CALL_STACK = 5080 + 8192 };
static uint8_t call_stack[CALL_STACK];
static ucontext_t here, there;

/* Runs a call on that stack and clears it. Returns how many bytes were found there that weren't 0, before clearing and after. */
static void on_its_own_stack(void (*call)(void), size_t left[2])
{
    volatile uint8_t *byte = call_stack; /* volatile: no store may be left out, though nothing of the call reads it again */
    size_t i;

    getcontext(&there);
    there.uc_stack.ss_sp = call_stack;
    there.uc_stack.ss_size = sizeof call_stack;
    there.uc_link = &here;
    makecontext(&there, call, 0);
    swapcontext(&here, &there);

    left[0] = left[1] = 0;
    for (i = 0; i < CALL_STACK; i++) {
        left[0] += byte[i] != 0;
        byte[i] = 0;
    }
    for (i = 0; i < CALL_STACK; i++) {
        left[1] += byte[i] != 0;
    }
}

/* "name: text" */
static void print(const char *name, const uint8_t *text, uint64_t count)
{
    printf("%s: %.*s\n", name, (int)count, (const char *)text);
}

int main(void)
{
    size_t left[2];

    if (jws_boundary() != JWS_BOUNDARY) {
        printf("jws.h and the archive are of different versions\n");
        return 1;
    }

    on_its_own_stack(verify, left);
    printf("answer: %d\n", answer);
    printf("stack: %lu bytes left by the call, %lu after clearing\n", (unsigned long)left[0], (unsigned long)left[1]);
    if (answer != JWS_DONE || left[1] != 0) {
        return 1;
    }
    printf("key: %lu\n", (unsigned long)record[JWS_RECORD_KEY_INDEX]);
    printf("format: %lu\n", (unsigned long)record[JWS_RECORD_FORMAT]);
    print("typ", header + record[JWS_RECORD_TYP_START], record[JWS_RECORD_TYP_LENGTH]);
    print("payload", payload, jws_payload(record, sizeof payload));

    on_its_own_stack(sign, left);
    if (answer != JWS_DONE || left[1] != 0 || length != TOKEN_LENGTH || memcmp(again, token, TOKEN_LENGTH) != 0) {
        printf("signed again: other bytes\n");
        return 1;
    }
    printf("signed again: the same %lu bytes\n", (unsigned long)length);
    return 0;
}
