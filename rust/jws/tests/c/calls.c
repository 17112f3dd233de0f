/* Calls the archive from C, and from C++: prints each answer and its words. Where a length is 0, the pointer is null. */
#include "jws.h"

#include <stdio.h>
#include <string.h>

static void show(const uint8_t *header, size_t length, size_t k)
{
    uint64_t member[JWS_MEMBER_WORDS];
    uint8_t answer;
    int i;
    memset(member, 0xA5, sizeof member);
    answer = jws_member(header, length, k, member);
    printf("%d", answer);
    for (i = 0; i < JWS_MEMBER_WORDS; i++) {
        printf(" %lu", (unsigned long)member[i]);
    }
    printf("\n");
}

static void show_text(const char *header, size_t k)
{
    show((const uint8_t *)header, strlen(header), k);
}

static void verify(const uint8_t *token, size_t token_length, const uint8_t *table, size_t table_length,
                   uint8_t *header, size_t header_length)
{
    uint64_t record[JWS_RECORD_WORDS];
    uint8_t answer;
    int i;
    memset(record, 0xA5, sizeof record);
    answer = jws_verify(token, token_length, table, table_length, header, header_length, NULL, 0, record);
    printf("%d", answer);
    for (i = 0; i < JWS_RECORD_WORDS; i++) {
        printf(" %lu", (unsigned long)record[i]);
    }
    printf("\n");
}

static uint64_t sign(const char *header, const uint8_t *table, size_t table_length, uint8_t *token, size_t token_length)
{
    uint64_t length = 1;
    uint8_t answer = jws_sign((const uint8_t *)header, header == NULL ? 0 : strlen(header), NULL, 0, table, table_length,
                              token, token_length, &length);
    printf("%d %lu\n", answer, (unsigned long)length);
    return length;
}

/* The payload's length by a record that says `length`, in a buffer of `room` bytes. */
static void payload_length(uint64_t length, size_t room)
{
    uint64_t record[JWS_RECORD_WORDS];
    memset(record, 0xA5, sizeof record);
    record[JWS_RECORD_PAYLOAD_LENGTH] = length;
    printf("%lu\n", (unsigned long)jws_payload(record, room));
}

/* Tables of no key, and of one key whose id, "k", lies inside its secret. */
static const uint8_t no_key[8] = {0, 1, 0, 0, 0, 0, 0, 8};
static const uint8_t one_key[52] = {0, 1, 0, 1, 0, 0, 0, 52, 0, 20, 0, 1, 0, 20, 0, 32, 1, 1, 0, 0, 'k'};

int main(void)
{
    uint8_t token[100], header[25];
    uint64_t length;
    static uint8_t spaces[JWS_HEADER_MAX + 1];
    memset(spaces, ' ', sizeof spaces);
    show(NULL, 0, 0);
    show_text("{\"alg\":\"HS256\"}", 0);
    show_text("{\"alg\":\"HS256\"}", 1);
    show_text("{\"alg\":\"HS256\"}", (size_t)-1);
    show_text("{\"alg\":\"HS256\",\"al\\u0067\":\"HS256\"}", 0);
    show_text("{\"alg\":\"HS256\",}", 0);
    show_text("{\"a\":1,\"b\":true,\"c\":false,\"d\":null,\"e\":[ ],\"f\":{ }}", 5);
    show(spaces, JWS_HEADER_MAX, 0);
    show(spaces, JWS_HEADER_MAX + 1, 0);
    verify(NULL, 0, no_key, sizeof no_key, NULL, 0);
    verify((const uint8_t *)"..", 2, no_key, sizeof no_key, NULL, 0);
    sign(NULL, NULL, 0, NULL, 0);
    sign("{\"alg\":\"HS256\"}", one_key, sizeof one_key, token, sizeof token);
    length = sign("{\"alg\":\"HS256\",\"kid\":\"k\"}", one_key, sizeof one_key, token, sizeof token);
    verify(token, length, one_key, sizeof one_key, header, sizeof header);
    payload_length(13, 13);
    payload_length(13, 12);
    printf("%d\n", jws_boundary() == JWS_BOUNDARY);
    return 0;
}
