/* Times the proved verifier beside cjose's, in one run, on accepted tokens of 16,000 and of 179 bytes.

       cc -O2 -Iinclude rust/tools/beside_cjose.c target/staticlib/libjws_ffi.a -lcjose -lcrypto -ljansson -o beside_cjose
       ./beside_cjose < crates/verify_token/data/table.bin

   (Debian: libcjose-dev.) cjose has its key ready; the table is checked in each of our calls, and our buffers are dirty before it. OpenSSL takes
   the processor's SHA instructions where it has them: OPENSSL_ia32cap=:~0x20000000 keeps it from them, and :~0x20000020 from AVX2 too. */
#include <cjose/cjose.h>
#include <stdint.h>
#include <stdio.h>
#include <stdlib.h>
#include <string.h>
#include <time.h>

#include "jws.h"

static const char HEADER[] = "{\"alg\":\"HS256\",\"kid\":\"RFC 7515 A.1\"}";
static uint8_t table[8192], token[JWS_TOKEN_MAX], header[JWS_HEADER_MAX], payload[JWS_PAYLOAD_MAX], bytes[16000];

static void must(int holds, const char *what) {
    if (!holds) {
        fprintf(stderr, "beside_cjose: %s\n", what);
        exit(1);
    }
}

static double now(void) {
    struct timespec time;
    clock_gettime(CLOCK_MONOTONIC, &time);
    return time.tv_sec * 1e9 + time.tv_nsec;
}

/* The time of one call, which accepts the token. */
static double ours(size_t length, size_t table_length, size_t payload_length) {
    uint64_t record[JWS_RECORD_WORDS];
    memset(header, 0xA5, sizeof header);
    memset(payload, 0xA5, sizeof payload);
    double start = now();
    uint8_t answer = jws_verify(token, length, table, table_length, header, sizeof header, payload, sizeof payload, record);
    double time = now() - start;
    must(answer == 0 && memcmp(payload, bytes, payload_length) == 0, "the token isn't accepted");
    return time;
}

static double theirs(size_t length, const cjose_jwk_t *key, size_t payload_length) {
    cjose_err error;
    uint8_t *plain;
    size_t plain_length;
    double start = now();
    cjose_jws_t *jws = cjose_jws_import((const char *)token, length, &error);
    int good = jws && cjose_jws_verify(jws, key, &error) && cjose_jws_get_plaintext(jws, &plain, &plain_length, &error);
    double time = now() - start;
    must(good && plain_length == payload_length && memcmp(plain, bytes, plain_length) == 0, "cjose doesn't accept the token");
    cjose_jws_release(jws);
    return time;
}

static void row(size_t payload_length, int rounds, size_t table_length, const cjose_jwk_t *key) {
    uint64_t length;
    uint8_t answer = jws_sign((const uint8_t *)HEADER, strlen(HEADER), bytes, payload_length, table, table_length, token, sizeof token, &length);
    must(answer == 0, "the token isn't made");
    double least = 1e18, their_least = 1e18;
    for (int i = 0; i < rounds; i++) {
        double time = ours(length, table_length, payload_length), their_time = theirs(length, key, payload_length);
        least = time < least ? time : least;
        their_least = their_time < their_least ? their_time : their_least;
    }
    printf("verifying %u bytes: proved %.0f ns, cjose %.0f ns, proved/cjose %.2f\n", (unsigned)length, least, their_least, least / their_least);
}

int main(void) {
    size_t table_length = fread(table, 1, sizeof table, stdin);
    must(table_length > 20, "no table on standard input");
    for (size_t i = 0; i < sizeof bytes; i++)
        bytes[i] = (uint8_t)(i * 31 + 7);
    /* The first entry's secret: where it stands and its length, two bytes each. */
    size_t place = table[12] << 8 | table[13], length = table[14] << 8 | table[15];
    must(place + length <= table_length, "the table has another form");
    cjose_err error;
    cjose_jwk_t *key = cjose_jwk_create_oct_spec(table + place, length, &error);
    must(key != NULL, "cjose has no key");
    row(11930, 1500, table_length, key);
    row(64, 20000, table_length, key);
    cjose_jwk_release(key);
    return 0;
}
