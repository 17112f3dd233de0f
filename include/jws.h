/*
 * Compact JSON Web Signatures (RFC 7515) with HMAC-SHA-256: verify a token, sign one, and read a header's members.
 *
 * Link the archive (`-ljws` where it was installed by `make install`, else target/staticlib/libjws_ffi.a, which `make` writes; for a node's
 * own processor target/nodes/NAME/libjws.a, which `make nodes` writes) and the C library, of which memset and memcpy are called, on 32-bit
 * ARM by the names of its run-time ABI; for a Cortex-M0 also its functions that multiply and divide 64 bits. There is no heap, no global
 * state and no error but the answer, so calls may run on any threads at once.
 *
 * Of every call:
 * - a pointer comes with its length; where the length is 0, the pointer may be null and is not followed;
 * - lengths are 64 bits wide whatever the processor; a length times the size of what it counts is below 2^63, as in any object of C;
 * - bytes (token, table, header, payload) may stand at any address; words (`record`, `length`, `member`) stand at a multiple of 8, which is
 *   where C puts a uint64_t on each of these processors. ARM processors, but for the Cortex-M0, must let words be read at any address, as
 *   they do after reset (CCR.UNALIGN_TRP is 0) and, of 64 bits, in memory that is mapped as normal memory;
 * - what is lent for writing (the buffers, `record`, `length`, `member`) overlaps nothing else that is lent to the same call;
 * - `record`, `length` and `member` are never null;
 * - an answer is 0, or the number of the first rule that refuses, in the order said at each function. Any number but 0 is a refusal, also
 *   one that isn't listed below: later versions add numbers.
 *
 * After a refusal every byte and word that was lent for writing is 0. That is all that is cleared: what a call leaves in the dead part of
 * the stack, below the caller, stays there until something else is written over it. After jws_verify, refused or not, and after jws_sign
 * that may be the MAC of the token, of a forged one too, and the secret, plain and as HMAC's pads. Where others can read that memory,
 * make the call on a stack of its own and clear that stack afterwards: examples/verify.c shows how.
 */
#ifndef JWS_H
#define JWS_H

#include <stdint.h>

#ifdef __cplusplus
extern "C" {
#endif

/*
 * The number of this boundary: it goes up with each version in which a function takes other arguments or a record has other words.
 * A program whose header file and archive come by different ways compares it with jws_boundary(), the archive's number, at its start,
 * and makes no other call if they differ.
 */
#define JWS_BOUNDARY 1

uint32_t jws_boundary(void);

/* Answers. */
enum {
    JWS_DONE = 0,                /* done */
    JWS_TOKEN_TOO_LONG = 1,      /* the token has more than 32,768 bytes */
    JWS_BAD_TABLE = 2,           /* the table is bad */
    JWS_NOT_TWO_PERIODS = 3,     /* there are fewer than two periods, or more */
    JWS_NOT_BASE64URL = 4,       /* one of the three segments isn't strict */
    JWS_HEADER_TOO_LONG = 5,     /* the header has more than 4,096 bytes */
    JWS_BUFFER_TOO_SHORT = 6,    /* a buffer can't hold what belongs in it */
    JWS_NOT_DERIVED = 7,         /* the header isn't JSON by the grammar, or goes deeper than 16 */
    JWS_NAME_TWICE = 8,          /* an object in the header has a name twice */
    JWS_WRONG_KIND = 9,          /* `alg` is missing, or a member with a meaning isn't what it must be */
    JWS_CRITICAL = 10,           /* `crit` breaks its rules, or `fmt` stands there and isn't listed */
    JWS_WRONG_ALG = 11,          /* `alg` is another algorithm */
    JWS_NO_KEY = 12,             /* `kid` is missing, or no key has this id */
    JWS_ALG_NOT_ALLOWED = 13,    /* the key doesn't allow HS256 */
    JWS_FORMAT_NOT_ALLOWED = 14, /* the key doesn't allow the format, or there is no such format */
    JWS_SIGNATURE_DIFFERS = 15,  /* the signature is another one */
    JWS_NO_SUCH_MEMBER = 16      /* the header has no member k */
};

/* Kinds of a member's value. */
enum {
    JWS_STRING = 1,
    JWS_NUMBER = 2,
    JWS_TRUE = 3,
    JWS_FALSE = 4,
    JWS_NULL = 5,
    JWS_ARRAY = 6,
    JWS_OBJECT = 7
};

/* Words of jws_verify's record. */
enum {
    JWS_RECORD_HEADER_LENGTH = 0,  /* bytes of the decoded header */
    JWS_RECORD_PAYLOAD_LENGTH = 1, /* bytes of the payload */
    JWS_RECORD_KEY_INDEX = 2,      /* the key's index in the table, from 0 */
    JWS_RECORD_KID_PRESENT = 3,    /* 1: the header has `kid`, as every accepted one has; 0 after a refusal */
    JWS_RECORD_FORMAT = 4,         /* the format, 1 to 8 */
    JWS_RECORD_TYP_START = 5,      /* where the raw text of `typ` starts in the decoded header; 0 if absent */
    JWS_RECORD_TYP_LENGTH = 6,     /* its length in bytes; 0 if absent */
    JWS_RECORD_CTY_START = 7,      /* the same of `cty` */
    JWS_RECORD_CTY_LENGTH = 8,
    JWS_RECORD_WORDS = 9
};

/* Words of jws_member's member. A start is the place of the first byte, an end the place after the last. */
enum {
    JWS_MEMBER_KIND = 0,        /* JWS_STRING to JWS_OBJECT */
    JWS_MEMBER_NAME_START = 1,  /* the name, raw, between its quotation marks */
    JWS_MEMBER_NAME_END = 2,
    JWS_MEMBER_VALUE_START = 3, /* the value, raw: a string between its quotation marks, any other value whole */
    JWS_MEMBER_VALUE_END = 4,
    JWS_MEMBER_WORDS = 5
};

/* Limits, in bytes. */
enum {
    JWS_TOKEN_MAX = 32768,
    JWS_HEADER_MAX = 4096,
    JWS_PAYLOAD_MAX = 24576 /* 3/4 of JWS_TOKEN_MAX */
};

/*
 * Verifies a compact token against a key table.
 *
 * token:   the token's bytes, header '.' payload '.' signature.
 * table:   the key table.
 * header:  a buffer for the decoded header; JWS_HEADER_MAX bytes always suffice.
 * payload: a buffer for the payload; 3/4 of the token's length, and so JWS_PAYLOAD_MAX, always suffices.
 * record:  JWS_RECORD_WORDS words, JWS_RECORD_HEADER_LENGTH the first of them.
 *
 * Answers JWS_DONE, or the first of 1 to 15 in this order. After JWS_DONE each buffer holds its part of the token and then zeros.
 * After a refusal both buffers and all words of the record are 0, from end to end.
 */
uint8_t jws_verify(const uint8_t *token, uint64_t token_len, const uint8_t *table, uint64_t table_len, uint8_t *header,
                   uint64_t header_len, uint8_t *payload, uint64_t payload_len, uint64_t record[JWS_RECORD_WORDS]);

/*
 * The payload's length, by a record that jws_verify wrote and the length of the payload buffer that it filled: the payload is that many
 * of the buffer's first bytes. 0 if the record asks for more than the buffer has, and of the record of a refusal.
 */
uint64_t jws_payload(const uint64_t record[JWS_RECORD_WORDS], uint64_t payload_len);

/*
 * Signs a header and a payload by the key of the table that the header names by `kid`.
 *
 * header:  the header's bytes, as they shall stand in the token.
 * payload: the payload.
 * table:   the key table.
 * token:   a buffer for the token; JWS_TOKEN_MAX bytes always suffice.
 * length:  the token's length in bytes.
 *
 * Answers JWS_DONE, or the first of 2, 5, 7 to 14, then 1 (the finished token), then 6, in this order. After JWS_DONE the buffer holds
 * the token and then zeros. After a refusal the buffer and the length are 0, from end to end.
 */
uint8_t jws_sign(const uint8_t *header, uint64_t header_len, const uint8_t *payload, uint64_t payload_len,
                 const uint8_t *table, uint64_t table_len, uint8_t *token, uint64_t token_len, uint64_t *length);

/*
 * Reads member k, from 0, of a header's top object.
 *
 * header: the header's bytes.
 * member: JWS_MEMBER_WORDS words, JWS_MEMBER_KIND the first of them.
 *
 * Answers JWS_DONE, or the first of 5, 7, 8, 16 in this order: 5, 7 and 8 are the header's and the same for every k; 16 is for a k past
 * the last member. After a refusal all words of the member are 0.
 */
uint8_t jws_member(const uint8_t *header, uint64_t header_len, uint64_t k, uint64_t member[JWS_MEMBER_WORDS]);

#ifdef __cplusplus
}
#endif

#endif
