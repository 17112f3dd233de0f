/*
 * Runs the calls of calls.bin and writes what each of them leaves to outcomes.bin: its answer, its words and every byte of what was lent, of
 * both kinds, with the bytes around it. Both files are described in rust/jws/examples/node_calls. To figures.bin go the counter's
 * difference and the stack of each call, 8 bytes each, after a line of the same form for a loop of LOOP rounds.
 *
 * What is lent stands as in an exact buffer between guards, at any alignment; words stand at multiples of 8.
 */
#include "jws.h"
#include "machine.h"

enum { TABLE_MAX = 8192, GUARD = 16, AREAS = 4, WORDS_MAX = JWS_RECORD_WORDS, GUARD_WORDS = 2, STACK_ROOM = 12288 };
/* The longest of each, and 8 KiB for guards and for what is longer, and refused. */
enum { ARENA = JWS_TOKEN_MAX + TABLE_MAX + JWS_HEADER_MAX + JWS_PAYLOAD_MAX + 8192 };
enum { LOOP = 100000 };
enum { VERIFY = 1, SIGN = 2, MEMBER = 3, PAYLOAD = 4, BOUNDARY = 5 };

static const uint64_t GARBAGE = 0xA5A5A5A5A5A5A5A5u;

/* A call as it stands in the file, little-endian as all of these machines are. */
struct call {
    uint32_t kind, shift, length[AREAS];
    uint64_t k;
};

static struct call call;
static uint8_t arena[ARENA] __attribute__((aligned(16)));
static uint8_t *area[AREAS];
static uint64_t words[WORDS_MAX + 2 * GUARD_WORDS];
static uint64_t record[JWS_RECORD_WORDS];
static uint64_t answer, began, ended;
static uintptr_t frame, low;

/* Which areas are read, and how many words are written, by the kind of call. */
static const uint32_t inputs[] = {0, 2, 3, 1, 0, 0};
static const uint32_t word_count[] = {0, JWS_RECORD_WORDS, 1, JWS_MEMBER_WORDS, 0, 0};

/* The four areas in the arena, guards around them; gives the arena's length. */
static uintptr_t lay_out(void)
{
    uintptr_t at = call.shift, i;
    for (i = 0; i < AREAS; i++) {
        at += GUARD;
        area[i] = arena + at;
        at += call.length[i];
    }
    at += GUARD;
    if (at > ARENA || call.kind > BOUNDARY) {
        machine_end(3);
    }
    for (i = 0; i < at; i++) {
        arena[i] = (uint8_t)GARBAGE;
    }
    for (i = 0; i < inputs[call.kind]; i++) {
        machine_read(CALLS, area[i], call.length[i]);
    }
    for (i = 0; call.k == 1 && call.kind <= SIGN && i < AREAS; i++) {
        if (call.length[i] == 0) {
            area[i] = 0;
        }
    }
    for (i = 0; i < sizeof words / sizeof words[0]; i++) {
        words[i] = GARBAGE;
    }
    return at;
}

/* Makes the call. It has no locals: below its frame's address stand the arguments that go by the stack, and the call's own stack. */
static __attribute__((noinline)) void make(void)
{
    frame = (uintptr_t)__builtin_frame_address(0);
    began = machine_ticks();
    switch (call.kind) {
    case VERIFY:
        answer = jws_verify(area[0], call.length[0], area[1], call.length[1], area[2], call.length[2], area[3], call.length[3],
                            words + GUARD_WORDS);
        break;
    case SIGN:
        answer = jws_sign(area[0], call.length[0], area[1], call.length[1], area[2], call.length[2], area[3], call.length[3],
                          words + GUARD_WORDS);
        break;
    case MEMBER:
        answer = jws_member(area[0], call.length[0], call.k, words + GUARD_WORDS);
        break;
    case PAYLOAD:
        answer = jws_payload(record, call.k);
        break;
    default:
        answer = jws_boundary();
    }
    ended = machine_ticks();
}

/* Fills the stack below its caller, from `low` on. */
static __attribute__((noinline)) void fill_stack(void)
{
    volatile uint8_t room[STACK_ROOM];
    uintptr_t i;
    for (i = 0; i < STACK_ROOM; i++) {
        room[i] = (uint8_t)GARBAGE;
    }
    low = (uintptr_t)room;
}

/* Makes the call on a filled stack, and gives how many bytes below its frame were written. */
static __attribute__((noinline)) uint64_t make_on_filled_stack(void)
{
    const volatile uint8_t *byte;
    fill_stack();
    make();
    byte = (const volatile uint8_t *)low;
    while (*byte == (uint8_t)GARBAGE) {
        byte++;
    }
    return frame - (uintptr_t)byte;
}

/* The next call of the file, if there is one. */
static int next(void)
{
    machine_read(CALLS, &call.kind, sizeof call.kind);
    if (call.kind == 0) {
        return 0;
    }
    machine_read(CALLS, &call.shift, sizeof call - sizeof call.kind);
    return 1;
}

int main(void)
{
    uint64_t figures[2];
    uintptr_t length;
    machine_open(CALLS, "calls.bin", 0);
    machine_open(OUTCOMES, "outcomes.bin", 1);
    machine_open(FIGURES, "figures.bin", 1);
    began = machine_ticks();
    machine_loop(LOOP);
    figures[0] = machine_ticks() - began;
    figures[1] = 0;
    machine_write(FIGURES, figures, sizeof figures);
    while (next()) {
        length = lay_out();
        if (call.kind == PAYLOAD) {
            machine_read(CALLS, record, sizeof record);
        }
        figures[1] = make_on_filled_stack();
        figures[0] = ended - began;
        machine_write(FIGURES, figures, sizeof figures);
        machine_write(OUTCOMES, &answer, sizeof answer);
        if (call.kind <= MEMBER) {
            machine_write(OUTCOMES, words, (word_count[call.kind] + 2 * GUARD_WORDS) * sizeof words[0]);
            machine_write(OUTCOMES, arena, length);
        }
    }
    machine_end(0);
}
