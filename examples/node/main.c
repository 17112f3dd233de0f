/*
 * A tank node: takes tokens off the line, one a line, and acts on those that are for it. Anything else leaves the setpoint as it is.
 *
 * The payload is four bytes, highest first: a tank number, and a temperature in tenths of a degree, from -10.0 to 45.0. The key allows
 * format 1 alone, so a token of any later format is refused (14) whatever its payload: the node never reads it by this one.
 */
#include "board.h"
#include "jws.h"

enum { TANK = 7, PAYLOAD_BYTES = 4, LEAST = -100, GREATEST = 450 };

/* The key table, as `jws-table build` writes it: one key, HS256 and format 1. In a real node it comes with the node's own secret. */
static const uint8_t table[60] = {
    0, 1, 0, 1, 0, 0, 0, 60,                /* edition, count, total length */
    0, 20, 0, 8, 0, 28, 0, 32, 1, 1, 0, 0,  /* id, secret, algorithms, formats */
    'c', 'e', 'l', 'l', 'a', 'r', ' ', '2', /* the id */
    '0', '1', '2', '3', '4', '5', '6', '7', '8', '9', 'a', 'b', 'c', 'd', 'e', 'f', /* the secret */
    '0', '1', '2', '3', '4', '5', '6', '7', '8', '9', 'a', 'b', 'c', 'd', 'e', 'f',
};

/*
 * No token of this node's is longer; a decoded part has 3/4 of its bytes at most. The longest token that there is, JWS_TOKEN_MAX bytes, fits
 * no board of 16 KiB: a line longer than this is never given to the library, and says nothing to this node.
 */
enum { TOKEN_ROOM = 512, PART_ROOM = TOKEN_ROOM / 4 * 3 };
static uint8_t token[TOKEN_ROOM + 1], header[PART_ROOM], payload[PART_ROOM];
static uint32_t token_length;
static uint64_t record[JWS_RECORD_WORDS];
static uint8_t answer;
static int32_t setpoint; /* tenths of a degree */

static void verify(void)
{
    answer = jws_verify(token, token_length, table, sizeof table, header, sizeof header, payload, sizeof payload, record);
}

/* Takes a line. Of one that is too long a byte more than there is room for counts, and no further one. */
static void receive_line(void)
{
    uint8_t byte;
    token_length = 0;
    while ((byte = board_receive()) != '\n') {
        if (token_length <= TOKEN_ROOM) {
            token[token_length++] = byte;
        }
    }
}

static void say(const char *text)
{
    while (*text != 0) {
        board_send((uint8_t)*text++);
    }
}

static void say_number(uint32_t number)
{
    if (number >= 10) {
        say_number(number / 10);
    }
    board_send((uint8_t)('0' + number % 10));
}

static void say_setpoint(void)
{
    uint32_t tenths = setpoint < 0 ? (uint32_t)-setpoint : (uint32_t)setpoint;
    say(setpoint < 0 ? "setpoint -" : "setpoint ");
    say_number(tenths / 10);
    board_send('.');
    board_send((uint8_t)('0' + tenths % 10));
    say("\n");
}

/* Acts on a payload, if it is a setpoint for this tank. */
static void act(uint64_t length)
{
    int32_t tenths = (int16_t)((uint16_t)payload[2] << 8 | payload[3]);
    if (length != PAYLOAD_BYTES || (payload[0] << 8 | payload[1]) != TANK || tenths < LEAST || tenths > GREATEST) {
        say("accepted, and nothing for this tank: ");
        return;
    }
    setpoint = tenths; /* and here the cooling is told */
}

int main(void)
{
    if (jws_boundary() != JWS_BOUNDARY) {
        say("jws.h and the archive are of different versions\n");
        return 1;
    }
    for (;;) {
        receive_line();
        if (token_length > TOKEN_ROOM) {
            say("too long for this node: ");
        } else {
            on_call_stack(verify);
            if (answer == JWS_DONE) {
                act(jws_payload(record, sizeof payload));
            } else {
                say("refused ");
                say_number(answer);
                say(": ");
            }
        }
        say_setpoint();
    }
}
