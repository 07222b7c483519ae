/* The gateway's receive loop over a serial radio. A read ends anywhere, also inside a unit: what is no whole unit yet
   waits in front of the next read. A byte that is lost on the air is missing without a word.

   Of three lines byte 20 is lost, in every run. Prints what of the gateway's text is right, and the text, `?` where it
   may be wrong. CFB-8 comes right 16 segments after the loss. CFB-3 never does, with answer 0 throughout: 8 bits are
   no whole segments of 3, so all after them are cut in the wrong places. So it is wherever a byte is not whole units,
   in CFB-12 and with blocks too. There the loop drops bytes until whole units are missing, which it can where a frame's
   count tells how many were lost; from there on the text is right after 43 segments, in CFB-12 after 11.

  cc -std=c11 examples/receive.c $(pkg-config --cflags --libs conguraha) -o receive
*/
#include <conguraha.h>
#include <stdbool.h>
#include <stdio.h>

/* Fixed for the example: a real key is secret, and a real IV new for each session. */
static const uint8_t key[16] = {1, 2, 3, 4, 5, 6, 7, 8, 9, 10, 11, 12, 13, 14, 15, 16}, iv[16] = {7};
static const uint8_t lines[] = "12;HS 8471.30;qty 40;EUR 18200\n"
                               "13;HS 6109.10;qty 900;EUR 4150\n"
                               "14;HS 0901.21;qty 750;EUR 11300";
enum { LENGTH = sizeof lines - 1, SIZE = 48 };

/* What arrives, by places in what was sent. A frame starts with the count of the bytes that were sent before it. */
static const struct { size_t from, length; bool starts_frame; } reads[] = {
    {0, 7, true}, {7, 1, false}, {8, 12, false}, /* 20 is lost */ {21, 10, false}, {31, 2, true}, {33, 60, false}};

struct receiver {
    struct conguraha_session session;
    size_t n, whole;         /* bits of a unit, and the fewest bytes that are whole units */
    size_t counted, missing; /* bytes that came or are known to be lost; those of them that were lost or dropped */
    size_t held, ready;      /* bytes in the buffer and in the text */
    uint8_t buffer[SIZE], text[SIZE]; /* 127 are enough for any n, CONGURAHA_MAX_BYTES the most; 48 run full here */
};

/* The least common multiple: 1 byte for n = 8, 3 for n = 12 (2 units) and for n = 3 (8 units), 16 for a block. */
static size_t bytes_of_whole_units(size_t n)
{
    size_t bits = n;
    while (bits % 8 != 0)
        bits += n;
    return bits / 8;
}

/* A frame starts, before which `sent` bytes were sent. Where more came, some came from nowhere: then, too, bytes are
   dropped until the units line up, and `missing` is right modulo `whole` only. */
static void start_frame(struct receiver *gateway, size_t sent)
{
    if (sent >= gateway->counted)
        gateway->missing += sent - gateway->counted;
    else
        gateway->missing += gateway->whole - (gateway->counted - sent) % gateway->whole;
    gateway->counted = sent;
}

static enum conguraha_answer open_session(struct conguraha_session *session, enum conguraha_direction way, size_t n)
{
    return conguraha_session_open(session, CONGURAHA_CFB, way, n, key, sizeof key, iv, sizeof iv);
}

static enum conguraha_answer feed(struct receiver *gateway, size_t length)
{
    return conguraha_session_feed_bytes(&gateway->session, gateway->buffer, length, gateway->text + gateway->ready,
                                        SIZE - gateway->ready, NULL);
}

/* Takes what it has room for, and feeds the whole units. *read and *length are then what it did not take: nothing,
   unless a feed was refused, which has changed nothing. After ROOM hand the text on and call it again with them, even
   if nothing is left; after CLOSED, UNIT_LIMIT and COUNTER_LIMIT open a session under the IV that the sender gives
   next, and call it again. BITS, PART_UNIT, OVERLAP and NO_MODE tell of a mistake in the loop; this one gets none of
   them but BITS, for a buffer that is too small. A part of a unit waits: right for CFB, where its rest will come, but
   an OFB or CTR message may end with one, and its last feed must take that too. */
static enum conguraha_answer receive(struct receiver *gateway, const uint8_t **read, size_t *length)
{
    enum conguraha_answer answer;
    size_t taken = 0;
    if (gateway->whole > SIZE)
        return CONGURAHA_BITS; /* whole units would never be in the buffer */
    for (; taken < *length && gateway->missing % gateway->whole != 0; taken++)
        gateway->missing++; /* dropped */
    do {
        const size_t room = SIZE - gateway->held, rest = *length - taken, more = rest < room ? rest : room;
        memcpy(gateway->buffer + gateway->held, *read + taken, more);
        gateway->held += more, taken += more;
        const size_t whole = gateway->held - gateway->held % gateway->whole;
        answer = feed(gateway, whole);
        if (answer == CONGURAHA_NOT_OPENED && /* as at the start */
            open_session(&gateway->session, CONGURAHA_DECRYPT, gateway->n) == CONGURAHA_OK)
            answer = feed(gateway, whole);
        if (answer == CONGURAHA_OK) {
            gateway->held -= whole, gateway->ready += whole;
            memmove(gateway->buffer, gateway->buffer + whole, gateway->held);
        }
    } while (taken < *length && answer == CONGURAHA_OK);
    gateway->counted += taken, *read += taken, *length -= taken;
    return answer;
}

/* What the gateway handed on, to be shown. */
struct text { size_t length; uint8_t bytes[LENGTH]; };

static void hand_on(struct receiver *gateway, struct text *text)
{
    memcpy(text->bytes + text->length, gateway->text, gateway->ready);
    text->length += gateway->ready;
    gateway->ready = 0;
}

static void show(const struct receiver *gateway, const struct text *text, enum conguraha_answer answer)
{
    const size_t length = text->length, end = LENGTH - gateway->held;
    size_t front = 0, back = 0;
    while (front < length && text->bytes[front] == lines[front])
        front++;
    while (back < length && text->bytes[length - 1 - back] == lines[end - 1 - back])
        back++;
    printf("n = %zu, %zu bytes known to be lost or dropped, answer %d: ", gateway->n, gateway->missing, answer);
    printf("right before byte %zu, and from byte %zu on, of %zu\n", front, end - back, end);
    for (size_t i = 0; i < length; i++)
        putchar(i < front || i >= length - back ? text->bytes[i] : '?');
    putchar('\n');
}

static void run(size_t n, bool with_counts)
{
    struct receiver gateway = {.n = n, .whole = bytes_of_whole_units(n)};
    struct text text = {.length = 0};
    struct conguraha_session shed;
    uint8_t sent[LENGTH];
    enum conguraha_answer answer = open_session(&shed, CONGURAHA_ENCRYPT, n);
    if (answer == CONGURAHA_OK)
        answer = conguraha_session_feed_bytes(&shed, lines, LENGTH, sent, sizeof sent, NULL);
    for (size_t i = 0; i < sizeof reads / sizeof *reads && answer == CONGURAHA_OK; i++) {
        if (with_counts && reads[i].starts_frame)
            start_frame(&gateway, reads[i].from);
        const uint8_t *read = sent + reads[i].from;
        size_t length = reads[i].length;
        while ((answer = receive(&gateway, &read, &length)) == CONGURAHA_ROOM)
            hand_on(&gateway, &text);
    }
    hand_on(&gateway, &text);
    show(&gateway, &text, answer);
    conguraha_wipe(&gateway, sizeof gateway);
    conguraha_wipe(&shed, sizeof shed);
}

int main(void)
{
    run(8, false);
    run(3, false);
    run(3, true);
    run(12, true);
    return 0;
}
