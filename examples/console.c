/* The support console: what support asks about sessions, without a look at any text.

   Prints whether two sessions are alike: a gateway and its standby opened alike, then after a feed of one and the same
   bytes to the other; a copy; a shed, which encrypts. Then the place of counter blocks in their message, what a feed
   would cost, some refusals with their sentences, and that a session which was wiped is none.

  cc -std=c11 examples/console.c $(pkg-config --cflags --libs conguraha) -o console
*/
#include <conguraha.h>
#include <inttypes.h>
#include <stdio.h>

/* Fixed for the example: a real key is secret. The IV has 8 bytes of message number, 700, and 8 that count, m = 64;
   their start is such that the counter begins again at 0 after two blocks. */
static const uint8_t key[16] = {0x2b, 0x7e, 0x15, 0x16, 0x28, 0xae, 0xd2, 0xa6,
                                0xab, 0xf7, 0x15, 0x88, 0x09, 0xcf, 0x4f, 0x3c};
static const uint8_t iv[16] = {0, 0, 0, 0, 0, 0, 0x02, 0xbc, 0xff, 0xff, 0xff, 0xff, 0xff, 0xff, 0xff, 0xfe};
static const uint8_t received[100]; /* any bytes do here */

static void print_answer(const char *what, enum conguraha_answer answer)
{
    printf("%s: %d, %s\n", what, answer, conguraha_answer_text(answer));
}

static void print_alike(const char *what, const struct conguraha_session *one, const struct conguraha_session *other)
{
    printf("alike, %s: %s\n", what, conguraha_session_alike(one, other) ? "yes" : "no");
}

static enum conguraha_answer open_counter(struct conguraha_session *session, enum conguraha_direction direction)
{
    return conguraha_session_open_counter(session, CONGURAHA_CTR, direction, 128, 64, key, sizeof key, iv, sizeof iv);
}

static enum conguraha_answer feed(struct conguraha_session *session, size_t length)
{
    uint8_t text[sizeof received];
    return conguraha_session_feed_bytes(session, received, length, text, sizeof text, NULL);
}

static void print_place(const char *what, const uint8_t block[16])
{
    uint8_t increments[16];
    uint64_t place = 0;
    const enum conguraha_answer answer = conguraha_counter_place(iv, block, 64, increments);
    if (answer != CONGURAHA_OK) {
        print_answer(what, answer);
        return;
    }
    /* A place is below 2^m: with an m of at most 64 the first 8 bytes are 0, and the others fit. */
    for (size_t i = 8; i < sizeof increments; i++)
        place = place << 8 | increments[i];
    printf("%s: place %" PRIu64 "\n", what, place);
}

static void print_forecast(enum conguraha_mode mode, size_t n, size_t bits)
{
    size_t bytes, runs;
    const enum conguraha_answer answer = conguraha_forecast(mode, n, bits, &bytes, &runs);
    printf("forecast for n = %zu and %zu bits: %d, %s; %zu bytes, %zu runs\n", n, bits, answer,
           conguraha_answer_text(answer), bytes, runs);
}

int main(void)
{
    struct conguraha_session gateway, standby, copy, shed;
    uint8_t other[16];
    print_answer("open the gateway", open_counter(&gateway, CONGURAHA_DECRYPT));
    print_answer("open the standby", open_counter(&standby, CONGURAHA_DECRYPT));
    print_answer("open the shed", open_counter(&shed, CONGURAHA_ENCRYPT));
    print_alike("gateway and standby", &gateway, &standby);
    print_alike("gateway and shed, whose direction is the other", &gateway, &shed);
    print_answer("feed the gateway 80 bytes", feed(&gateway, 80));
    copy = gateway;
    print_alike("gateway and its copy", &gateway, &copy);
    print_alike("gateway and standby", &gateway, &standby);
    print_answer("feed the standby 48 bytes", feed(&standby, 48));
    print_answer("and 32", feed(&standby, 32));
    print_alike("gateway and standby", &gateway, &standby);

    printf("the gateway has processed %" PRIu64 " units\n", gateway.units);
    print_place("the next counter block", gateway.reg);
    memcpy(other, gateway.reg, sizeof other);
    other[7]++;
    print_place("the counter block of another message", other);

    print_forecast(CONGURAHA_CTR, 128, 8 * 100);
    print_forecast(CONGURAHA_CFB, 3, 8 * 99);
    print_forecast(CONGURAHA_CFB, 3, 8 * 100);

    print_answer("feed 20 bytes, the last of the message", feed(&gateway, 20));
    print_answer("feed 1 more", feed(&gateway, 1));
    print_answer("feed without room", conguraha_session_feed_bytes(&standby, received, 16, other, 15, NULL));
    print_answer("feed in place", conguraha_session_feed_bytes(&standby, other, 16, other, 16, NULL));
    print_answer("open with a key of 15 bytes",
                 conguraha_session_open(&standby, CONGURAHA_CBC, CONGURAHA_DECRYPT, 128, key, 15, iv, sizeof iv));

    conguraha_wipe(&gateway, sizeof gateway);
    conguraha_wipe(&standby, sizeof standby);
    conguraha_wipe(&copy, sizeof copy);
    conguraha_wipe(&shed, sizeof shed);
    print_answer("feed a wiped session", feed(&gateway, 16));
    return 0;
}
