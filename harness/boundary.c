/* The boundary as a program in C or C++ meets it. All that a call is lent stands in one struct, each thing between
   known bytes, and after the call the whole struct is compared with what the call may have made of it. So a byte
   beside its place shows, and so does a field that is wider or narrower in the library than in the header. Each case
   is put to the export, of whose result every byte is compared, and to the calls of the header over it. The texts are
   those of FIPS 197, SP 800-38A and RFC 3962. Ends with status 0 where all is as expected. */
#include "conguraha.h"
#include <stdio.h>

CONGURAHA_ASSERT(most_units, CONGURAHA_MAX_UNITS == 18446744073709551615u);
CONGURAHA_ASSERT(most_bits, CONGURAHA_MAX_BITS == 8 * CONGURAHA_MAX_BYTES);

#define COUNT(list) (sizeof(list) / sizeof *(list))
#define MOST CONGURAHA_MAX_BYTES
#define KNOWN 0xa5
/* Bytes that no program can read: a call that is lent them and comes back has read none. */
#define UNREADABLE ((pointer)(UINTPTR_MAX - 15))
typedef const uint8_t *pointer;

#define LENT(PART)                                \
    PART(uint8_t, key, [48])                      \
    PART(uint8_t, iv, [32])                       \
    PART(uint8_t, block, [CONGURAHA_BLOCK])       \
    PART(uint8_t, made, [CONGURAHA_BLOCK])        \
    PART(uint8_t, keys, [CONGURAHA_KEYS])         \
    PART(size_t, rounds, )                        \
    PART(size_t, runs, )                          \
    PART(size_t, bytes, )                         \
    PART(size_t, bits, )                          \
    PART(pointer, found, )                        \
    PART(struct conguraha_session, session, )     \
    PART(struct conguraha_session, other, )       \
    PART(struct conguraha_session32, older, )     \
    PART(struct conguraha_neighbour, neighbour, ) \
    PART(uint8_t, input, [96])                    \
    PART(uint8_t, out, [96])                      \
    PART(uint8_t, large_input, [MOST + 16])       \
    PART(uint8_t, large_out, [MOST + 16])

#define GUARDED(type, name, size) \
    uint8_t before_##name[16];    \
    type name size;
struct lent {
    LENT(GUARDED)
    uint8_t last[16];
};

#define NAMED(type, name, size) {offsetof(struct lent, name), #name},
static const struct {
    size_t at;
    const char *name;
} PARTS[] = {LENT(NAMED)};

static struct lent lent, before, expected;
static size_t in_use = offsetof(struct lent, large_input); /* the large parts only where they are lent */
static int checks, failures;

static void fill(void) { memset(&lent, KNOWN, in_use); }

/* A case begins: then what is to change is put into `expected`, and the calls are tried, each from what is lent now. */
static void lend(void)
{
    memcpy(&before, &lent, in_use);
    memcpy(&expected, &lent, in_use);
}
#define TRY(what, at, call, wanted) (memcpy(&lent, &before, in_use), check(what, at, (size_t)(call), wanted))

static void check(const char *what, size_t at, size_t answer, size_t wanted)
{
    const uint8_t *came = (const uint8_t *)&lent, *should = (const uint8_t *)&expected;
    size_t i = 0, part = COUNT(PARTS) - 1;
    checks++;
    if (answer == wanted && memcmp(came, should, in_use) == 0)
        return;
    failures++;
    while (i < in_use && came[i] == should[i])
        i++;
    while (part > 0 && PARTS[part].at > i)
        part--;
    printf("FAILED %s (%zu): answered %zu, expected %zu", what, at, answer, wanted);
    if (i < in_use)
        printf("; %s[%td] is %02x, expected %02x", PARTS[part].name, (ptrdiff_t)(i - PARTS[part].at), came[i],
               should[i]);
    printf("\n");
}

static size_t hex(uint8_t *bytes, const char *digits)
{
    static const char DIGITS[] = "0123456789abcdef";
    size_t count = 0;
    for (; digits[0] != '\0'; digits += 2)
        bytes[count++] = (uint8_t)((strchr(DIGITS, digits[0]) - DIGITS) * 16 + (strchr(DIGITS, digits[1]) - DIGITS));
    return count;
}

/* Of more bytes than a call takes, more bits than it takes. */
static size_t bits_of(size_t bytes) { return bytes <= MOST ? 8 * bytes : SIZE_MAX; }

/* Where nothing is lent. */
static pointer or_null(pointer bytes, size_t length) { return length ? bytes : NULL; }

/* ---- keys and blocks */

/* FIPS 197, appendix A: the bytes of a key, its rounds, and its round keys, of which the first are the key. */
static const struct {
    size_t length, rounds;
    const char *keys;
} EXPANSIONS[] = {
    {16, 10,
     "2b7e151628aed2a6abf7158809cf4f3ca0fafe1788542cb123a339392a6c7605f2c295f27a96b9435935807a7359f67f"
     "3d80477d4716fe3e1e237e446d7a883bef44a541a8525b7fb671253bdb0bad00d4d1c6f87c839d87caf2b8bc11f915bc"
     "6d88a37a110b3efddbf98641ca0093fd4e54f70e5f5fc9f384a64fb24ea6dc4fead27321b58dbad2312bf5607f8d292f"
     "ac7766f319fadc2128d12941575c006ed014f9a8c9ee2589e13f0cc8b6630ca6"},
    {24, 12,
     "8e73b0f7da0e6452c810f32b809079e562f8ead2522c6b7bfe0c91f72402f5a5ec12068e6c827f6b0e7a95b95c56fec2"
     "4db7b4bd69b5411885a74796e92538fde75fad44bb095386485af05721efb14fa448f6d94d6dce24aa326360113b30e6"
     "a25e7ed583b1cf9a27f939436a94f767c0a69407d19da4e1ec1786eb6fa64971485f703222cb8755e26d135233f0b7b3"
     "40beeb282f18a2596747d26b458c553ea7e1466c9411f1df821f750aad07d753ca4005388fcc5006282d166abc3ce7b5"
     "e98ba06f448c773c8ecc720401002202"},
    {32, 14,
     "603deb1015ca71be2b73aef0857d77811f352c073b6108d72d9810a30914dff49ba354118e6925afa51a8b5f2067fcde"
     "a8b09c1a93d194cdbe49846eb75d5b9ad59aecb85bf3c917fee94248de8ebe96b5a9328a2678a647983122292f6c79b3"
     "812c81addadf48ba24360af2fab8b46498c5bfc9bebd198e268c3ba709e0421468007bacb2df331696e939e46c518d80"
     "c814e20476a9fb8a5025c02d59c58239de1369676ccc5a71fa2563959674ee155886ca5d2e2f31d77e0af1fa27cf73c3"
     "749c47ab18501ddae2757e4f7401905acafaaae3e4d59b349adf6acebd10190dfe4890d1e6188d0b046df344706c631e"},
};
static const size_t NO_KEY[] = {0, 1, 15, 17, 23, 25, 31, 33, 48};

static void expand(size_t length, size_t wanted)
{
    pointer key = or_null(lent.key, length);
    TRY("aes_expand", length, conguraha1_aes_expand(key, length, &lent.rounds, lent.keys), wanted);
    TRY("aes_expand", length, conguraha_aes_expand(key, length, &lent.rounds, lent.keys), wanted);
}

static void expansions(void)
{
    for (size_t i = 0; i < COUNT(EXPANSIONS); i++) {
        uint8_t keys[CONGURAHA_KEYS] = {0};
        hex(keys, EXPANSIONS[i].keys);
        fill();
        memcpy(lent.key, keys, EXPANSIONS[i].length);
        lend();
        expected.rounds = EXPANSIONS[i].rounds;
        memcpy(expected.keys, keys, sizeof keys);
        expand(EXPANSIONS[i].length, CONGURAHA_OK);
        fill();
        memcpy(lent.keys, keys, EXPANSIONS[i].length);
        lend();
        expected.rounds = EXPANSIONS[i].rounds;
        memcpy(expected.keys, keys, sizeof keys);
        TRY("aes_expand, in place", i, conguraha_aes_expand(lent.keys, EXPANSIONS[i].length, &lent.rounds, lent.keys),
            CONGURAHA_OK);
    }
    for (size_t i = 0; i < COUNT(NO_KEY); i++) {
        fill();
        lend();
        expected.rounds = 0;
        memset(expected.keys, 0, sizeof expected.keys);
        expand(NO_KEY[i], CONGURAHA_KEY_LENGTH);
    }
}

/* FIPS 197, appendix C: a key, and the block under it. */
static const char *const PLAIN = "00112233445566778899aabbccddeeff";
static const struct {
    const char *key, *cipher;
} BLOCKS[] = {
    {"000102030405060708090a0b0c0d0e0f", "69c4e0d86a7b0430d8cdb78070b4c55a"},
    {"000102030405060708090a0b0c0d0e0f1011121314151617", "dda97ca4864cdfe06eaf70a0ec0d7191"},
    {"000102030405060708090a0b0c0d0e0f101112131415161718191a1b1c1d1e1f", "8ea2b7ca516745bfeafc49904b496089"},
};
typedef uint8_t (*block_export)(pointer, size_t, pointer, uint8_t *);
typedef enum conguraha_answer (*block_call)(pointer, size_t, pointer, uint8_t *);
static const block_export BLOCK_EXPORTS[] = {conguraha1_aes_encrypt, conguraha1_aes_decrypt};
static const block_call BLOCK_CALLS[] = {conguraha_aes_encrypt, conguraha_aes_decrypt};

/* lent.block becomes `made`, in lent.made and in place. */
static void one_block(int decrypting, size_t length, const char *made, size_t wanted)
{
    pointer key = or_null(lent.key, length);
    lend();
    hex(expected.made, made);
    TRY("one block", length, BLOCK_EXPORTS[decrypting](key, length, lent.block, lent.made), wanted);
    TRY("one block", length, BLOCK_CALLS[decrypting](key, length, lent.block, lent.made), wanted);
    memcpy(expected.block, expected.made, CONGURAHA_BLOCK);
    memcpy(expected.made, before.made, CONGURAHA_BLOCK);
    TRY("one block, in place", length, BLOCK_CALLS[decrypting](key, length, lent.block, lent.block), wanted);
}

static void blocks(void)
{
    for (size_t i = 0; i < COUNT(BLOCKS); i++) {
        fill();
        size_t length = hex(lent.key, BLOCKS[i].key);
        hex(lent.block, PLAIN);
        one_block(0, length, BLOCKS[i].cipher, CONGURAHA_OK);
        one_block(1, length, PLAIN, CONGURAHA_OK); /* of what the first left there */
    }
    for (size_t i = 0; i < COUNT(NO_KEY); i++)
        for (int decrypting = 0; decrypting < 2; decrypting++) {
            fill();
            one_block(decrypting, NO_KEY[i], "00000000000000000000000000000000", CONGURAHA_KEY_LENGTH);
        }
}

/* ---- sessions */

/* SP 800-38A, appendix F: two blocks under the first key above, and the register after them. */
static const char *const KEY = "2b7e151628aed2a6abf7158809cf4f3c";
static const char *const TEXT = "6bc1bee22e409f96e93d7e117393172aae2d8a571e03ac9c9eb76fac45af8e51";
static const struct {
    const char *iv, *cipher, *reg;
} TEXTS[] = {
    {"", "3ad77bb40d7a3660a89ecaf32466ef97f5d3d58503b9699de785895a96fdbaaf", "00000000000000000000000000000000"},
    {"000102030405060708090a0b0c0d0e0f", "7649abac8119b246cee98e9b12e9197d5086cb9b507219ee95db113a917678b2",
     "5086cb9b507219ee95db113a917678b2"},
    {"000102030405060708090a0b0c0d0e0f", "3b3fd92eb72dad20333449f8e83cfb4ac8a64537a0b3a93fcde3cdad9f1ce58b",
     "c8a64537a0b3a93fcde3cdad9f1ce58b"},
    {"000102030405060708090a0b0c0d0e0f", "3b3fd92eb72dad20333449f8e83cfb4a7789508d16918f03f53c52dac54ed825",
     "d9a4dada0892239f6b8b3d7680e15674"},
    {"f0f1f2f3f4f5f6f7f8f9fafbfcfdfeff", "874d6191b620e3261bef6864990db6ce9806f66b7970fdff8617187bb9fffdff",
     "f0f1f2f3f4f5f6f7f8f9fafbfcfdff01"},
};
/* A block of zero bytes; CTR's first block, and the counter block after it. */
static const char *const ZERO_BLOCK = "7df76b0c1ab899b33e42f047b91b546f";
static const char *const FIRST = "874d6191b620e3261bef6864990db6ce", *const SECOND = "f0f1f2f3f4f5f6f7f8f9fafbfcfdff00";
static const size_t NO_COUNTER[] = {0, 129, 255, 256 + 128, 4294967296u + 128, SIZE_MAX};
static const size_t NO_MODE[] = {5, 6, 7, 255, 256, 258, 65538, 4294967298u, SIZE_MAX};

static size_t take_opened(struct conguraha_opened opened)
{
    lent.session = opened.session;
    return opened.number;
}

static size_t take_fed(struct conguraha_fed fed)
{
    lent.session = fed.session;
    lent.runs = fed.runs;
    return fed.number;
}

/* `expected` has the session. */
static void opens(size_t mode, uint8_t decrypting, size_t n, size_t m, size_t key_length, size_t iv_length,
                  size_t wanted)
{
    pointer key = or_null(lent.key, key_length), iv = or_null(lent.iv, iv_length);
    enum conguraha_direction way = decrypting ? CONGURAHA_DECRYPT : CONGURAHA_ENCRYPT;
    TRY("open_counter", m,
        take_opened(conguraha1_open_counter(mode, decrypting, n, m, key, key_length, iv, iv_length)), wanted);
    if (m == 128)
        TRY("open", mode, take_opened(conguraha1_open(mode, decrypting, n, key, key_length, iv, iv_length)), wanted);
    TRY("session_open_counter", m,
        conguraha_session_open_counter(&lent.session, mode, way, n, m, key, key_length, iv, iv_length), wanted);
    if (m == 128)
        TRY("session_open", mode, conguraha_session_open(&lent.session, mode, way, n, key, key_length, iv, iv_length),
            wanted);
    lend();
}

/* `expected` has the session, the output and the runs. */
static void feeds(const char *what, pointer input, size_t input_length, size_t bits, uint8_t *out, size_t out_length,
                  size_t place, size_t wanted)
{
    struct conguraha_session *session = &lent.session;
    int whole = place == 0 && bits == bits_of(input_length);
    if (wanted != CONGURAHA_OVERLAP)
        TRY(what, bits, take_fed(conguraha1_feed(*session, input, input_length, bits, out, out_length, place)), wanted);
    for (int i = 0; i < 2; i++) {
        size_t *runs = i == 0 ? &lent.runs : NULL;
        if (i == 1)
            expected.runs = before.runs;
        TRY(what, bits, conguraha_session_feed_bits(session, input, input_length, bits, out, out_length, place, runs),
            wanted);
        if (whole)
            TRY(what, bits, conguraha_session_feed_bytes(session, input, input_length, out, out_length, runs), wanted);
    }
    lend();
}

/* The session that an opening under the key gives. */
static struct conguraha_session session_of(size_t mode, uint8_t decrypting, size_t n, size_t m)
{
    struct conguraha_session session;
    memset(&session, 0, sizeof session);
    session.mode = mode;
    session.n = n;
    session.m = m;
    session.rounds = EXPANSIONS[0].rounds;
    hex(session.keys, EXPANSIONS[0].keys);
    hex(session.reg, TEXTS[mode].iv);
    session.decrypting = decrypting != 0;
    return session;
}

/* Lends the key, the mode's IV and its text, and opens a session. */
static void open_session(size_t mode, uint8_t decrypting, size_t n, size_t m)
{
    fill();
    hex(lent.key, KEY);
    size_t iv_length = hex(lent.iv, TEXTS[mode].iv);
    hex(lent.input, decrypting ? TEXTS[mode].cipher : TEXT);
    lend();
    expected.session = session_of(mode, decrypting, n, m);
    opens(mode, decrypting, n, m, 16, iv_length, CONGURAHA_OK);
}

static void expect_fed(size_t units, const char *reg, const char *written, size_t place)
{
    lend();
    hex(expected.session.reg, reg);
    expected.session.units += units;
    expected.runs = units;
    hex(expected.out + place, written);
}

static void expect_nothing_fed(void)
{
    lend();
    expected.runs = 0;
}

static void refuse(size_t input_length, size_t bits, size_t out_length, size_t place, size_t wanted)
{
    expect_nothing_fed();
    feeds("feed, refused", or_null(lent.input, input_length), input_length, bits, out_length ? lent.out : NULL,
          out_length, place, wanted);
}

/* A copy is fed after the session itself. */
static void texts(void)
{
    for (size_t mode = 0; mode < COUNT(TEXTS); mode++)
        for (uint8_t decrypting = 0; decrypting < 2; decrypting++) {
            const char *written = decrypting ? TEXT : TEXTS[mode].cipher;
            open_session(mode, decrypting, 128, 128);
            struct conguraha_session copy = lent.session;
            expect_fed(2, TEXTS[mode].reg, written, 5);
            feeds("feed", lent.input, 32, 256, lent.out, 37, 5, CONGURAHA_OK);
            expect_nothing_fed();
            feeds("feed, of nothing", NULL, 0, 0, NULL, 0, 0, CONGURAHA_OK);
            expect_nothing_fed();
            feeds("feed, at the end", lent.input, 1, 0, lent.out, 37, 37, CONGURAHA_OK);
            lent.session = copy;
            expect_fed(2, TEXTS[mode].reg, written, 0);
            feeds("feed, a copy", lent.input, 32, 256, lent.out, 32, 0, CONGURAHA_OK);
        }
}

/* The counter of m bits: in the second counter block the lowest m bits of the IV, which ends in ff, have counted up,
   and the others have stayed. From m = 9 on that is the block of appendix F. */
static void counters(void)
{
    for (size_t m = 1; m <= 128; m++)
        for (uint8_t decrypting = 0; decrypting < 2; decrypting++) {
            open_session(CONGURAHA_CTR, decrypting, 128, m);
            expect_fed(2, TEXTS[CONGURAHA_CTR].reg, decrypting ? TEXT : TEXTS[CONGURAHA_CTR].cipher, 5);
            if (m < 9) {
                uint8_t *counter = expected.session.reg, mask[CONGURAHA_BLOCK];
                memcpy(counter, lent.iv, CONGURAHA_BLOCK);
                counter[15] = (uint8_t)(0xff << m);
                failures += conguraha_aes_encrypt(lent.key, 16, counter, mask) != CONGURAHA_OK;
                for (size_t i = 0; i < sizeof mask; i++)
                    expected.out[5 + 16 + i] = lent.input[16 + i] ^ mask[i];
                counter[15]++;
            }
            feeds("feed, counting", lent.input, 32, 256, lent.out, 37, 5, CONGURAHA_OK);
        }
}

static void refuse_opening(size_t mode, size_t n, size_t m, size_t key_length, size_t iv_length, size_t wanted)
{
    fill();
    lend();
    memset(&expected.session, 0, sizeof expected.session);
    expected.session.closed = 1;
    opens(mode, 1, n, m, key_length, iv_length, wanted);
    refuse(16, 128, 16, 0, CONGURAHA_NOT_OPENED);
}

/* Whatever m is. */
static void refuse_before_m(size_t mode, size_t n, size_t key_length, size_t iv_length, size_t wanted)
{
    refuse_opening(mode, n, 128, key_length, iv_length, wanted);
    refuse_opening(mode, n, 0, key_length, iv_length, wanted);
}

static void refused_openings(void)
{
    for (size_t i = 0; i < COUNT(NO_KEY); i++)
        refuse_before_m(i % 5, 0, NO_KEY[i], 17, CONGURAHA_KEY_LENGTH);
    for (size_t mode = 1; mode < 5; mode++) {
        refuse_before_m(mode, 0, 16, 0, CONGURAHA_IV_LENGTH);
        refuse_before_m(mode, 0, 24, 15, CONGURAHA_IV_LENGTH);
        refuse_before_m(mode, 0, 32, 17, CONGURAHA_IV_LENGTH);
        refuse_before_m(mode, 0, 16, 16, CONGURAHA_UNIT_LENGTH);
        refuse_before_m(mode, 129, 16, 16, CONGURAHA_UNIT_LENGTH);
        refuse_before_m(mode, 4294967296u + 128, 16, 16, CONGURAHA_UNIT_LENGTH);
        refuse_before_m(mode, SIZE_MAX, 16, 16, CONGURAHA_UNIT_LENGTH);
    }
    refuse_before_m(CONGURAHA_ECB, 0, 16, 16, CONGURAHA_IV_LENGTH);
    refuse_before_m(CONGURAHA_ECB, 8, 16, 0, CONGURAHA_UNIT_LENGTH);
    for (size_t mode = 0; mode < 5; mode++) {
        for (size_t i = 0; i < COUNT(NO_COUNTER); i++)
            refuse_opening(mode, 128, NO_COUNTER[i], 16, mode ? 16 : 0, CONGURAHA_COUNTER_LENGTH);
        for (size_t m = 1; mode != CONGURAHA_CTR && m < 128; m++)
            refuse_opening(mode, 128, m, 16, mode ? 16 : 0, CONGURAHA_COUNTER_LENGTH);
    }
    for (size_t i = 0; i < COUNT(NO_MODE); i++) {
        refuse_before_m(NO_MODE[i], 128, 16, 16, CONGURAHA_NO_MODE);
        refuse_before_m(NO_MODE[i], 0, 0, 1, CONGURAHA_NO_MODE);
    }
}

static void refused_feeds(void)
{
    open_session(CONGURAHA_CFB, 0, 8, 128);
    refuse(2, 17, 8, 0, CONGURAHA_BITS);
    refuse(0, 1, 8, 0, CONGURAHA_BITS);
    refuse(2, 4294967296u, 8, 0, CONGURAHA_BITS);
    refuse(2, SIZE_MAX, 8, 0, CONGURAHA_BITS);
    refuse(2, 15, 0, 9, CONGURAHA_PART_UNIT);
    refuse(2, 16, 1, 0, CONGURAHA_ROOM);
    refuse(2, 16, 0, 0, CONGURAHA_ROOM);
    refuse(2, 16, 8, 7, CONGURAHA_ROOM);
    refuse(2, 0, 8, 9, CONGURAHA_ROOM);
    refuse(2, 16, 8, 4294967296u, CONGURAHA_ROOM);
    refuse(2, 16, 8, SIZE_MAX, CONGURAHA_ROOM);
    lent.session.units = CONGURAHA_MAX_UNITS - 1;
    refuse(2, 16, 8, 0, CONGURAHA_UNIT_LIMIT);
    lent.session.closed = 1;
    refuse(1, 15, 8, 9, CONGURAHA_CLOSED);
    refuse(0, 0, 0, 0, CONGURAHA_CLOSED);
    lent.session.n = 129;
    refuse(2, 16, 8, 0, CONGURAHA_NOT_OPENED);
    lent.session.n = 8;
    lent.session.m = 127;
    refuse(2, 16, 8, 0, CONGURAHA_NOT_OPENED);
    lent.session.m = 128;
    lent.session.rounds = 11;
    refuse(2, 16, 8, 0, CONGURAHA_NOT_OPENED);
    for (size_t i = 0; i < COUNT(NO_MODE); i++) {
        lent.session.mode = NO_MODE[i];
        refuse(2, 16, 8, 0, CONGURAHA_NO_MODE);
    }
}

static void refuse_count(size_t m, uint64_t units, size_t bits, size_t wanted)
{
    lent.session.m = m;
    lent.session.units = units;
    refuse(48, bits, 48, 0, wanted);
    refuse(48, bits, 0, 0, CONGURAHA_ROOM);
}

/* Of a counter of m bits: no m that an opening gives, and no unit past 2^m. */
static void refused_counts(void)
{
    open_session(CONGURAHA_CTR, 0, 128, 1);
    refuse_count(1, 0, 257, CONGURAHA_COUNTER_LIMIT);
    refuse_count(1, 2, 1, CONGURAHA_COUNTER_LIMIT);
    refuse_count(31, 2147483647u, 129, CONGURAHA_COUNTER_LIMIT);
    refuse_count(32, 4294967295u, 129, CONGURAHA_COUNTER_LIMIT);
    refuse_count(32, 4294967296u, 1, CONGURAHA_COUNTER_LIMIT);
    refuse_count(63, 9223372036854775807u, 129, CONGURAHA_COUNTER_LIMIT);
    refuse_count(63, CONGURAHA_MAX_UNITS - 1, 1, CONGURAHA_COUNTER_LIMIT);
    refuse_count(63, CONGURAHA_MAX_UNITS - 1, 129, CONGURAHA_UNIT_LIMIT);
    refuse_count(63, CONGURAHA_MAX_UNITS, 1, CONGURAHA_UNIT_LIMIT);
    refuse_count(64, CONGURAHA_MAX_UNITS, 1, CONGURAHA_UNIT_LIMIT);
    refuse_count(1, CONGURAHA_MAX_UNITS, 1, CONGURAHA_UNIT_LIMIT);
    for (size_t i = 0; i < COUNT(NO_COUNTER); i++) {
        lent.session.m = NO_COUNTER[i];
        refuse(16, 128, 16, 0, CONGURAHA_NOT_OPENED);
    }
}

/* The last unit of a session and of a counter, and a feed that closes. */
static void edges(void)
{
    open_session(CONGURAHA_ECB, 0, 128, 128);
    lent.session.units = CONGURAHA_MAX_UNITS - 1;
    expect_fed(1, TEXTS[CONGURAHA_ECB].reg, "3ad77bb40d7a3660a89ecaf32466ef97", 0);
    feeds("feed, the last unit", lent.input, 16, 128, lent.out, 16, 0, CONGURAHA_OK);
    refuse(16, 128, 16, 0, CONGURAHA_UNIT_LIMIT);

    open_session(CONGURAHA_CTR, 0, 128, 31);
    lent.session.units = 2147483647u;
    expect_fed(1, SECOND, FIRST, 0);
    feeds("feed, the last count", lent.input, 16, 128, lent.out, 16, 0, CONGURAHA_OK);
    refuse(16, 128, 16, 0, CONGURAHA_COUNTER_LIMIT);
    expect_nothing_fed();
    feeds("feed, of nothing", NULL, 0, 0, NULL, 0, 0, CONGURAHA_OK);

    open_session(CONGURAHA_CTR, 1, 128, 128);
    expect_fed(1, SECOND, "68", 0); /* the first 5 bits of 6b */
    expected.session.closed = 1;
    feeds("feed, of a part of a block", lent.input, 1, 5, lent.out, 1, 0, CONGURAHA_OK);
    refuse(0, 0, 0, 0, CONGURAHA_CLOSED);
}

/* Sessions that no opening gave. One that is fed keeps its flags and its spare bytes as they were, and a feed of
   nothing changes nothing. */
static void by_hand(void)
{
    static const uint8_t YES[] = {1, 2, 128, 255}, BYTES[] = {0, KNOWN, 255};
    for (size_t i = 0; i < COUNT(YES); i++) {
        open_session(CONGURAHA_CBC, YES[i], 128, 128);
        lent.session.decrypting = YES[i];
        memset(lent.session.spare, YES[i], sizeof lent.session.spare);
        refuse(32, 255, 32, 0, CONGURAHA_PART_UNIT);
        lend();
        expected.runs = 0;
        feeds("feed of nothing, flags by hand", lent.input, 32, 0, lent.out, 32, 0, CONGURAHA_OK);
        expect_fed(2, TEXTS[CONGURAHA_CBC].reg, TEXT, 0);
        feeds("feed, flags by hand", lent.input, 32, 256, lent.out, 32, 0, CONGURAHA_OK);
        lent.session.closed = lent.session.spare[5] = YES[i];
        refuse(32, 256, 32, 0, CONGURAHA_CLOSED);
    }
    for (size_t i = 0; i < COUNT(BYTES); i++) {
        fill();
        memset(&lent.session, BYTES[i], sizeof lent.session);
        refuse(16, 128, 16, 0, BYTES[i] ? CONGURAHA_NO_MODE : CONGURAHA_NOT_OPENED);
    }
}

static void compare_sessions(size_t at, size_t wanted)
{
    lend();
    check("alike", at, conguraha1_alike(lent.session, lent.other), wanted);
    check("alike", at, conguraha1_alike(lent.other, lent.session), wanted);
    check("session_alike", at, (size_t)conguraha_session_alike(&lent.session, &lent.other), wanted);
    check("session_alike", at, (size_t)conguraha_session_alike(&lent.other, &lent.session), wanted);
}

/* With one bit changed, in each byte. Units, the bytes after the last round key, closing and what is spare are not
   compared. */
static void alike_sessions(void)
{
    const size_t keys = offsetof(struct conguraha_session, keys), used = EXPANSIONS[0].rounds * 16 + 16;
    open_session(CONGURAHA_CFB, 0, 8, 128);
    lent.other = lent.session;
    compare_sessions(0, 1);
    for (size_t i = 0; i < sizeof lent.session; i++) {
        lent.other = lent.session;
        ((uint8_t *)&lent.other)[i] ^= 1;
        compare_sessions(i, i < 8 || (i >= keys + used && i < keys + CONGURAHA_KEYS) ||
                                i >= offsetof(struct conguraha_session, closed));
    }
    lent.session.decrypting = 2;
    lent.other = lent.session;
    lent.other.decrypting = 255;
    compare_sessions(255, 1);
    for (size_t i = 0; i < COUNT(NO_MODE); i++) {
        lent.session.mode = lent.other.mode = NO_MODE[i];
        compare_sessions(NO_MODE[i], 0);
    }
}

static void wiping(void)
{
    open_session(CONGURAHA_OFB, 1, 128, 128);
    memset(&expected.session, 0, sizeof expected.session);
    expected.key[7] = 0;
    conguraha_wipe(&lent.session, sizeof lent.session);
    conguraha_wipe(lent.key + 7, 1);
    conguraha_wipe(lent.iv, 0);
    conguraha_wipe(NULL, 0);
    check("wipe", sizeof lent.session, 0, 0);
    refuse(32, 256, 32, 0, CONGURAHA_NOT_OPENED);
}

/* ---- older sessions */

static const size_t HELD[] = {0, 1, 8, 128, 129, 256, 4294967295u, 4294967296u, SIZE_MAX - 1, SIZE_MAX};
static const uint32_t UNITS[] = {0, 1, 255, 256, 2147483647u, 2147483648u, 4294967294u, 4294967295u};
static const uint8_t FLAGS[] = {0, 1, 2, 255};

/* Moves lent.session to lent.older, as the older release's header laid it out, with known bytes between the fields. */
static void lend_older(uint32_t units)
{
    uint8_t *older = (uint8_t *)&lent.older;
    memcpy(older, &lent.session.mode, 8);
    older[8] = lent.session.decrypting;
    memcpy(older + 16, &lent.session.n, 8);
    memcpy(older + 24, &lent.session.m, 8);
    memcpy(older + 32, &lent.session.rounds, 8);
    memcpy(older + 40, lent.session.keys, CONGURAHA_KEYS);
    memcpy(older + 280, lent.session.reg, CONGURAHA_BLOCK);
    memcpy(older + 296, &units, 4);
    older[300] = lent.session.closed;
    memset(&lent.session, KNOWN, sizeof lent.session);
    lend();
}

/* From lent.session to an older one and back: every part as it was. */
static void carry(uint32_t units)
{
    struct conguraha_session session = lent.session;
    lend_older(units);
    expected.session = session;
    expected.session.units = units;
    memset(expected.session.spare, 0, sizeof expected.session.spare);
    TRY("carry", units, (lent.session = conguraha1_carry(lent.older), 0), 0);
    TRY("session_carry", units, (conguraha_session_carry(&lent.session, &lent.older), 0), 0);
}

/* Any parts, those that no opening gives too: no two of the sizes are the same. */
static void carried_parts(void)
{
    for (size_t i = 0; i < COUNT(FLAGS) * COUNT(HELD) * COUNT(UNITS); i++) {
        size_t at = i / COUNT(FLAGS), unit = at / COUNT(HELD);
        fill();
        lent.session.mode = HELD[at % COUNT(HELD)];
        lent.session.n = HELD[(at + 3) % COUNT(HELD)];
        lent.session.m = HELD[(at + 5) % COUNT(HELD)];
        lent.session.rounds = HELD[(at + 7) % COUNT(HELD)];
        for (size_t j = 0; j < CONGURAHA_KEYS; j++)
            lent.session.keys[j] = (uint8_t)(j + unit);
        for (size_t j = 0; j < CONGURAHA_BLOCK; j++)
            lent.session.reg[j] = (uint8_t)(240 + j + at);
        lent.session.decrypting = FLAGS[i % COUNT(FLAGS)];
        lent.session.closed = FLAGS[at % COUNT(FLAGS)];
        carry(UNITS[unit]);
    }
    for (size_t i = 0; i < COUNT(NO_MODE); i++) {
        open_session(CONGURAHA_CFB, 1, 8, 128);
        lent.session.mode = NO_MODE[i];
        carry(4294967295u);
        refuse(16, 128, 16, 0, CONGURAHA_NO_MODE);
    }
    open_session(CONGURAHA_CFB, 0, 8, 128);
    lent.session.closed = 1;
    carry(7);
    refuse(1, 8, 1, 0, CONGURAHA_CLOSED);
}

/* Past the units that ended a session of the older release: bytes in CFB with segments of 8 bits (SP 800-38A, F.3.7),
   and in CTR the last block that a counter of 32 bits has a value for. */
static void past_the_older_limit(void)
{
    open_session(CONGURAHA_CFB, 0, 8, 128);
    carry(4294967295u);
    expect_fed(1, "0102030405060708090a0b0c0d0e0f3b", "3b", 0);
    feeds("feed, past the older limit", lent.input, 1, 8, lent.out, 1, 0, CONGURAHA_OK);
    expect_fed(1, "02030405060708090a0b0c0d0e0f3b79", "79", 1);
    feeds("feed, on", lent.input + 1, 1, 8, lent.out, 2, 1, CONGURAHA_OK);

    open_session(CONGURAHA_CTR, 0, 128, 32);
    carry(4294967295u);
    refuse(32, 256, 32, 0, CONGURAHA_COUNTER_LIMIT);
    expect_fed(1, SECOND, FIRST, 0);
    feeds("feed, the last count of 32 bits", lent.input, 16, 128, lent.out, 16, 0, CONGURAHA_OK);
    refuse(16, 1, 16, 0, CONGURAHA_COUNTER_LIMIT);
}

/* ---- before a feed, and of its counter */

static size_t take_cost(struct conguraha_cost cost)
{
    lent.bytes = cost.bytes;
    lent.runs = cost.runs;
    return cost.number;
}

static void forecast(size_t mode, size_t n, size_t bits, size_t bytes, size_t runs, size_t wanted)
{
    fill();
    lend();
    expected.bytes = bytes;
    expected.runs = runs;
    TRY("forecast", bits, take_cost(conguraha1_forecast(mode, n, bits)), wanted);
    for (int i = 0; i < 4; i++) {
        size_t *to_bytes = i & 1 ? NULL : &lent.bytes, *to_runs = i & 2 ? NULL : &lent.runs;
        expected.bytes = to_bytes ? bytes : before.bytes;
        expected.runs = to_runs ? runs : before.runs;
        TRY("forecast", bits, conguraha_forecast(mode, n, bits, to_bytes, to_runs), wanted);
    }
}

static void forecasts(void)
{
    forecast(CONGURAHA_CFB, 3, 9, 2, 3, CONGURAHA_OK);
    forecast(CONGURAHA_CTR, 128, 129, 17, 2, CONGURAHA_OK);
    forecast(CONGURAHA_ECB, 128, 0, 0, 0, CONGURAHA_OK);
    forecast(CONGURAHA_CFB, 1, CONGURAHA_MAX_BITS, MOST, CONGURAHA_MAX_BITS, CONGURAHA_OK);
    forecast(CONGURAHA_OFB, 127, SIZE_MAX, 0, 0, CONGURAHA_UNIT_LENGTH);
    forecast(CONGURAHA_CFB, 3, CONGURAHA_MAX_BITS + 1, 0, 0, CONGURAHA_BITS);
    forecast(CONGURAHA_CFB, 3, 4294967296u + 9, 0, 0, CONGURAHA_BITS);
    forecast(CONGURAHA_CBC, 128, 129, 0, 0, CONGURAHA_PART_UNIT);
    for (size_t i = 0; i < COUNT(NO_MODE); i++)
        forecast(NO_MODE[i], 0, SIZE_MAX, 0, 0, CONGURAHA_NO_MODE);
}

static size_t take_place(struct conguraha_place place)
{
    memcpy(lent.made, place.increments, CONGURAHA_BLOCK);
    return place.number;
}

static void counter_place(size_t m, const char *block, const char *increments, size_t wanted)
{
    fill();
    hex(lent.iv, TEXTS[CONGURAHA_CTR].iv);
    hex(lent.block, block);
    lend();
    hex(expected.made, increments);
    TRY("counter_place", m, take_place(conguraha1_counter_place(lent.iv, lent.block, m)), wanted);
    TRY("counter_place", m, conguraha_counter_place(lent.iv, lent.block, m, lent.made), wanted);
}

static void counter_places(void)
{
    static const char *const NONE = "00000000000000000000000000000000", *const TWO = "00000000000000000000000000000002";
    counter_place(128, TEXTS[CONGURAHA_CTR].iv, NONE, CONGURAHA_OK);
    counter_place(128, TEXTS[CONGURAHA_CTR].reg, TWO, CONGURAHA_OK);
    counter_place(9, TEXTS[CONGURAHA_CTR].reg, TWO, CONGURAHA_OK);
    counter_place(8, "f0f1f2f3f4f5f6f7f8f9fafbfcfdfe01", TWO, CONGURAHA_OK);
    counter_place(128, "f0f1f2f3f4f5f6f7f8f9fafbfcfdfefe", "ffffffffffffffffffffffffffffffff", CONGURAHA_OK);
    counter_place(8, TEXTS[CONGURAHA_CTR].reg, NONE, CONGURAHA_OTHER_MESSAGE);
    for (size_t i = 0; i < COUNT(NO_COUNTER); i++)
        counter_place(NO_COUNTER[i], TEXTS[CONGURAHA_CTR].reg, NONE, CONGURAHA_COUNTER_LENGTH);
}

/* ---- padding */

static size_t take_length(struct conguraha_length length)
{
    lent.bits = length.bits;
    return length.number;
}

/* `expected` has the output. */
static void pads(const char *what, pointer input, size_t input_length, size_t bits, uint8_t *out, size_t out_length,
                 size_t place, size_t padded_bits, size_t wanted)
{
    expected.bits = padded_bits;
    if (wanted != CONGURAHA_OVERLAP)
        TRY(what, bits, take_length(conguraha1_pad(input, input_length, bits, out, out_length, place)), wanted);
    TRY(what, bits, conguraha_pad_bits(input, input_length, bits, out, out_length, place, &lent.bits), wanted);
    expected.bits = before.bits;
    TRY(what, bits, conguraha_pad_bits(input, input_length, bits, out, out_length, place, NULL), wanted);
    lend();
}

static void unpads(const char *what, pointer input, size_t input_length, size_t bits, size_t text_bits, size_t wanted)
{
    lend();
    TRY(what, bits, conguraha_unpad_bits(input, input_length, bits, NULL), wanted);
    expected.bits = text_bits;
    TRY(what, bits, take_length(conguraha1_unpad(input, input_length, bits)), wanted);
    TRY(what, bits, conguraha_unpad_bits(input, input_length, bits, &lent.bits), wanted);
}

/* Lends the text; `padded` is to be written. */
static void lend_text(const char *padded, size_t place)
{
    fill();
    hex(lent.input, TEXT);
    lend();
    hex(expected.out + place, padded);
}

static void padding(void)
{
    lend_text("6bc1bee22e409f96e93d7e117393172b", 3);
    pads("pad", lent.input, 32, 127, lent.out, 19, 3, 128, CONGURAHA_OK);
    unpads("unpad", lent.out + 3, 16, 128, 127, CONGURAHA_OK);
    lend_text("6bc1bee22e409f96e93d7e117393172a80000000000000000000000000000000", 0);
    pads("pad, a block", lent.input, 16, 128, lent.out, 32, 0, 256, CONGURAHA_OK);
    unpads("unpad, a block", lent.out, 32, 256, 128, CONGURAHA_OK);
    lend_text("80000000000000000000000000000000", 0);
    pads("pad, nothing", NULL, 0, 0, lent.out, 16, 0, 128, CONGURAHA_OK);
    unpads("unpad, nothing", lent.out, 16, 128, 0, CONGURAHA_OK);
    lent.out[0] = 0;
    unpads("unpad, zero bytes", lent.out, 16, 128, 0, CONGURAHA_OK);

    lend_text("", 0);
    pads("pad, refused", lent.input, 16, 129, lent.out, 96, 0, 0, CONGURAHA_BITS);
    pads("pad, refused", NULL, 0, 1, NULL, 0, 0, 0, CONGURAHA_BITS);
    pads("pad, refused", lent.input, 32, 4294967296u, lent.out, 96, 0, 0, CONGURAHA_BITS);
    pads("pad, refused", UNREADABLE, SIZE_MAX, SIZE_MAX, lent.out, 96, 0, 0, CONGURAHA_BITS);
    pads("pad, refused", NULL, 0, 0, NULL, 0, 0, 0, CONGURAHA_ROOM);
    pads("pad, refused", lent.input, 16, 128, lent.out, 33, 2, 0, CONGURAHA_ROOM);
    pads("pad, refused", lent.input, 16, 128, lent.out, 32, 4294967296u, 0, CONGURAHA_ROOM);
    unpads("unpad, refused", lent.input, 15, 127, 0, CONGURAHA_BITS);
    unpads("unpad, refused", lent.input, 32, 4294967296u + 128, 0, CONGURAHA_BITS);
    unpads("unpad, refused", UNREADABLE, SIZE_MAX, SIZE_MAX, 0, CONGURAHA_BITS);
    unpads("unpad, refused", lent.input, 32, 127, 0, CONGURAHA_PART_UNIT);
    unpads("unpad, refused", NULL, 0, 0, 0, CONGURAHA_PART_UNIT);
}

/* ---- whole messages */

/* RFC 3962, appendix B: the start of one text under one key and an IV of zero bytes. */
static const char *const STOLEN_KEY = "636869636b656e207465726979616b69";
static const char *const STOLEN_TEXT =
    "4920776f756c64206c696b65207468652047656e6572616c20476175277320436869636b656e2c20706c656173652c";
static const char *const STOLEN[] = {
    "c6353568f2bf8cb4d8a580362da7ff7f97",
    "39312523a78662d5be7fcbcc98ebf5a897687268d6ecccc0c07b25e25ecfe584",
    "97687268d6ecccc0c07b25e25ecfe584b3fffd940c16a18c1b5549d2f838029e39312523a78662d5be7fcbcc98ebf5",
};
typedef uint8_t (*cts_export)(pointer, size_t, pointer, size_t, pointer, size_t, size_t, uint8_t *, size_t, size_t);
typedef enum conguraha_answer (*cts_call)(pointer, size_t, pointer, size_t, pointer, size_t, uint8_t *, size_t);
static const cts_export CTS_EXPORTS[] = {conguraha1_cts_encrypt, conguraha1_cts_decrypt};
static const cts_call CTS_CALLS[] = {conguraha_cts_encrypt, conguraha_cts_decrypt};

/* `expected` has the output. */
static void steals(const char *what, int decrypting, pointer key, size_t key_length, pointer iv, size_t iv_length,
                   pointer input, size_t length, uint8_t *out, size_t out_length, size_t wanted)
{
    cts_export export_ = CTS_EXPORTS[decrypting];
    cts_call call = CTS_CALLS[decrypting];
    size_t bits = bits_of(length);
    if (wanted != CONGURAHA_OVERLAP)
        TRY(what, length, export_(key, key_length, iv, iv_length, input, length, bits, out, out_length, 0), wanted);
    TRY(what, length, call(key, key_length, iv, iv_length, input, length, out, out_length), wanted);
    lend();
}

/* The text, or a message, of this many bytes. */
static void put_message(uint8_t *bytes, int encrypted, size_t length)
{
    uint8_t all[48];
    hex(all, STOLEN_TEXT);
    for (size_t i = 0; i < COUNT(STOLEN) && encrypted; i++)
        if (strlen(STOLEN[i]) == 2 * length)
            hex(all, STOLEN[i]);
    memcpy(bytes, all, length);
}

static void lend_message(int encrypted, size_t length)
{
    fill();
    hex(lent.key, STOLEN_KEY);
    memset(lent.iv, 0, CONGURAHA_BLOCK);
    put_message(lent.input, encrypted, length);
    lend();
}

static void refuse_message(size_t key_length, size_t iv_length, pointer input, size_t length, size_t out_length,
                           size_t wanted)
{
    for (int decrypting = 0; decrypting < 2; decrypting++)
        steals("cts, refused", decrypting, or_null(lent.key, key_length), key_length, or_null(lent.iv, iv_length),
               iv_length, input, length, out_length ? lent.out : NULL, out_length, wanted);
}

/* Of the exports alone: by bits, and to a place. */
static void message_at(size_t length, size_t bits, size_t place, size_t wanted)
{
    for (int decrypting = 0; decrypting < 2; decrypting++) {
        lend_message(decrypting, 17);
        if (wanted == CONGURAHA_OK)
            put_message(expected.out + place, !decrypting, 17);
        TRY("cts, at a place", place,
            CTS_EXPORTS[decrypting](lent.key, 16, lent.iv, 16, lent.input, length, bits, lent.out, 20, place), wanted);
    }
}

static void messages(void)
{
    for (size_t i = 0; i < COUNT(STOLEN); i++)
        for (int decrypting = 0; decrypting < 2; decrypting++) {
            size_t length = strlen(STOLEN[i]) / 2;
            lend_message(decrypting, length);
            put_message(expected.out, !decrypting, length);
            steals("cts", decrypting, lent.key, 16, lent.iv, 16, lent.input, length, lent.out, length, CONGURAHA_OK);
        }
    lend_message(0, 47);
    for (size_t i = 0; i < COUNT(NO_KEY); i++)
        refuse_message(NO_KEY[i], 15, lent.input, 16, 0, CONGURAHA_KEY_LENGTH);
    refuse_message(16, 0, lent.input, 16, 0, CONGURAHA_IV_LENGTH);
    refuse_message(16, 17, lent.input, 16, 0, CONGURAHA_IV_LENGTH);
    refuse_message(16, 16, NULL, 0, 0, CONGURAHA_MESSAGE_LENGTH);
    refuse_message(16, 16, lent.input, 16, 0, CONGURAHA_MESSAGE_LENGTH);
    refuse_message(16, 16, lent.input, 17, 0, CONGURAHA_ROOM);
    refuse_message(16, 16, lent.input, 47, 46, CONGURAHA_ROOM);
    message_at(17, 136, 3, CONGURAHA_OK);
    message_at(17, 137, 3, CONGURAHA_BITS);
    message_at(17, 4294967296u + 136, 3, CONGURAHA_BITS);
    message_at(18, 137, 3, CONGURAHA_MESSAGE_LENGTH);
    message_at(17, 136, 4, CONGURAHA_ROOM);
    message_at(17, 136, 4294967296u, CONGURAHA_ROOM);
}

/* ---- one block of a CBC ciphertext */

static void lend_ciphertext(void)
{
    fill();
    hex(lent.key, KEY);
    hex(lent.iv, TEXTS[CONGURAHA_CBC].iv);
    hex(lent.input, TEXTS[CONGURAHA_CBC].cipher);
    lend();
}

static void neighbour(size_t iv_length, size_t length, size_t j, size_t wanted)
{
    pointer iv = or_null(lent.iv, iv_length), text = or_null(lent.input, length);
    lend_ciphertext();
    memset(&expected.neighbour, 0, sizeof expected.neighbour);
    expected.neighbour.number = wanted;
    if (wanted == CONGURAHA_OK) {
        expected.neighbour.offset = j == 0 ? 0 : 16 * (j - 1);
        expected.neighbour.length = 16;
        expected.neighbour.source = j != 0;
    }
    TRY("cbc_neighbour", j, (lent.neighbour = conguraha1_cbc_neighbour(iv, iv_length, text, length, j)).number, wanted);
    expected.neighbour = before.neighbour;
    expected.found = wanted != CONGURAHA_OK ? NULL : j == 0 ? iv : text + 16 * (j - 1);
    TRY("cbc_neighbour", j, conguraha_cbc_neighbour(iv, iv_length, text, length, j, &lent.found), wanted);
}

/* By the call also in place: to a block of the ciphertext, and to the IV. */
static void single_block(size_t key_length, size_t iv_length, size_t length, size_t j, size_t wanted)
{
    pointer key = or_null(lent.key, key_length), iv = or_null(lent.iv, iv_length), text = or_null(lent.input, length);
    uint8_t plain[2 * CONGURAHA_BLOCK], *const places[] = {lent.out + 7, lent.input, lent.input + 16, lent.iv};
    hex(plain, TEXT);
    for (size_t i = 0; i < COUNT(places); i++) {
        lend_ciphertext();
        if (wanted == CONGURAHA_OK)
            memcpy((uint8_t *)&expected + (places[i] - (uint8_t *)&lent), plain + 16 * j, CONGURAHA_BLOCK);
        TRY("cbc_block", j, conguraha_cbc_block(key, key_length, iv, iv_length, text, length, j, places[i]), wanted);
        if (i == 0)
            TRY("cbc_block", j,
                conguraha1_cbc_block(key, key_length, iv, iv_length, text, length, j, lent.out, 23, 7), wanted);
    }
}

static void single_blocks(void)
{
    static const struct {
        size_t iv_length, length, j, wanted;
    } CASES[] = {
        {16, 32, 0, CONGURAHA_OK},        {16, 32, 1, CONGURAHA_OK},        {0, 32, 0, CONGURAHA_IV_LENGTH},
        {15, 31, 0, CONGURAHA_IV_LENGTH}, {17, 32, 1, CONGURAHA_IV_LENGTH}, {16, 0, 0, CONGURAHA_NO_BLOCK},
        {16, 31, 0, CONGURAHA_NO_BLOCK},  {16, 33, 1, CONGURAHA_NO_BLOCK},  {16, 32, 2, CONGURAHA_NO_BLOCK},
        {16, 32, SIZE_MAX, CONGURAHA_NO_BLOCK},
        {16, 32, 1152921504606846977u, CONGURAHA_NO_BLOCK}, /* 16 times it is 16, of 64 bits */
    };
    for (size_t i = 0; i < COUNT(CASES); i++) {
        neighbour(CASES[i].iv_length, CASES[i].length, CASES[i].j, CASES[i].wanted);
        single_block(16, CASES[i].iv_length, CASES[i].length, CASES[i].j, CASES[i].wanted);
        single_block(NO_KEY[i % COUNT(NO_KEY)], CASES[i].iv_length, CASES[i].length, CASES[i].j, CONGURAHA_KEY_LENGTH);
    }
    lend_ciphertext();
    check("cbc_block, no room", 0, conguraha1_cbc_block(lent.key, 16, lent.iv, 16, lent.input, 32, 0, NULL, 0, 0),
          CONGURAHA_ROOM);
    check("cbc_block, no room", 8, conguraha1_cbc_block(lent.key, 16, lent.iv, 16, lent.input, 32, 0, lent.out, 23, 8),
          CONGURAHA_ROOM);
}

/* ---- buffers */

/* Where input and output begin in one buffer, and the bytes of each: 32 are processed. */
static const struct {
    size_t input, input_length, out, out_length;
    int overlap;
} BUFFERS[] = {
    {0, 32, 0, 32, 1},  {0, 32, 31, 32, 1}, {31, 32, 0, 32, 1}, {0, 32, 32, 32, 0}, {32, 32, 0, 32, 0},
    {0, 32, 0, 96, 1},  {0, 64, 63, 33, 1}, {63, 32, 0, 64, 1}, {0, 32, 63, 33, 0}, {63, 32, 0, 63, 0},
    {16, 0, 0, 32, 0},  {0, 32, 16, 0, 0},  {0, 0, 0, 0, 0},    {40, 1, 0, 96, 1},  {0, 64, 40, 1, 1},
};

/* `few` is what is answered where the input has fewer. */
static size_t answer_of(size_t i, size_t few)
{
    if (BUFFERS[i].overlap)
        return CONGURAHA_OVERLAP;
    if (BUFFERS[i].input_length < 32)
        return few;
    return BUFFERS[i].out_length < 32 ? CONGURAHA_ROOM : CONGURAHA_OK;
}

static void feed_in_one(size_t i, pointer input, uint8_t *out)
{
    size_t wanted = answer_of(i, CONGURAHA_BITS);
    open_session(CONGURAHA_ECB, 0, 128, 128);
    hex(lent.out + BUFFERS[i].input, TEXT);
    expect_nothing_fed();
    if (wanted == CONGURAHA_OK)
        expect_fed(2, TEXTS[CONGURAHA_ECB].reg, TEXTS[CONGURAHA_ECB].cipher, BUFFERS[i].out);
    feeds("feed, one buffer", input, BUFFERS[i].input_length, 256, out, BUFFERS[i].out_length, 0, wanted);
}

/* Bit 255 of the text is a 1, as its padding would be: so its first 255 bits become the text. */
static void pad_in_one(size_t i, pointer input, uint8_t *out)
{
    size_t wanted = answer_of(i, CONGURAHA_BITS), padded_bits = wanted == CONGURAHA_OK ? 256 : 0;
    fill();
    hex(lent.out + BUFFERS[i].input, TEXT);
    lend();
    if (wanted == CONGURAHA_OK)
        hex(expected.out + BUFFERS[i].out, TEXT);
    pads("pad, one buffer", input, BUFFERS[i].input_length, 255, out, BUFFERS[i].out_length, 0, padded_bits, wanted);
}

static void cts_in_one(size_t i, int decrypting, pointer input, uint8_t *out)
{
    size_t wanted = answer_of(i, CONGURAHA_MESSAGE_LENGTH);
    lend_message(0, 0);
    put_message(lent.out + BUFFERS[i].input, decrypting, 32);
    lend();
    if (wanted == CONGURAHA_OK)
        put_message(expected.out + BUFFERS[i].out, !decrypting, 32);
    steals("cts, one buffer", decrypting, lent.key, 16, lent.iv, 16, input, BUFFERS[i].input_length, out,
           BUFFERS[i].out_length, wanted);
}

/* Key and IV, too, stand beside the output of a message, and not in it. */
static void key_and_iv_in_one(int decrypting)
{
    uint8_t *out = lent.out;
    lend_message(decrypting, 32);
    steals("cts, key in out", decrypting, out, 16, lent.iv, 16, lent.input, 32, out + 15, 32, CONGURAHA_OVERLAP);
    steals("cts, no key in out", decrypting, out + 31, 17, lent.iv, 16, lent.input, 32, out, 32, CONGURAHA_OVERLAP);
    steals("cts, iv in out", decrypting, lent.key, 16, out, 16, lent.input, 32, out + 15, 32, CONGURAHA_OVERLAP);
    steals("cts, no iv in out", decrypting, lent.key, 16, out + 31, 17, lent.input, 32, out, 32, CONGURAHA_OVERLAP);
    memcpy(out, lent.key, 16);
    memcpy(out + 48, lent.iv, 16);
    lend();
    put_message(expected.out + 16, !decrypting, 32);
    steals("cts, beside out", decrypting, out, 16, out + 48, 16, lent.input, 32, out + 16, 32, CONGURAHA_OK);
}

/* An overlap is answered before all else, before a mode that is none too. */
static void buffers(void)
{
    for (size_t i = 0; i < COUNT(BUFFERS); i++) {
        uint8_t *input = lent.out + BUFFERS[i].input, *out = lent.out + BUFFERS[i].out;
        feed_in_one(i, input, out);
        pad_in_one(i, input, out);
        cts_in_one(i, 0, input, out);
        cts_in_one(i, 1, input, out);
    }
    key_and_iv_in_one(0);
    key_and_iv_in_one(1);
    fill();
    expect_nothing_fed();
    feeds("feed, no mode, one buffer", lent.out, 16, 128, lent.out, 16, 0, CONGURAHA_OVERLAP);
    expect_nothing_fed();
    feeds("feed, into the session", lent.input, 16, 128, (uint8_t *)&lent.session + 303, 16, 0, CONGURAHA_OVERLAP);
}

/* Bytes whose bits are more than a call takes, or than a number holds: none of them is read. */
static void lengths(void)
{
    static const size_t LENGTHS[] = {MOST + 1, SIZE_MAX / 8, SIZE_MAX / 8 + 1, SIZE_MAX - 1, SIZE_MAX};
    for (size_t i = 0; i < COUNT(LENGTHS); i++) {
        open_session(CONGURAHA_CTR, 0, 128, 128);
        expect_nothing_fed();
        feeds("feed, too long", UNREADABLE, LENGTHS[i], SIZE_MAX, lent.out, 96, 0, CONGURAHA_BITS);
        expect_nothing_fed();
        feeds("feed, too long", UNREADABLE, LENGTHS[i], SIZE_MAX, NULL, 0, 0, CONGURAHA_BITS);
        expect_nothing_fed();
        feeds("feed, too long and over out", lent.input, LENGTHS[i], SIZE_MAX, lent.out, 96, 0, CONGURAHA_OVERLAP);
        lend_message(0, 47);
        refuse_message(16, 16, UNREADABLE, LENGTHS[i], 96, CONGURAHA_BITS);
        refuse_message(16, 16, UNREADABLE, LENGTHS[i], 0, CONGURAHA_BITS);
        refuse_message(16, 16, lent.input, LENGTHS[i], 96, CONGURAHA_OVERLAP);
    }
}

/* The largest feed, padded text and message, and more. */
static void largest(void)
{
    uint8_t *input = lent.large_input, *out = lent.large_out;
    in_use = sizeof lent;
    open_session(CONGURAHA_ECB, 0, 128, 128);
    memset(input, 0, MOST);
    expect_fed(MOST / 16, TEXTS[CONGURAHA_ECB].reg, "", 0);
    for (size_t at = 0; at < MOST; at += 16)
        hex(expected.large_out + at, ZERO_BLOCK);
    feeds("feed, the largest", input, MOST, CONGURAHA_MAX_BITS, out, MOST, 0, CONGURAHA_OK);
    expect_nothing_fed();
    feeds("feed, larger", input, MOST + 16, CONGURAHA_MAX_BITS + 128, out, MOST + 16, 0, CONGURAHA_BITS);
    expect_nothing_fed();
    feeds("feed, larger", input, MOST + 16, SIZE_MAX, out, MOST + 16, 0, CONGURAHA_BITS);

    memset(expected.large_out, 0, MOST);
    expected.large_out[MOST - 1] = 1;
    pads("pad, the largest", input, MOST, CONGURAHA_MAX_BITS - 1, out, MOST, 0, CONGURAHA_MAX_BITS, CONGURAHA_OK);
    pads("pad, larger", input, MOST, CONGURAHA_MAX_BITS, out, MOST + 16, 0, 0, CONGURAHA_BITS);
    unpads("unpad, the largest", out, MOST, CONGURAHA_MAX_BITS, CONGURAHA_MAX_BITS - 1, CONGURAHA_OK);
    unpads("unpad, larger", out, MOST + 16, CONGURAHA_MAX_BITS + 128, 0, CONGURAHA_BITS);

    /* Of whole blocks the message is CBC's, with the last two swapped. */
    struct conguraha_session session = session_of(CONGURAHA_CBC, 0, 128, 128);
    uint8_t *last = expected.large_out + MOST - 16, swapped[CONGURAHA_BLOCK];
    memcpy(lent.iv, session.reg, CONGURAHA_BLOCK);
    lend();
    failures += conguraha_session_feed_bytes(&session, input, MOST, expected.large_out, MOST, NULL) != CONGURAHA_OK;
    memcpy(swapped, last, 16);
    memcpy(last, last - 16, 16);
    memcpy(last - 16, swapped, 16);
    steals("cts, the largest", 0, lent.key, 16, lent.iv, 16, input, MOST, out, MOST, CONGURAHA_OK);
    memcpy(input, out, MOST);
    lend();
    memset(expected.large_out, 0, MOST);
    steals("cts, the largest", 1, lent.key, 16, lent.iv, 16, input, MOST, out, MOST, CONGURAHA_OK);
    for (int decrypting = 0; decrypting < 2; decrypting++)
        steals("cts, larger", decrypting, lent.key, 16, lent.iv, 16, input, MOST + 1, out, MOST + 1, CONGURAHA_BITS);
}

/* ---- the header's words and numbers */

static void claim(const char *what, size_t at, int holds)
{
    checks++;
    failures += !holds;
    if (!holds)
        printf("FAILED %s (%zu)\n", what, at);
}

static int same_text(size_t number, size_t other)
{
    return strcmp(conguraha_answer_text(number), conguraha_answer_text(other)) == 0;
}

/* Each answer has a sentence of its own, and what is none has that of 10. */
static void words(void)
{
    static const size_t NONE[] = {66, 255, 256, 4294967296u, SIZE_MAX};
    for (size_t i = 0; i < COUNT(NONE); i++)
        claim("answer_text, no answer", NONE[i], same_text(NONE[i], 10));
    for (size_t i = 0; i <= CONGURAHA_OVERLAP; i++) {
        int named = (i <= CONGURAHA_OTHER_MESSAGE && i != 10) || i >= CONGURAHA_NO_MODE, others = 0;
        for (size_t j = 0; j <= CONGURAHA_OVERLAP; j++)
            others += j != i && same_text(i, j);
        claim("answer_text", i, conguraha_answer_text(i)[0] != '\0' && (named ? others == 0 : same_text(i, 10)));
    }
}

/* What has a fixed size may lie in what was read. */
static void written_last(void)
{
    static const uint8_t key[16] = {1, 2, 3}, iv[16] = {4, 5, 6};
    static const uint8_t block[16] = {4, 5, 6, 0, 0, 0, 0, 0, 0, 0, 0, 0, 0, 9};
    struct conguraha_session one, other;
    uint8_t apart[16], together[16];
    size_t answers = (size_t)conguraha_session_open(&other, CONGURAHA_CTR, CONGURAHA_DECRYPT, 128, key, 16, iv, 16);
    memset(&one, 0, sizeof one);
    memcpy(one.keys, key, sizeof key);
    memcpy(one.reg, iv, sizeof iv);
    answers += (size_t)conguraha_session_open(&one, CONGURAHA_CTR, CONGURAHA_DECRYPT, 128, one.keys, 16, one.reg, 16);
    claim("an opening, from its own bytes", 0, answers == 0 && memcmp(&one, &other, sizeof one) == 0);
    memcpy(together, iv, sizeof iv);
    answers += (size_t)conguraha_counter_place(iv, block, 128, apart);
    answers += (size_t)conguraha_counter_place(together, block, 128, together);
    claim("a place, in the IV", 0, answers == 0 && memcmp(apart, together, sizeof apart) == 0 && apart[13] == 9);
}

static void version(void)
{
    char made[64];
    snprintf(made, sizeof made, "%d.%d.%d", CONGURAHA_VERSION_MAJOR, CONGURAHA_VERSION_MINOR, CONGURAHA_VERSION_PATCH);
    claim("CONGURAHA_VERSION", CONGURAHA_VERSION_MAJOR, strcmp(made, CONGURAHA_VERSION) == 0);
}

int main(void)
{
    expansions();
    blocks();
    texts();
    counters();
    refused_openings();
    refused_feeds();
    refused_counts();
    edges();
    by_hand();
    alike_sessions();
    wiping();
    carried_parts();
    past_the_older_limit();
    forecasts();
    counter_places();
    padding();
    messages();
    single_blocks();
    buffers();
    lengths();
    largest();
    words();
    written_last();
    version();
    if (failures == 0)
        printf("%d calls answered and wrote what they should\n", checks);
    return failures != 0;
}
