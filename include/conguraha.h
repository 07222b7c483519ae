/* conguraha.h: AES in the modes ECB, CBC, CFB with segments of 1 to 128 bits, OFB and CTR, from C and C++.

   What the library exports is proved: what each export answers and writes is an equation to its rule, which for AES
   and the modes is that of FIPS 197 and SP 800-38A, for every input. The calls of this file are a few lines each over
   the exports, which are declared after them; those lines are tested. Link with `pkg-config --cflags --libs conguraha`.

       struct conguraha_session session;
       enum conguraha_answer answer =
           conguraha_session_open(&session, CONGURAHA_CFB, CONGURAHA_DECRYPT, 8, key, sizeof key, iv, sizeof iv);
       if (answer == CONGURAHA_OK)
           answer = conguraha_session_feed_bytes(&session, read, length, text, sizeof text, NULL);
       if (answer != CONGURAHA_OK)
           fprintf(stderr, "%s\n", conguraha_answer_text(answer));

   Every call ends. It answers CONGURAHA_OK, and has written what is said at the call; or it is refused with the first
   answer that applies, of those that stand at the call in the order in which they are asked, and has changed nothing
   but what is said there of a refusal.

   What the caller sees to, since no call can check it:

   - A pointer points to what the call says: as many bytes as the length after it, the size in its brackets, or one
     value. Where that length is 0 the pointer may be NULL. A pointer to a single result (runs, bytes, a count of bits)
     may be NULL where it is said, and no other may.
   - A `length` counts bytes. `bits` counts bits, and so do `n` and `m`: 64 bytes are 512 bits.
   - Texts are not processed in place: where the output shares a byte with the input, with the session that is fed, or
     in stealing with the key or the IV, feeds, padding and stealing answer CONGURAHA_OVERLAP. The whole of what is
     handed over is compared, not only the bytes in use. What has a fixed size is written last, and may lie in what
     was read: a block, round keys, increments, the session that an opening or carrying over writes. Counts (runs,
     bytes, bits) lie in no input, in no output and in no session.
   - Threads may call at the same time: the library keeps nothing between calls. One session is for one thread at a
     time.
   - A session holds round keys: conguraha_wipe clears it. What a call had on the stack is not cleared, but for the
     copy of the round keys in conguraha_aes_expand.
   - Time is not promised: tables are read at places that depend on the key, and comparing and unpadding end early. A
     feed prepares its tables first, which takes as long as several blocks do: feed what a read gave at once, and not
     byte by byte.

   After a loss on the way the text comes right by itself where whole units were lost: in ECB at once, in CBC after 1
   block, in CFB after 128 / n segments, rounded up; in OFB and CTR not before a new IV. A byte is whole units for
   n = 1, 2, 4 and 8. With any other n, and in ECB and CBC, bytes must be dropped until whole units are missing; else
   the text stays wrong, and the answers are CONGURAHA_OK all the same. examples/resync.c of the source shows it. */
#ifndef CONGURAHA_H
#define CONGURAHA_H
#include <stddef.h>
#include <stdint.h>
#include <string.h>

/* The first number is that of the library's file name and of the names that it exports: a program that was built with
   a header of another first number does not link. A higher second number has more calls. */
#define CONGURAHA_VERSION "1.0.0"
#define CONGURAHA_VERSION_MAJOR 1
#define CONGURAHA_VERSION_MINOR 0
#define CONGURAHA_VERSION_PATCH 0

#ifdef __cplusplus
extern "C" {
#endif

/* Compilers warn where the answer is not looked at, or the session that an export returns is dropped; gcc does so even
   after a cast to void. */
#if defined __GNUC__
#define CONGURAHA_USE_RESULT __attribute__((warn_unused_result))
#else
#define CONGURAHA_USE_RESULT
#endif
#define CONGURAHA_CALL CONGURAHA_USE_RESULT static inline
/* Compiles where the condition holds. */
#define CONGURAHA_ASSERT(name, condition) typedef char conguraha_assert_##name[(condition) ? 1 : -1]

#define CONGURAHA_BLOCK 16             /* bytes of a block, and of an IV */
#define CONGURAHA_KEYS 240             /* bytes of the round keys */
#define CONGURAHA_MAX_BITS 524288      /* bits of the largest feed */
#define CONGURAHA_MAX_BYTES 65536      /* its bytes */
#define CONGURAHA_MAX_PAD_BITS 524287  /* bits of the largest text that can be padded */
#define CONGURAHA_MAX_UNITS UINT64_MAX /* units that one session processes, 2^64 - 1 */

enum conguraha_mode { CONGURAHA_ECB = 0, CONGURAHA_CBC = 1, CONGURAHA_CFB = 2, CONGURAHA_OFB = 3, CONGURAHA_CTR = 4 };
enum conguraha_direction { CONGURAHA_ENCRYPT = 0, CONGURAHA_DECRYPT = 1 };

/* ---- answers */

enum conguraha_answer {
    CONGURAHA_OK = 0,
    CONGURAHA_KEY_LENGTH = 1,
    CONGURAHA_IV_LENGTH = 2,
    CONGURAHA_UNIT_LENGTH = 3,
    CONGURAHA_NOT_OPENED = 4,
    CONGURAHA_CLOSED = 5,
    CONGURAHA_BITS = 6,
    CONGURAHA_PART_UNIT = 7,
    CONGURAHA_ROOM = 8,
    CONGURAHA_UNIT_LIMIT = 9,
    /* 10 is reserved. */
    CONGURAHA_NO_BLOCK = 11,
    CONGURAHA_NOT_FORMED = 12, /* the program modeline's; no call of this file answers it */
    CONGURAHA_MESSAGE_LENGTH = 13,
    CONGURAHA_COUNTER_LENGTH = 14,
    CONGURAHA_COUNTER_LIMIT = 15,
    CONGURAHA_OTHER_MESSAGE = 16,
    /* Asked before all others. */
    CONGURAHA_NO_MODE = 64,
    CONGURAHA_OVERLAP = 65
};

/* A sentence in English for an answer, or for the number that an export gives. */
static inline const char *conguraha_answer_text(size_t answer)
{
    switch (answer) {
    case CONGURAHA_OK:
        return "done";
    case CONGURAHA_KEY_LENGTH:
        return "the key is not 16, 24 or 32 bytes long";
    case CONGURAHA_IV_LENGTH:
        return "the IV is not 16 bytes long, or in ECB not empty";
    case CONGURAHA_UNIT_LENGTH:
        return "n is not 1 to 128 in CFB, or not 128 in another mode";
    case CONGURAHA_NOT_OPENED:
        return "the session was not opened, or its opening was refused";
    case CONGURAHA_CLOSED:
        return "the session is closed: an earlier feed in OFB or CTR was not whole blocks";
    case CONGURAHA_BITS:
        return "there are more bits than the input has, or than one call takes";
    case CONGURAHA_PART_UNIT:
        return "the bits are not whole units (for unpad, not one or more whole blocks)";
    case CONGURAHA_ROOM:
        return "the output has too few bytes for what would be written";
    case CONGURAHA_UNIT_LIMIT:
        return "the session would have processed more than 2^64 - 1 units";
    case CONGURAHA_NO_BLOCK:
        return "the ciphertext is not whole blocks, or has no block of that number";
    case CONGURAHA_NOT_FORMED:
        return "the text does not have the form that modeline reads";
    case CONGURAHA_MESSAGE_LENGTH:
        return "the message is not whole bytes, or not longer than 16 bytes";
    case CONGURAHA_COUNTER_LENGTH:
        return "m is not 1 to 128 in CTR, or not 128 in another mode";
    case CONGURAHA_COUNTER_LIMIT:
        return "the session would have used more than its 2^m counter blocks";
    case CONGURAHA_OTHER_MESSAGE:
        return "the counter block is not of this message: its upper bits are not the IV's";
    case CONGURAHA_NO_MODE:
        return "the mode is none of the five";
    case CONGURAHA_OVERLAP:
        return "the output overlaps the input, or something else that is handed over";
    default:
        return "no such answer";
    }
}

/* ---- sessions */

/* A session. It is written by the calls, and may be read, copied, moved and stored; a stored one is read back by
   programs that were built with the same first version number. A copy is a session of its own in the same state; to
   encrypt with both is to use one IV, or one keystream, twice. `reg` is not for a log: in OFB it is keystream.
   Any bytes are a session. Of a flag 0 says no, and any other value yes. One whose mode is none of the five is answered
   CONGURAHA_NO_MODE; one whose rounds, n or m no opening gives, CONGURAHA_NOT_OPENED. Any other is fed as it stands.
   A feed changes `units`, `reg` and `closed`, and nothing else. */
struct conguraha_session {
    uint64_t units; /* processed so far */
    size_t mode;    /* of enum conguraha_mode */
    size_t n;       /* bits of a unit: the segment length in CFB, 128 in the other modes */
    size_t m;       /* bits of the counter, the lowest of the block, in CTR; 128 in the other modes */
    size_t rounds;
    uint8_t keys[CONGURAHA_KEYS];
    uint8_t reg[CONGURAHA_BLOCK]; /* the register: the IV at first */
    uint8_t decrypting;
    uint8_t closed;
    uint8_t spare[6]; /* written 0 by an opening; no call looks at it */
};

/* A session of the older release, whose units were a 32-bit number, as that release's header laid it out. */
struct conguraha_session32 {
    size_t mode;
    uint8_t decrypting;
    uint8_t spare[7];
    size_t n;
    size_t m;
    size_t rounds;
    uint8_t keys[CONGURAHA_KEYS];
    uint8_t reg[CONGURAHA_BLOCK];
    uint32_t units;
    uint8_t closed;
    uint8_t spare2[3];
};

/* Opens a session. `n` is the segment's bits in CFB, and 128 in the other modes. The IV has 16 bytes, and none in
   ECB; it is never used twice to encrypt under one key (SP 800-38A, appendices B and C, says how to choose it).
   Answers: CONGURAHA_NO_MODE, CONGURAHA_KEY_LENGTH, CONGURAHA_IV_LENGTH, CONGURAHA_UNIT_LENGTH.
   Writes the session: the opened one, or where it is refused one whose feeds are answered CONGURAHA_NOT_OPENED.
   `mode` is of enum conguraha_mode. Any `direction` but CONGURAHA_ENCRYPT decrypts. */
CONGURAHA_CALL enum conguraha_answer conguraha_session_open(struct conguraha_session *session, size_t mode,
                                                            enum conguraha_direction direction, size_t n,
                                                            const uint8_t *key, size_t key_length, const uint8_t *iv,
                                                            size_t iv_length);

/* The same with a counter of m bits in CTR: the lowest m bits of the IV count up, modulo 2^m, and the other bits
   stay, so that they can name the message (SP 800-38A, appendix B). Such a session processes at most 2^m units.
   conguraha_session_open is this with m = 128; the other modes take no other m.
   Answers: those of conguraha_session_open, then CONGURAHA_COUNTER_LENGTH. */
CONGURAHA_CALL enum conguraha_answer conguraha_session_open_counter(struct conguraha_session *session, size_t mode,
                                                                    enum conguraha_direction direction, size_t n,
                                                                    size_t m, const uint8_t *key, size_t key_length,
                                                                    const uint8_t *iv, size_t iv_length);

/* Feeds `length` bytes and writes as many, from out[0] on. How a text is cut into feeds changes nothing in what is
   written, as long as each cut is between units. In OFB and CTR the last feed need not be whole blocks: it closes the
   session. A feed of 0 bytes changes nothing, whether it is accepted or refused.
   Answers: CONGURAHA_OVERLAP, CONGURAHA_NO_MODE, CONGURAHA_NOT_OPENED, CONGURAHA_CLOSED, CONGURAHA_BITS (more than
   CONGURAHA_MAX_BYTES), CONGURAHA_PART_UNIT, CONGURAHA_ROOM, CONGURAHA_UNIT_LIMIT, CONGURAHA_COUNTER_LIMIT.
   Writes the output and the session; both stay as they were where it is refused. `*runs`, where `runs` is not NULL,
   becomes the runs of the block cipher: one for each unit, a short one included, and 0 where it is refused. */
CONGURAHA_CALL enum conguraha_answer conguraha_session_feed_bytes(struct conguraha_session *session,
                                                                  const uint8_t *input, size_t length, uint8_t *out,
                                                                  size_t out_length, size_t *runs);

/* The same by bits: feeds the first `bits` bits of the input, from the highest bit of its first byte on, and writes
   as many from out[place] on, in whole bytes; the spare bits of the last one become 0. `bits` are not bytes: 64 bytes
   are 512 bits.
   Answers: those of conguraha_session_feed_bytes; CONGURAHA_BITS also where the input has fewer bits. */
CONGURAHA_CALL enum conguraha_answer conguraha_session_feed_bits(struct conguraha_session *session,
                                                                 const uint8_t *input, size_t input_length, size_t bits,
                                                                 uint8_t *out, size_t out_length, size_t place,
                                                                 size_t *runs);

/* 1 where the two sessions are alike: mode, direction, n, m, rounds, the round keys in use and the register are
   equal. Else 0; so too where the mode of either is none of the five. Units and closing are not compared. A sender and
   its receiver are not alike: their directions differ. */
CONGURAHA_CALL int conguraha_session_alike(const struct conguraha_session *one, const struct conguraha_session *other);

/* Carries a session of the older release over: every part as it was. Feeds then answer and write what they did there
   (but for a mode that is none of the five, which that release answered with 12); and where it answered
   CONGURAHA_UNIT_LIMIT, having 4,294,967,295 for its limit, they go on, or answer CONGURAHA_COUNTER_LIMIT. It refuses
   nothing. From then on feed `session` alone: both are the same session. (Releases between had today's fields in
   another order: copy them one by one.) */
static inline void conguraha_session_carry(struct conguraha_session *session, const struct conguraha_session32 *older);

/* Writes 0 to that many bytes, and the compiler may not leave it out: for sessions, keys and texts that are no longer
   needed. A feed of a session of zero bytes is answered CONGURAHA_NOT_OPENED. */
static inline void conguraha_wipe(void *bytes, size_t length);

/* ---- before a feed, and of its counter */

/* What a feed of that many bits will cost; nothing is run. A feed that is accepted writes that many bytes and makes
   that many runs of the block cipher.
   Answers: CONGURAHA_NO_MODE, CONGURAHA_UNIT_LENGTH, CONGURAHA_BITS (more than CONGURAHA_MAX_BITS),
   CONGURAHA_PART_UNIT.
   Writes `*bytes` and `*runs`, each where it is not NULL; 0 where it is refused. */
CONGURAHA_CALL enum conguraha_answer conguraha_forecast(size_t mode, size_t n, size_t bits, size_t *bytes,
                                                        size_t *runs);

/* The place of a counter block in its message: how often the IV was counted up in its lowest m bits to give the block,
   as a number of 16 bytes, highest first (for an m of at most 64 the last 8 hold it). In a session in CTR the counter
   block of unit t, counted from 0, has the place t after the opening's IV.
   Answers: CONGURAHA_COUNTER_LENGTH, CONGURAHA_OTHER_MESSAGE.
   Writes `increments`; zero bytes where it is refused. */
CONGURAHA_CALL enum conguraha_answer conguraha_counter_place(const uint8_t iv[CONGURAHA_BLOCK],
                                                             const uint8_t block[CONGURAHA_BLOCK], size_t m,
                                                             uint8_t increments[CONGURAHA_BLOCK]);

/* ---- padding: one 1 bit, then the fewest 0 bits that reach whole blocks (SP 800-38A, ISO/IEC 7816-4; not PKCS#7) */

/* The bytes of a text of that many bits, padded. */
#define CONGURAHA_PADDED_BYTES(bits) (((bits) / 128 + 1) * CONGURAHA_BLOCK)

/* Pads the first `bits` bits of the input, and writes the padded text, whole blocks, from out[place] on.
   Answers: CONGURAHA_OVERLAP, CONGURAHA_BITS (more than the input has, or than CONGURAHA_MAX_PAD_BITS),
   CONGURAHA_ROOM.
   Writes the output, which stays as it was where it is refused; and `*padded_bits`, where it is not NULL, which
   becomes the padded text's bits, or 0. */
CONGURAHA_CALL enum conguraha_answer conguraha_pad_bits(const uint8_t *input, size_t input_length, size_t bits,
                                                        uint8_t *out, size_t out_length, size_t place,
                                                        size_t *padded_bits);

/* How many bits of a padded text, the first `bits` bits of the input, stand before its padding. The last block alone
   is looked at; one of zero bytes counts as padding whole. Bits that are no whole bytes, of a text that had whole
   bytes, tell that it was damaged.
   Answers: CONGURAHA_BITS, CONGURAHA_PART_UNIT (not one or more whole blocks).
   Writes `*text_bits`, where it is not NULL; 0 where it is refused. */
CONGURAHA_CALL enum conguraha_answer conguraha_unpad_bits(const uint8_t *input, size_t input_length, size_t bits,
                                                          size_t *text_bits);

/* ---- whole CBC messages with ciphertext stealing (RFC 2040; also CBC-CTS, CS3), no longer than their text: 17 to
   65,536 bytes */

/* Encrypts or decrypts `length` bytes, and writes as many from out[0] on.
   Answers: CONGURAHA_OVERLAP, CONGURAHA_KEY_LENGTH, CONGURAHA_IV_LENGTH, CONGURAHA_BITS (more than
   CONGURAHA_MAX_BYTES), CONGURAHA_MESSAGE_LENGTH, CONGURAHA_ROOM.
   Writes the output, which stays as it was where it is refused. */
CONGURAHA_CALL enum conguraha_answer conguraha_cts_encrypt(const uint8_t *key, size_t key_length, const uint8_t *iv,
                                                           size_t iv_length, const uint8_t *text, size_t length,
                                                           uint8_t *out, size_t out_length);
CONGURAHA_CALL enum conguraha_answer conguraha_cts_decrypt(const uint8_t *key, size_t key_length, const uint8_t *iv,
                                                           size_t iv_length, const uint8_t *sent, size_t length,
                                                           uint8_t *out, size_t out_length);

/* ---- one block of a CBC ciphertext, counted from 0 */

/* What stands before block j: the IV for j = 0, else block j - 1.
   Answers: CONGURAHA_IV_LENGTH, CONGURAHA_NO_BLOCK.
   `*neighbour` becomes a pointer to its 16 bytes, in `iv` or in `ciphertext`; NULL where it is refused. */
CONGURAHA_CALL enum conguraha_answer conguraha_cbc_neighbour(const uint8_t *iv, size_t iv_length,
                                                             const uint8_t *ciphertext, size_t ciphertext_length,
                                                             size_t j, const uint8_t **neighbour);

/* Decrypts block j with its neighbour.
   Answers: CONGURAHA_KEY_LENGTH, CONGURAHA_IV_LENGTH, CONGURAHA_NO_BLOCK.
   Writes the 16 bytes of `out`, which stay as they were where it is refused. */
CONGURAHA_CALL enum conguraha_answer conguraha_cbc_block(const uint8_t *key, size_t key_length, const uint8_t *iv,
                                                         size_t iv_length, const uint8_t *ciphertext,
                                                         size_t ciphertext_length, size_t j,
                                                         uint8_t out[CONGURAHA_BLOCK]);

/* ---- AES itself: one block under a key, and the key's round keys */

/* Encrypts or decrypts one block.
   Answers: CONGURAHA_KEY_LENGTH.
   Writes the block; zero bytes where it is refused. */
CONGURAHA_CALL enum conguraha_answer conguraha_aes_encrypt(const uint8_t *key, size_t key_length,
                                                           const uint8_t block[CONGURAHA_BLOCK],
                                                           uint8_t out[CONGURAHA_BLOCK]);
CONGURAHA_CALL enum conguraha_answer conguraha_aes_decrypt(const uint8_t *key, size_t key_length,
                                                           const uint8_t block[CONGURAHA_BLOCK],
                                                           uint8_t out[CONGURAHA_BLOCK]);

/* The rounds and the round keys of a key: 16 bytes for each round and 16 more, and 0 after them.
   Answers: CONGURAHA_KEY_LENGTH.
   Writes `*rounds` and `keys`; 0 and zero bytes where it is refused. */
CONGURAHA_CALL enum conguraha_answer conguraha_aes_expand(const uint8_t *key, size_t key_length, size_t *rounds,
                                                          uint8_t keys[CONGURAHA_KEYS]);

/* ---- what the library exports

   The calls above are these, with a session behind a pointer; they answer in the same order. Other languages call
   these: structs go by value, both ways, and have no bytes but their fields. A mode that is none of the five is
   answered CONGURAHA_NO_MODE, and a flag decrypts where it is not 0. conguraha1_cts_encrypt and conguraha1_cts_decrypt
   take bits and a place: CONGURAHA_MESSAGE_LENGTH is answered also where the bits are not whole bytes.
   conguraha1_cbc_block takes a place, and answers CONGURAHA_ROOM last. Nothing that is written may overlap anything
   else that is handed over, and here this is not checked. */

struct conguraha_opened {
    struct conguraha_session session;
    size_t number;
};

struct conguraha_fed {
    struct conguraha_session session; /* as it was handed over, where it is refused */
    size_t runs;
    size_t number;
};

struct conguraha_cost {
    size_t bytes;
    size_t runs;
    size_t number;
};

struct conguraha_place {
    uint8_t increments[CONGURAHA_BLOCK];
    size_t number;
};

struct conguraha_length {
    size_t bits;
    size_t number;
};

/* A part of what was handed over: `length` bytes from `offset` on, of the IV where `source` is 0, of the ciphertext
   where it is 1. Where it is refused all three are 0. */
struct conguraha_neighbour {
    size_t offset;
    size_t length;
    size_t source;
    size_t number;
};

CONGURAHA_USE_RESULT struct conguraha_opened conguraha1_open(size_t mode, uint8_t decrypting, size_t n,
                                                             const uint8_t *key, size_t key_length, const uint8_t *iv,
                                                             size_t iv_length);
CONGURAHA_USE_RESULT struct conguraha_opened conguraha1_open_counter(size_t mode, uint8_t decrypting, size_t n,
                                                                     size_t m, const uint8_t *key, size_t key_length,
                                                                     const uint8_t *iv, size_t iv_length);
CONGURAHA_USE_RESULT struct conguraha_fed conguraha1_feed(struct conguraha_session session, const uint8_t *input,
                                                          size_t input_length, size_t bits, uint8_t *out,
                                                          size_t out_length, size_t place);
CONGURAHA_USE_RESULT struct conguraha_session conguraha1_carry(struct conguraha_session32 older);
CONGURAHA_USE_RESULT uint8_t conguraha1_alike(struct conguraha_session a, struct conguraha_session b);
CONGURAHA_USE_RESULT struct conguraha_cost conguraha1_forecast(size_t mode, size_t n, size_t bits);
CONGURAHA_USE_RESULT struct conguraha_place conguraha1_counter_place(const uint8_t iv[CONGURAHA_BLOCK],
                                                                     const uint8_t block[CONGURAHA_BLOCK], size_t m);
CONGURAHA_USE_RESULT struct conguraha_length conguraha1_pad(const uint8_t *input, size_t input_length, size_t bits,
                                                            uint8_t *out, size_t out_length, size_t place);
CONGURAHA_USE_RESULT struct conguraha_length conguraha1_unpad(const uint8_t *input, size_t input_length, size_t bits);
CONGURAHA_USE_RESULT uint8_t conguraha1_cts_encrypt(const uint8_t *key, size_t key_length, const uint8_t *iv,
                                                    size_t iv_length, const uint8_t *input, size_t input_length,
                                                    size_t bits, uint8_t *out, size_t out_length, size_t place);
CONGURAHA_USE_RESULT uint8_t conguraha1_cts_decrypt(const uint8_t *key, size_t key_length, const uint8_t *iv,
                                                    size_t iv_length, const uint8_t *input, size_t input_length,
                                                    size_t bits, uint8_t *out, size_t out_length, size_t place);
CONGURAHA_USE_RESULT uint8_t conguraha1_cbc_block(const uint8_t *key, size_t key_length, const uint8_t *iv,
                                                  size_t iv_length, const uint8_t *text, size_t text_length, size_t j,
                                                  uint8_t *out, size_t out_length, size_t place);
CONGURAHA_USE_RESULT struct conguraha_neighbour
conguraha1_cbc_neighbour(const uint8_t *iv, size_t iv_length, const uint8_t *text, size_t text_length, size_t j);
CONGURAHA_USE_RESULT uint8_t conguraha1_aes_expand(const uint8_t *key, size_t key_length, size_t *rounds,
                                                   uint8_t keys[CONGURAHA_KEYS]);
CONGURAHA_USE_RESULT uint8_t conguraha1_aes_encrypt(const uint8_t *key, size_t key_length,
                                                    const uint8_t block[CONGURAHA_BLOCK], uint8_t out[CONGURAHA_BLOCK]);
CONGURAHA_USE_RESULT uint8_t conguraha1_aes_decrypt(const uint8_t *key, size_t key_length,
                                                    const uint8_t block[CONGURAHA_BLOCK], uint8_t out[CONGURAHA_BLOCK]);

/* The layout that the library has: where each field is, and how wide. */
#define CONGURAHA_FIELD(type, field, place, width)                                                                     \
    CONGURAHA_ASSERT(type##_##field, offsetof(struct conguraha_##type, field) == (place) &&                            \
                                         sizeof(((struct conguraha_##type *)0)->field) == (width))
CONGURAHA_ASSERT(size_of_a_word, sizeof(size_t) == 8);
CONGURAHA_FIELD(session, units, 0, 8);
CONGURAHA_FIELD(session, mode, 8, 8);
CONGURAHA_FIELD(session, n, 16, 8);
CONGURAHA_FIELD(session, m, 24, 8);
CONGURAHA_FIELD(session, rounds, 32, 8);
CONGURAHA_FIELD(session, keys, 40, 240);
CONGURAHA_FIELD(session, reg, 280, 16);
CONGURAHA_FIELD(session, decrypting, 296, 1);
CONGURAHA_FIELD(session, closed, 297, 1);
CONGURAHA_FIELD(session, spare, 298, 6);
CONGURAHA_ASSERT(session_size, sizeof(struct conguraha_session) == 304);
CONGURAHA_FIELD(session32, mode, 0, 8);
CONGURAHA_FIELD(session32, decrypting, 8, 1);
CONGURAHA_FIELD(session32, spare, 9, 7);
CONGURAHA_FIELD(session32, n, 16, 8);
CONGURAHA_FIELD(session32, m, 24, 8);
CONGURAHA_FIELD(session32, rounds, 32, 8);
CONGURAHA_FIELD(session32, keys, 40, 240);
CONGURAHA_FIELD(session32, reg, 280, 16);
CONGURAHA_FIELD(session32, units, 296, 4);
CONGURAHA_FIELD(session32, closed, 300, 1);
CONGURAHA_FIELD(session32, spare2, 301, 3);
CONGURAHA_ASSERT(session32_size, sizeof(struct conguraha_session32) == 304);
CONGURAHA_FIELD(opened, session, 0, 304);
CONGURAHA_FIELD(opened, number, 304, 8);
CONGURAHA_ASSERT(opened_size, sizeof(struct conguraha_opened) == 312);
CONGURAHA_FIELD(fed, session, 0, 304);
CONGURAHA_FIELD(fed, runs, 304, 8);
CONGURAHA_FIELD(fed, number, 312, 8);
CONGURAHA_ASSERT(fed_size, sizeof(struct conguraha_fed) == 320);
CONGURAHA_FIELD(cost, bytes, 0, 8);
CONGURAHA_FIELD(cost, runs, 8, 8);
CONGURAHA_FIELD(cost, number, 16, 8);
CONGURAHA_ASSERT(cost_size, sizeof(struct conguraha_cost) == 24);
CONGURAHA_FIELD(place, increments, 0, 16);
CONGURAHA_FIELD(place, number, 16, 8);
CONGURAHA_ASSERT(place_size, sizeof(struct conguraha_place) == 24);
CONGURAHA_FIELD(length, bits, 0, 8);
CONGURAHA_FIELD(length, number, 8, 8);
CONGURAHA_ASSERT(length_size, sizeof(struct conguraha_length) == 16);
CONGURAHA_FIELD(neighbour, offset, 0, 8);
CONGURAHA_FIELD(neighbour, length, 8, 8);
CONGURAHA_FIELD(neighbour, source, 16, 8);
CONGURAHA_FIELD(neighbour, number, 24, 8);
CONGURAHA_ASSERT(neighbour_size, sizeof(struct conguraha_neighbour) == 32);

/* ---- the calls above, over the exports */

/* Whether two ranges share a byte. */
static inline int conguraha_overlap(const void *a, size_t a_length, const void *b, size_t b_length)
{
    uintptr_t one = (uintptr_t)a, other = (uintptr_t)b;
    return a_length > 0 && b_length > 0 && (one < other ? other - one < a_length : one - other < b_length);
}

/* The bits of that many bytes; where they are more than a call takes, more than any input has. */
static inline size_t conguraha_bits_of(size_t bytes)
{
    return bytes <= CONGURAHA_MAX_BYTES ? 8 * bytes : SIZE_MAX;
}

static inline void conguraha_wipe(void *bytes, size_t length)
{
    volatile uint8_t *at = (volatile uint8_t *)bytes;
    while (length > 0)
        at[--length] = 0;
}

CONGURAHA_CALL enum conguraha_answer conguraha_session_open(struct conguraha_session *session, size_t mode,
                                                            enum conguraha_direction direction, size_t n,
                                                            const uint8_t *key, size_t key_length, const uint8_t *iv,
                                                            size_t iv_length)
{
    return conguraha_session_open_counter(session, mode, direction, n, 8 * CONGURAHA_BLOCK, key, key_length, iv,
                                          iv_length);
}

CONGURAHA_CALL enum conguraha_answer conguraha_session_open_counter(struct conguraha_session *session, size_t mode,
                                                                    enum conguraha_direction direction, size_t n,
                                                                    size_t m, const uint8_t *key, size_t key_length,
                                                                    const uint8_t *iv, size_t iv_length)
{
    struct conguraha_opened opened =
        conguraha1_open_counter(mode, direction != CONGURAHA_ENCRYPT, n, m, key, key_length, iv, iv_length);
    *session = opened.session;
    return (enum conguraha_answer)opened.number;
}

CONGURAHA_CALL enum conguraha_answer conguraha_session_feed_bytes(struct conguraha_session *session,
                                                                  const uint8_t *input, size_t length, uint8_t *out,
                                                                  size_t out_length, size_t *runs)
{
    return conguraha_session_feed_bits(session, input, length, conguraha_bits_of(length), out, out_length, 0, runs);
}

CONGURAHA_CALL enum conguraha_answer conguraha_session_feed_bits(struct conguraha_session *session,
                                                                 const uint8_t *input, size_t input_length, size_t bits,
                                                                 uint8_t *out, size_t out_length, size_t place,
                                                                 size_t *runs)
{
    struct conguraha_fed fed;
    if (runs)
        *runs = 0;
    if (conguraha_overlap(input, input_length, out, out_length) ||
        conguraha_overlap(session, sizeof *session, out, out_length))
        return CONGURAHA_OVERLAP;
    fed = conguraha1_feed(*session, input, input_length, bits, out, out_length, place);
    *session = fed.session;
    if (runs)
        *runs = fed.runs;
    return (enum conguraha_answer)fed.number;
}

CONGURAHA_CALL int conguraha_session_alike(const struct conguraha_session *one, const struct conguraha_session *other)
{
    return conguraha1_alike(*one, *other);
}

static inline void conguraha_session_carry(struct conguraha_session *session, const struct conguraha_session32 *older)
{
    *session = conguraha1_carry(*older);
}

CONGURAHA_CALL enum conguraha_answer conguraha_forecast(size_t mode, size_t n, size_t bits, size_t *bytes, size_t *runs)
{
    struct conguraha_cost cost = conguraha1_forecast(mode, n, bits);
    if (bytes)
        *bytes = cost.bytes;
    if (runs)
        *runs = cost.runs;
    return (enum conguraha_answer)cost.number;
}

CONGURAHA_CALL enum conguraha_answer conguraha_counter_place(const uint8_t iv[CONGURAHA_BLOCK],
                                                             const uint8_t block[CONGURAHA_BLOCK], size_t m,
                                                             uint8_t increments[CONGURAHA_BLOCK])
{
    struct conguraha_place place = conguraha1_counter_place(iv, block, m);
    memcpy(increments, place.increments, CONGURAHA_BLOCK);
    return (enum conguraha_answer)place.number;
}

CONGURAHA_CALL enum conguraha_answer conguraha_pad_bits(const uint8_t *input, size_t input_length, size_t bits,
                                                        uint8_t *out, size_t out_length, size_t place,
                                                        size_t *padded_bits)
{
    struct conguraha_length padded = {0, CONGURAHA_OVERLAP};
    if (!conguraha_overlap(input, input_length, out, out_length))
        padded = conguraha1_pad(input, input_length, bits, out, out_length, place);
    if (padded_bits)
        *padded_bits = padded.bits;
    return (enum conguraha_answer)padded.number;
}

CONGURAHA_CALL enum conguraha_answer conguraha_unpad_bits(const uint8_t *input, size_t input_length, size_t bits,
                                                          size_t *text_bits)
{
    struct conguraha_length unpadded = conguraha1_unpad(input, input_length, bits);
    if (text_bits)
        *text_bits = unpadded.bits;
    return (enum conguraha_answer)unpadded.number;
}

CONGURAHA_CALL enum conguraha_answer conguraha_cts_encrypt(const uint8_t *key, size_t key_length, const uint8_t *iv,
                                                           size_t iv_length, const uint8_t *text, size_t length,
                                                           uint8_t *out, size_t out_length)
{
    uint8_t number;
    if (conguraha_overlap(text, length, out, out_length) || conguraha_overlap(key, key_length, out, out_length) ||
        conguraha_overlap(iv, iv_length, out, out_length))
        return CONGURAHA_OVERLAP;
    number = conguraha1_cts_encrypt(key, key_length, iv, iv_length, text, length, conguraha_bits_of(length), out,
                                    out_length, 0);
    return (enum conguraha_answer)number;
}

CONGURAHA_CALL enum conguraha_answer conguraha_cts_decrypt(const uint8_t *key, size_t key_length, const uint8_t *iv,
                                                           size_t iv_length, const uint8_t *sent, size_t length,
                                                           uint8_t *out, size_t out_length)
{
    uint8_t number;
    if (conguraha_overlap(sent, length, out, out_length) || conguraha_overlap(key, key_length, out, out_length) ||
        conguraha_overlap(iv, iv_length, out, out_length))
        return CONGURAHA_OVERLAP;
    number = conguraha1_cts_decrypt(key, key_length, iv, iv_length, sent, length, conguraha_bits_of(length), out,
                                    out_length, 0);
    return (enum conguraha_answer)number;
}

CONGURAHA_CALL enum conguraha_answer conguraha_cbc_neighbour(const uint8_t *iv, size_t iv_length,
                                                             const uint8_t *ciphertext, size_t ciphertext_length,
                                                             size_t j, const uint8_t **neighbour)
{
    struct conguraha_neighbour found = conguraha1_cbc_neighbour(iv, iv_length, ciphertext, ciphertext_length, j);
    *neighbour = found.number != CONGURAHA_OK ? NULL
                 : found.source == 0          ? iv + found.offset
                                              : ciphertext + found.offset;
    return (enum conguraha_answer)found.number;
}

CONGURAHA_CALL enum conguraha_answer conguraha_cbc_block(const uint8_t *key, size_t key_length, const uint8_t *iv,
                                                         size_t iv_length, const uint8_t *ciphertext,
                                                         size_t ciphertext_length, size_t j,
                                                         uint8_t out[CONGURAHA_BLOCK])
{
    uint8_t plain[CONGURAHA_BLOCK] = {0};
    uint8_t number =
        conguraha1_cbc_block(key, key_length, iv, iv_length, ciphertext, ciphertext_length, j, plain, sizeof plain, 0);
    if (number == CONGURAHA_OK)
        memcpy(out, plain, sizeof plain);
    return (enum conguraha_answer)number;
}

CONGURAHA_CALL enum conguraha_answer conguraha_aes_encrypt(const uint8_t *key, size_t key_length,
                                                           const uint8_t block[CONGURAHA_BLOCK],
                                                           uint8_t out[CONGURAHA_BLOCK])
{
    uint8_t made[CONGURAHA_BLOCK] = {0};
    uint8_t number = conguraha1_aes_encrypt(key, key_length, block, made);
    memcpy(out, made, sizeof made);
    return (enum conguraha_answer)number;
}

CONGURAHA_CALL enum conguraha_answer conguraha_aes_decrypt(const uint8_t *key, size_t key_length,
                                                           const uint8_t block[CONGURAHA_BLOCK],
                                                           uint8_t out[CONGURAHA_BLOCK])
{
    uint8_t made[CONGURAHA_BLOCK] = {0};
    uint8_t number = conguraha1_aes_decrypt(key, key_length, block, made);
    memcpy(out, made, sizeof made);
    return (enum conguraha_answer)number;
}

CONGURAHA_CALL enum conguraha_answer conguraha_aes_expand(const uint8_t *key, size_t key_length, size_t *rounds,
                                                          uint8_t keys[CONGURAHA_KEYS])
{
    uint8_t made[CONGURAHA_KEYS] = {0};
    size_t made_rounds = 0;
    uint8_t number = conguraha1_aes_expand(key, key_length, &made_rounds, made);
    *rounds = made_rounds;
    memcpy(keys, made, sizeof made);
    conguraha_wipe(made, sizeof made);
    return (enum conguraha_answer)number;
}

#ifdef __cplusplus
}
#endif
#endif
