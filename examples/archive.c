/* The archive viewer: declarations that were stored in CBC.

   Prints one block by its number, with its neighbour, that is, what CBC takes by XOR to it; the whole message without
   its padding; a message with ciphertext stealing, which is as long as its text; and what a wrong block number and a
   damaged block give. A dot stands for a byte that does not print.

  cc -std=c11 examples/archive.c $(pkg-config --cflags --libs conguraha) -o archive
*/
#include <conguraha.h>
#include <stdio.h>
#include <stdlib.h>

/* Fixed for the example. A real key is secret, and each message has an IV of its own, which nobody can foretell. */
static const uint8_t key[16] = {0x2b, 0x7e, 0x15, 0x16, 0x28, 0xae, 0xd2, 0xa6,
                                0xab, 0xf7, 0x15, 0x88, 0x09, 0xcf, 0x4f, 0x3c};
static const uint8_t iv[16] = {0, 1, 2, 3, 4, 5, 6, 7, 8, 9, 10, 11, 12, 13, 14, 15};
static const uint8_t declaration[] = "12;HS 8471.30;qty 40;EUR 18200|13;HS 6109.10;qty 900;EUR 4150";
enum { LENGTH = sizeof declaration - 1, STORED = (LENGTH / CONGURAHA_BLOCK + 1) * CONGURAHA_BLOCK };

static void check(enum conguraha_answer answer)
{
    if (answer != CONGURAHA_OK) {
        fprintf(stderr, "%s\n", conguraha_answer_text(answer));
        exit(1);
    }
}

static void print_text(const uint8_t *text, size_t length)
{
    for (size_t i = 0; i < length; i++)
        putchar(text[i] >= ' ' && text[i] <= '~' ? text[i] : '.');
    putchar('\n');
}

/* As the gateway stored it. */
static void store(uint8_t stored[STORED])
{
    struct conguraha_session session;
    uint8_t padded[STORED];
    size_t bits;
    check(conguraha_pad_bits(declaration, LENGTH, 8 * LENGTH, padded, sizeof padded, 0, &bits));
    check(conguraha_session_open(&session, CONGURAHA_CBC, CONGURAHA_ENCRYPT, 128, key, sizeof key, iv, sizeof iv));
    check(conguraha_session_feed_bytes(&session, padded, bits / 8, stored, STORED, NULL));
    conguraha_wipe(&session, sizeof session);
}

static void view_block(const uint8_t stored[STORED], size_t j)
{
    const uint8_t *neighbour;
    uint8_t block[CONGURAHA_BLOCK];
    printf("block %zu: ", j);
    enum conguraha_answer answer = conguraha_cbc_neighbour(iv, sizeof iv, stored, STORED, j, &neighbour);
    if (answer == CONGURAHA_OK)
        answer = conguraha_cbc_block(key, sizeof key, iv, sizeof iv, stored, STORED, j, block);
    if (answer != CONGURAHA_OK) {
        printf("answer %d, %s\n", answer, conguraha_answer_text(answer));
        return;
    }
    printf("after %s ", neighbour == iv ? "the IV" : "block");
    for (size_t i = 0; i < CONGURAHA_BLOCK; i++)
        printf("%02x", neighbour[i]);
    printf(": ");
    print_text(block, sizeof block);
}

/* The padding is looked for after decryption, and in the last block alone. */
static void view_message(const uint8_t stored[STORED])
{
    struct conguraha_session session;
    uint8_t text[STORED];
    size_t bits;
    check(conguraha_session_open(&session, CONGURAHA_CBC, CONGURAHA_DECRYPT, 128, key, sizeof key, iv, sizeof iv));
    check(conguraha_session_feed_bytes(&session, stored, STORED, text, sizeof text, NULL));
    conguraha_wipe(&session, sizeof session);
    check(conguraha_unpad_bits(text, sizeof text, 8 * sizeof text, &bits));
    printf("%zu bits: ", bits);
    print_text(text, bits / 8);
}

int main(void)
{
    uint8_t stored[STORED], stolen[LENGTH], text[LENGTH];
    store(stored);
    view_block(stored, 0);
    view_block(stored, 2);
    view_block(stored, STORED / CONGURAHA_BLOCK);
    view_message(stored);

    printf("stored in %d bytes, and with ciphertext stealing in %d: ", STORED, LENGTH);
    check(conguraha_cts_encrypt(key, sizeof key, iv, sizeof iv, declaration, LENGTH, stolen, sizeof stolen));
    check(conguraha_cts_decrypt(key, sizeof key, iv, sizeof iv, stolen, sizeof stolen, text, sizeof text));
    print_text(text, sizeof text);

    printf("a bit of block 1 is damaged: block 1 is lost, and in block 2 that bit is wrong; every answer is 0\n");
    stored[CONGURAHA_BLOCK + 3] ^= 0x01;
    view_block(stored, 1);
    view_block(stored, 2);
    view_message(stored);
    printf("a bit of the last block is damaged: the padding is gone too, and somewhere in that block the text ends\n");
    stored[CONGURAHA_BLOCK + 3] ^= 0x01;
    stored[STORED - 1] ^= 0x01;
    view_message(stored);
    return 0;
}
