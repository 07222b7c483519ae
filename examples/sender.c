/* The shed's sender: declaration lines go out as they come, and another library reads them.

   In CTR each line is a message of its own: 12 bytes of the IV are its number, and the other 4 count its blocks
   (m = 32). In CFB-8 all lines are one text, in one session. Prints for each line the bytes and the runs of the block
   cipher that were forecast, what is sent, and what OpenSSL's libcrypto makes of it, which is the line again.

  cc -std=c11 examples/sender.c $(pkg-config --cflags --libs conguraha libcrypto) -o sender
*/
#include <conguraha.h>
#include <openssl/evp.h>
#include <stdio.h>
#include <stdlib.h>

/* Fixed for the example. A real key is secret and serves one mode, and no IV is used twice under it. */
static const uint8_t key[16] = {0x2b, 0x7e, 0x15, 0x16, 0x28, 0xae, 0xd2, 0xa6,
                                0xab, 0xf7, 0x15, 0x88, 0x09, 0xcf, 0x4f, 0x3c};
static const uint8_t cfb_iv[16] = {0, 1, 2, 3, 4, 5, 6, 7, 8, 9, 10, 11, 12, 13, 14, 15};

static const char *const lines[] = {"12;HS 8471.30;qty 40;EUR 18200\n", "13;HS 6109.10;qty 900;EUR 4150\n",
                                    "14;HS 0901.21;qty 75;EUR 11300\n"};
enum { LINES = sizeof lines / sizeof *lines };

static void check(int good, const char *why)
{
    if (!good) {
        fprintf(stderr, "%s\n", why);
        exit(1);
    }
}

static void check_answer(enum conguraha_answer answer)
{
    check(answer == CONGURAHA_OK, conguraha_answer_text(answer));
}

/* The number of the message, highest byte first, then a counter that starts at 0. */
static void counter_block(uint64_t message, uint8_t iv[16])
{
    memset(iv, 0, 16);
    for (size_t i = 12; message > 0; message >>= 8)
        iv[--i] = (uint8_t)message;
}

static void read_back(EVP_CIPHER_CTX *gateway, const uint8_t *sent, size_t length, const char *line)
{
    char text[64];
    int made = 0;
    check(length < sizeof text && EVP_DecryptUpdate(gateway, (uint8_t *)text, &made, sent, (int)length) == 1 &&
              (size_t)made == length && memcmp(text, line, length) == 0,
          "OpenSSL reads something else");
    printf("  %.*s", made, text);
}

/* In CTR a line that is no whole blocks closes the session, so it is fed whole. In CFB-8 any cut would do. */
static void send_line(struct conguraha_session *session, EVP_CIPHER_CTX *gateway, const char *line)
{
    const size_t length = strlen(line);
    size_t bytes, runs, made;
    check_answer(conguraha_forecast(session->mode, session->n, 8 * length, &bytes, &runs));
    uint8_t *sent = malloc(bytes);
    check(sent != NULL, "no memory");
    check_answer(conguraha_session_feed_bytes(session, (const uint8_t *)line, length, sent, bytes, &made));
    check(made == runs, "the forecast was wrong");
    printf("%zu bytes, %zu runs: ", bytes, runs);
    for (size_t i = 0; i < bytes; i++)
        printf("%02x", sent[i]);
    printf("\n");
    read_back(gateway, sent, bytes, line);
    free(sent);
}

int main(void)
{
    struct conguraha_session session;
    EVP_CIPHER_CTX *gateway = EVP_CIPHER_CTX_new();
    check(gateway != NULL, "no memory");

    printf("CTR, m = 32, messages 700 to 702\n");
    for (size_t i = 0; i < LINES; i++) {
        uint8_t iv[16];
        counter_block(700 + i, iv);
        check_answer(conguraha_session_open_counter(&session, CONGURAHA_CTR, CONGURAHA_ENCRYPT, 128, 32, key,
                                                    sizeof key, iv, sizeof iv));
        /* OpenSSL counts in all 128 bits: the same, since a session with m = 32 ends before bit 33 would change. */
        check(EVP_DecryptInit_ex(gateway, EVP_aes_128_ctr(), NULL, key, iv) == 1, "OpenSSL refuses CTR");
        send_line(&session, gateway, lines[i]);
    }

    printf("CFB-8, one session\n");
    check_answer(conguraha_session_open(&session, CONGURAHA_CFB, CONGURAHA_ENCRYPT, 8, key, sizeof key, cfb_iv,
                                        sizeof cfb_iv));
    check(EVP_DecryptInit_ex(gateway, EVP_aes_128_cfb8(), NULL, key, cfb_iv) == 1, "OpenSSL refuses CFB-8");
    for (size_t i = 0; i < LINES; i++)
        send_line(&session, gateway, lines[i]);

    EVP_CIPHER_CTX_free(gateway);
    conguraha_wipe(&session, sizeof session);
    return 0;
}
