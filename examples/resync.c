/* What a lost byte does where a byte is not whole units, as in CFB-3 and CFB-12 (and with blocks): all that comes after
   it is cut into units in the wrong places, and the text never comes right, with answer 0 throughout. What to do: drop
   bytes until whole units are missing. Here each frame tells how many bytes were sent before it, and so how many were
   lost. After the last dropped byte 43 segments may be wrong in CFB-3, or 11 in CFB-12, and the text is right again.

   Byte 20 is lost. Prints the answer for each frame, and the text with `?` for a wrong byte. receive.c has the loop for
   reads that are not whole frames.

  cc -std=c11 examples/resync.c $(pkg-config --cflags --libs conguraha) -o resync
*/
#include <conguraha.h>
#include <stdbool.h>
#include <stdio.h>

/* Fixed for the example: a real key is secret, and a real IV new for each session. */
static const uint8_t key[16] = {1, 2, 3, 4, 5, 6, 7, 8, 9, 10, 11, 12, 13, 14, 15, 16}, iv[16] = {7};
static const uint8_t lines[] = "12;HS 8471.30;qty 40;EUR 18200|13;HS 6109.10;qty 900;EUR 4150|"
                               "14;HS 0901.21;qty 750;EUR 1130|";
enum { LENGTH = sizeof lines - 1, LOST = 20 };
static const struct { size_t before, length; } frames[] = {{0, 30}, {31, 31}, {62, 31}}; /* as they come */

static enum conguraha_answer open_session(struct conguraha_session *session, enum conguraha_direction way, size_t n)
{
    return conguraha_session_open(session, CONGURAHA_CFB, way, n, key, sizeof key, iv, sizeof iv);
}

/* How many bytes of a frame to drop, if it has that many: `before` were sent before it, `taken` were taken, and `whole`
   are the fewest that are whole units, n / gcd(n, 8). Right, too, where bytes were inserted. Only `before % whole`
   counts: a count on the wire must wrap at a multiple of `whole`. */
static size_t bytes_to_drop(size_t before, size_t taken, size_t whole)
{
    return (taken % whole + whole - before % whole) % whole;
}

static enum conguraha_answer run(size_t n, size_t whole, bool with_counts)
{
    struct conguraha_session shed, gateway;
    uint8_t air[LENGTH] = {0}, buffer[LENGTH], text[LENGTH], *frame = air;
    size_t taken = 0, held = 0, ready = 0;
    enum conguraha_answer answer = open_session(&shed, CONGURAHA_ENCRYPT, n);
    if (answer == CONGURAHA_OK)
        answer = conguraha_session_feed_bytes(&shed, lines, LENGTH, air, LENGTH, NULL);
    if (answer == CONGURAHA_OK)
        answer = open_session(&gateway, CONGURAHA_DECRYPT, n);
    memmove(air + LOST, air + LOST + 1, LENGTH - LOST - 1);

    printf("n = %zu, %s counts:", n, with_counts ? "with" : "without");
    for (size_t i = 0; i < sizeof frames / sizeof *frames && answer == CONGURAHA_OK; i++) {
        size_t came = frames[i].length, drop = with_counts ? bytes_to_drop(frames[i].before, taken, whole) : 0;
        if (drop > came)
            drop = came;
        came -= drop, taken += came;
        memcpy(buffer + held, frame + drop, came);
        held += came; /* from here on as in receive.c */
        const size_t length = held - held % whole;
        answer = conguraha_session_feed_bytes(&gateway, buffer, length, text + ready, LENGTH - ready, NULL);
        if (answer == CONGURAHA_OK) {
            ready += length, held -= length;
            memmove(buffer, buffer + length, held);
        }
        printf(" drop %zu, answer %d;", drop, answer);
        frame += frames[i].length;
    }
    putchar('\n');
    for (size_t i = 0; i < ready; i++)
        putchar(text[i] == lines[i < LOST ? i : i + LENGTH - taken] ? text[i] : '?');
    putchar('\n');
    conguraha_wipe(&shed, sizeof shed);
    conguraha_wipe(&gateway, sizeof gateway);
    conguraha_wipe(text, sizeof text);
    return answer;
}

int main(void)
{
    return run(3, 3, false) || run(3, 3, true) || run(12, 3, true);
}
