/* A session in one process: parties 1 and 2 have the message "AB", party 3 has another one and rebuilds theirs, and party 4 is bad: it sends nothing, and then what
 * is no packet. Prints each good party's result and whom it saw cheat, as the desk reads it, and what a second reader is given later, the screen in the hall.
 *     gcc c/example.c $(pkg-config --cflags --libs cipangohu) -o example && ./example */
#include <stdio.h>
#include <stdlib.h>
#include <string.h>
#include "cipangohu.h"
enum { SESSION = 7, N = 4, T = 1, GOOD = 3, STATE = CIPANGOHU_STATE, ROOT = CIPANGOHU_ROOT, OUTBOX = CIPANGOHU_OUTBOX, INBOX = CIPANGOHU_INBOX };
static uint8_t state[GOOD][STATE], root[GOOD][ROOT], out[OUTBOX], inbox[N][INBOX], relays[INBOX];
/* The value of an accepted call; a refused one ends the program. */
static uint32_t value(cipangohu_answer answer) {
    if (answer.cause == CIPANGOHU_ACCEPTED) return answer.value;
    fprintf(stderr, "%s\n", cipangohu_cause_text(answer.cause));
    exit(1);
}
/* Prints a result, of the value of step 5, and whom the party saw cheat. */
static void show(const char *reader, size_t own, uint32_t ended, cipangohu_bytes message) {
    printf(cipangohu_result_settled(ended) ? "%s%zu = %.*s\n" : "%s%zu -\n", reader, own, (int)message.len, (const char *)message.at);
    for (size_t other = 1; other <= N; other++)
        if (cipangohu_map_has(cipangohu_result_faulty(ended), other)) printf("%s%zu saw %zu cheat\n", reader, own, other);
}
int main(void) {
    const char *messages[GOOD] = {"AB", "AB", "other"};
    size_t size[N] = {0}, end = 0;
    for (size_t i = 0; i < GOOD; i++)
        value(cipangohu_open(SESSION, N, T, i + 1, (const uint8_t *)messages[i], strlen(messages[i]), state[i], STATE, root[i], ROOT));
    for (size_t i = 0; i < GOOD; i++) { /* the short agreements settle on party 1's root and bit */
        printf("%zu %s\n", i + 1, value(cipangohu_agree_root(state[i], STATE, root[0], ROOT)) ? "happy" : "unhappy");
        uint32_t len = value(cipangohu_agree_bit(state[i], STATE, 1, out, OUTBOX));
        for (size_t j = 0; j < N; j++) { /* each entry of the outbox goes to its party */
            cipangohu_bytes packet = cipangohu_entry(out, len, j + 1);
            size[j] = value(cipangohu_append(inbox[j], INBOX, size[j], packet.at, packet.len));
        }
    }
    for (size_t i = 0; i < GOOD; i++) { /* a relay goes to all, so one inbox serves for all */
        size[i] = value(cipangohu_append(inbox[i], INBOX, size[i], NULL, 0));
        uint32_t len = value(cipangohu_take_shares(state[i], STATE, inbox[i], size[i], out, OUTBOX));
        end = value(cipangohu_append(relays, INBOX, end, out, len));
    }
    end = value(cipangohu_append(relays, INBOX, end, (const uint8_t *)"no packet", 9));
    for (size_t i = 0; i < GOOD; i++) {
        uint32_t ended = value(cipangohu_take_relays(state[i], STATE, relays, end, out, OUTBOX));
        show("", i + 1, ended, cipangohu_result(state[i], STATE));
    }
    for (size_t i = 0; i < GOOD; i++) { /* the screen has no inbox, and needs none */
        uint32_t ended = value(cipangohu_take_relays(state[i], STATE, NULL, 0, out, OUTBOX));
        cipangohu_bytes message = {out, cipangohu_result_settled(ended) ? value(cipangohu_result_length(state[i], STATE)) : 0};
        show("screen: ", i + 1, ended, message);
    }
}
