/* A party alone, as the first paragraph of cipangohu.h tells it. Nobody sends it anything, and what it puts into an agreement comes back.
 *     gcc c/first.c $(pkg-config --cflags --libs cipangohu) -o first && ./first */
#include <stdio.h>
#include <stdlib.h>
#include "cipangohu.h"

static uint8_t state[CIPANGOHU_STATE], root[CIPANGOHU_ROOT], outbox[CIPANGOHU_OUTBOX], inbox[CIPANGOHU_INBOX], relay[CIPANGOHU_PACKET];

/* The value of an accepted call; a refused one ends the program. */
static uint32_t value(cipangohu_answer answer) {
    if (answer.cause == CIPANGOHU_ACCEPTED) return answer.value;
    fprintf(stderr, "%s\n", cipangohu_cause_text(answer.cause));
    exit(1);
}

int main(void) {
    const uint8_t message[] = {'A', 'B'};
    uint8_t out[CIPANGOHU_MESSAGE];
    uint32_t bit, len, result;

    /* It opens in session 7 with a message; the root goes into the short agreement. */
    value(cipangohu_open(7, 1, 0, 1, message, sizeof message, state, sizeof state, root, sizeof root));
    /* The agreed root is handed in; the bit goes into the second one. */
    bit = value(cipangohu_agree_root(state, sizeof state, root, sizeof root));
    /* The agreed bit is handed in; entry j of the outbox goes to party j, and here there is but the own one. */
    len = value(cipangohu_agree_bit(state, sizeof state, bit, outbox, sizeof outbox));
    printf("for party 1: %zu bytes\n", cipangohu_entry(outbox, len, 1).len);
    /* What the others sent is handed in, one entry a party; the relay goes to all others. */
    len = value(cipangohu_append(inbox, sizeof inbox, 0, NULL, 0));
    printf("to relay: %u bytes\n", (unsigned)value(cipangohu_take_shares(state, sizeof state, inbox, len, relay, sizeof relay)));
    /* What they relayed is handed in, and there is the result: a message, or nothing. */
    result = value(cipangohu_take_relays(state, sizeof state, inbox, len, out, sizeof out));
    if (cipangohu_result_settled(result))
        printf("settled on %.*s\n", (int)value(cipangohu_result_length(state, sizeof state)), (const char *)out);
    else
        puts("nothing");
    return 0;
}
