/* Three parties of which party 2 alone has the message: it opens and gives out its packet, and the others open with what came. To party 3 a byte less comes, so
 * that it cannot be read. The steps that follow are those of example.c, and party 3 then rebuilds the message.
 *     gcc c/sender.c $(pkg-config --cflags --libs cipangohu) -o sender && ./sender */
#include <stdio.h>
#include <stdlib.h>
#include "cipangohu.h"
enum { SESSION = 7, N = 3, T = 1, SENDER = 2 };
static uint8_t state[N][CIPANGOHU_STATE], root[N][CIPANGOHU_ROOT], packet[CIPANGOHU_MESSAGE_PACKET];
/* The value of an accepted call; a refused one ends the program. */
static uint32_t value(cipangohu_answer answer) {
    if (answer.cause == CIPANGOHU_ACCEPTED) return answer.value;
    fprintf(stderr, "%s\n", cipangohu_cause_text(answer.cause));
    exit(1);
}
/* Another party opens with what came; its person is told where that cannot be read. */
static void receive(size_t own, const uint8_t *came, size_t len) {
    cipangohu_answer read = cipangohu_read_message(came, len);
    value(cipangohu_open_by_sender(SESSION, N, T, own, SENDER, came, len, state[own - 1], CIPANGOHU_STATE, root[own - 1], CIPANGOHU_ROOT, NULL, 0));
    if (read.cause != CIPANGOHU_ACCEPTED)
        printf("%zu cannot read what party %d sent, and has the empty message\n", own, SENDER);
    else
        printf("%zu has %.*s\n", own, (int)cipangohu_packet_message(came, read.value).len, (const char *)cipangohu_packet_message(came, read.value).at);
}
int main(void) {
    const uint8_t message[] = {'A', 'B'};
    uint32_t len = value(cipangohu_open_by_sender(SESSION, N, T, SENDER, SENDER, message, sizeof message, state[SENDER - 1], CIPANGOHU_STATE,
                                                  root[SENDER - 1], CIPANGOHU_ROOT, packet, sizeof packet));
    printf("%d sends %u bytes to each other party\n", SENDER, (unsigned)len);
    receive(1, packet, len);
    receive(3, packet, len - 1);
    printf("1 %s 2, 3 %s 2\n", memcmp(root[0], root[1], CIPANGOHU_ROOT) ? "differs from" : "agrees with",
           memcmp(root[2], root[1], CIPANGOHU_ROOT) ? "differs from" : "agrees with");
    return 0;
}
