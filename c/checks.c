/* Checks of what the header itself defines, of second readers, of rebuilding under a root, of session numbers, of openings by a named sender, and of parties seen to
 * cheat, for the tests: a failed one ends the program with its line. Prints the causes in words. */
#include <stdio.h>
#include <stdlib.h>
#include <string.h>
#include "cipangohu.h"
#define CHECK(what) ((what) ? (void)0 : (printf("line %d: %s\n", __LINE__, #what), exit(1)))

static uint8_t state[CIPANGOHU_STATE], root[CIPANGOHU_ROOT], out[CIPANGOHU_OUTBOX], long_entry[CIPANGOHU_ENTRY + 1];

/* Entries are found whole or not at all, whatever the bytes: here all strings of up to six bytes that are 0, 1 or 2. */
static void check_any_bytes(void) {
    uint8_t bytes[6];
    for (unsigned number = 0; number < 729; number++) {
        for (unsigned place = 0, rest = number; place < 6; place++, rest /= 3) bytes[place] = (uint8_t)(rest % 3);
        for (size_t len = 0; len <= 6; len++) {
            size_t at = 0, j = 1;
            cipangohu_bytes entry = cipangohu_entry(bytes, len, 1);
            for (; entry.at != NULL; entry = cipangohu_entry(bytes, len, ++j)) {
                CHECK(entry.at == bytes + at + 2 && entry.len == bytes[at] * 256u + bytes[at + 1]);
                at += 2 + entry.len;
                CHECK(at <= len);
            }
            CHECK(entry.len == 0 && (len - at < 2 || len - at - 2 < bytes[at] * 256u + bytes[at + 1]));
            CHECK(cipangohu_entry(bytes, len, 0).at == NULL && cipangohu_entry(bytes, len, SIZE_MAX).at == NULL);
        }
    }
    CHECK(cipangohu_entry(NULL, 0, 1).at == NULL);
}

/* What is appended is found again, and what does not fit changes nothing. */
static void check_append(void) {
    uint8_t entries[9];
    cipangohu_answer answer;
    memset(entries, 7, sizeof entries);
    answer = cipangohu_append(entries, 8, 0, NULL, 0);
    CHECK(answer.cause == CIPANGOHU_ACCEPTED && answer.value == 2);
    answer = cipangohu_append(entries, 8, 2, (const uint8_t *)"ABCD", 4);
    CHECK(answer.cause == CIPANGOHU_ACCEPTED && answer.value == 8);
    CHECK(memcmp(entries, "\0\0\0\4ABCD\7", 9) == 0);
    CHECK(cipangohu_entry(entries, 8, 1).len == 0 && cipangohu_entry(entries, 8, 2).at == entries + 4);
    for (size_t used = 0; used <= 9; used++) {
        answer = cipangohu_append(entries, 8, used, (const uint8_t *)"1234567", 7);
        CHECK(answer.cause == CIPANGOHU_CAUSE_ROOM && answer.value == used + 9);
    }
    answer = cipangohu_append(entries, SIZE_MAX, 0, long_entry, sizeof long_entry);
    CHECK(answer.cause == CIPANGOHU_CAUSE_LENGTH && answer.value == 0);
    answer = cipangohu_append(entries, SIZE_MAX, (size_t)CIPANGOHU_INBOX + 1, NULL, 0);
    CHECK(answer.cause == CIPANGOHU_CAUSE_LENGTH && answer.value == 0);
    CHECK(memcmp(entries, "\0\0\0\4ABCD\7", 9) == 0);
}

/* A packet of party 1 for party 2 is taken apart into what passes the check; silence into nothing. */
static void check_packet(uint32_t session, uint32_t outbox_len) {
    cipangohu_bytes packet = cipangohu_entry(out, outbox_len, 2), share, path;
    uint32_t value = cipangohu_read_packet(3, packet.at, packet.len).value;
    share = cipangohu_packet_share(packet.at, value);
    path = cipangohu_packet_path(packet.at, value);
    CHECK(cipangohu_packet_number(value) == 2 && cipangohu_packet_count(value) == 2);
    CHECK(share.at == packet.at + 4 && path.at == share.at + share.len && path.at + path.len == packet.at + packet.len);
    CHECK(cipangohu_check_path(session, 3, 2, share.at, share.len, path.at, path.len, root, sizeof root).value == 1);
    CHECK(cipangohu_check_path(session ^ 1, 3, 2, share.at, share.len, path.at, path.len, root, sizeof root).value == 0);
    CHECK(cipangohu_packet_number(0) == 0 && cipangohu_packet_count(0) == 0);
    CHECK(cipangohu_packet_share(packet.at, 0).at == NULL && cipangohu_packet_path(packet.at, 0).at == NULL);
}

/* A second reader gets the result with no inbox and with one that is none, where the buffer has room. */
static void check_second_reader(void) {
    const uint8_t junk[5] = {255, 255, 255, 255, 255};
    uint8_t ended[CIPANGOHU_STATE], screen[3] = {7, 7, 7};
    cipangohu_answer answer = cipangohu_take_relays(state, sizeof state, junk, sizeof junk, screen, 1);
    memcpy(ended, state, sizeof ended);
    CHECK(answer.cause == CIPANGOHU_CAUSE_ROOM && answer.value == 2 && memcmp(screen, "\7\7\7", 3) == 0);
    answer = cipangohu_take_relays(state, sizeof state, NULL, 0, screen, sizeof screen);
    CHECK(answer.cause == CIPANGOHU_ACCEPTED && answer.value == 1 && memcmp(screen, "AB\7", 3) == 0);
    answer = cipangohu_take_relays(state, sizeof state, junk, sizeof junk, screen, cipangohu_result_length(state, sizeof state).value);
    CHECK(answer.cause == CIPANGOHU_ACCEPTED && answer.value == 1 && memcmp(state, ended, sizeof ended) == 0);
    CHECK(cipangohu_take_shares(state, sizeof state, junk, sizeof junk, NULL, 0).cause == CIPANGOHU_CAUSE_STEP);
    CHECK(cipangohu_agree_bit(state, sizeof state, 2, NULL, 0).cause == CIPANGOHU_CAUSE_STEP);
    CHECK(cipangohu_agree_root(state, sizeof state, NULL, 0).cause == CIPANGOHU_CAUSE_STEP);
    CHECK(memcmp(state, ended, sizeof ended) == 0);
}

/* An ended state with stale bytes (a share's length, a root, a byte behind the result, a share) stays so where the buffer is short, and comes back
 * clean where the result is read again. */
static void check_stale_state(void) {
    uint8_t ended[CIPANGOHU_STATE], stale[CIPANGOHU_STATE];
    memcpy(ended, state, sizeof ended);
    state[8] = state[17] = state[17 + CIPANGOHU_ROOT + 2] = state[CIPANGOHU_STATE - 1] = 1;
    memcpy(stale, state, sizeof stale);
    CHECK(cipangohu_take_relays(state, sizeof state, NULL, 0, out, 1).cause == CIPANGOHU_CAUSE_ROOM && memcmp(state, stale, sizeof stale) == 0);
    CHECK(cipangohu_take_relays(state, sizeof state, NULL, 0, out, 2).value == 1 && memcmp(state, ended, sizeof ended) == 0);
    state[7] = 255;
    CHECK(cipangohu_take_relays(state, sizeof state, NULL, 0, NULL, 0).cause == CIPANGOHU_CAUSE_STATE && state[7] == 255);
    memcpy(state, ended, sizeof ended);
}

/* On bit 0 a party has ended with nothing, and gives that to any reader. */
static void check_nothing(void) {
    cipangohu_answer answer = cipangohu_open(0, 1, 0, 1, NULL, 0, state, sizeof state, root, sizeof root);
    CHECK(answer.cause == CIPANGOHU_ACCEPTED && cipangohu_agree_root(state, sizeof state, root, sizeof root).value == 1);
    CHECK(cipangohu_agree_bit(state, sizeof state, 0, out, sizeof out).value == 2);
    answer = cipangohu_take_relays(state, sizeof state, NULL, 0, NULL, 0);
    CHECK(answer.cause == CIPANGOHU_ACCEPTED && answer.value == 0);
    CHECK(cipangohu_stage(state, sizeof state).value == CIPANGOHU_ENDED_WITH_NOTHING && cipangohu_result(state, sizeof state).at == NULL);
}

/* Whether the state is that of party 1 in this session, at this stage. */
static int is_at(uint32_t session, uint32_t stage) {
    return cipangohu_stage(state, sizeof state).value == stage && cipangohu_own(state, sizeof state).value == 1
        && cipangohu_session(state, sizeof state).value == session;
}

/* What the state of party 1 tells along its steps, of which it hears nothing but its own. */
static void check_party(uint32_t session) {
    const uint8_t silence[6] = {0};
    cipangohu_answer answer = cipangohu_open(session, 3, 1, 1, (const uint8_t *)"AB", 2, state, sizeof state, root, sizeof root);
    CHECK(answer.cause == CIPANGOHU_ACCEPTED && answer.value == CIPANGOHU_ROOT && state[0] == CIPANGOHU_LAYOUT);
    CHECK(is_at(session, CIPANGOHU_AWAITS_ROOT));
    CHECK(cipangohu_agree_root(state, sizeof state, root, sizeof root).value == 1);
    CHECK(is_at(session, CIPANGOHU_AWAITS_BIT));
    CHECK(cipangohu_agree_bit(state, sizeof state, 256, out, sizeof out).cause == CIPANGOHU_CAUSE_ROOT_OR_BIT);
    answer = cipangohu_agree_bit(state, sizeof state, 1, out, sizeof out);
    CHECK(answer.cause == CIPANGOHU_ACCEPTED && is_at(session, CIPANGOHU_AWAITS_SHARES));
    check_packet(session, answer.value);
    CHECK(cipangohu_take_shares(state, sizeof state, silence, sizeof silence, out, sizeof out).cause == CIPANGOHU_ACCEPTED);
    CHECK(is_at(session, CIPANGOHU_AWAITS_RELAYS));
    CHECK(cipangohu_result_length(state, sizeof state).cause == CIPANGOHU_CAUSE_STEP);
    CHECK(cipangohu_result(state, sizeof state).at == NULL);
    CHECK(cipangohu_take_relays(state, sizeof state, silence, sizeof silence, out, sizeof out).value == 1);
    CHECK(is_at(session, CIPANGOHU_ENDED_WITH_MESSAGE));
    CHECK(cipangohu_result(state, sizeof state).len == 2 && memcmp(cipangohu_result(state, sizeof state).at, "AB", 2) == 0);
    check_second_reader();
    check_stale_state();
    CHECK(is_at(session, CIPANGOHU_ENDED_WITH_MESSAGE));
    for (unsigned version = 0; version < 256; version++) {
        state[0] = (uint8_t)version;
        CHECK((cipangohu_result(state, sizeof state).at != NULL) == (version == CIPANGOHU_LAYOUT));
        CHECK(cipangohu_own(state, sizeof state).cause == (version == CIPANGOHU_LAYOUT ? CIPANGOHU_ACCEPTED : CIPANGOHU_CAUSE_STATE));
        CHECK(cipangohu_session(state, sizeof state).cause == cipangohu_own(state, sizeof state).cause);
        CHECK(cipangohu_faulty(state, sizeof state).cause == cipangohu_own(state, sizeof state).cause);
    }
}

/* A message is rebuilt, with its first share missing, under its own root in this session and no other. Another root comes before a short buffer, and with it no
 * byte is written. */
static void check_rebuild(uint32_t session) {
    uint8_t entries[10], found[3] = {7, 7, 7};
    size_t used = 0;
    cipangohu_answer answer = cipangohu_open(session, 3, 1, 1, (const uint8_t *)"AB", 2, state, sizeof state, root, sizeof root);
    CHECK(answer.cause == CIPANGOHU_ACCEPTED && cipangohu_shares(3, 1, (const uint8_t *)"AB", 2, out, sizeof out).value == 6);
    for (size_t j = 0; j < 3; j++) used = cipangohu_append(entries, sizeof entries, used, out + 2 * j, j == 0 ? 0 : 2).value;
    root[31] ^= 1;
    answer = cipangohu_rebuild_with_root(session, 3, 1, root, sizeof root, entries, used, found, sizeof found);
    CHECK(answer.cause == CIPANGOHU_CAUSE_OTHER_ROOT && answer.value == 0 && memcmp(found, "\7\7\7", 3) == 0);
    CHECK(cipangohu_rebuild_with_root(session, 3, 1, root, sizeof root, entries, used, NULL, 0).cause == CIPANGOHU_CAUSE_OTHER_ROOT);
    CHECK(cipangohu_rebuild_with_root(session, 3, 1, root, 31, NULL, 0, NULL, 0).cause == CIPANGOHU_CAUSE_ROOT_OR_BIT);
    root[31] ^= 1;
    answer = cipangohu_rebuild_with_root(session, 3, 1, root, sizeof root, entries, used, found, 1);
    CHECK(answer.cause == CIPANGOHU_CAUSE_ROOM && answer.value == 2 && memcmp(found, "\7\7\7", 3) == 0);
    answer = cipangohu_rebuild_with_root(session, 3, 1, root, sizeof root, entries, used, found, 2);
    CHECK(answer.cause == CIPANGOHU_ACCEPTED && answer.value == 2 && memcmp(found, "AB\7", 3) == 0);
    CHECK(cipangohu_rebuild_with_root(session ^ 1, 3, 1, root, sizeof root, entries, used, found, 2).cause == CIPANGOHU_CAUSE_OTHER_ROOT);
}

/* The hashes of three leaf strings of this length, and the root over them. */
static void hash_tree(const uint8_t *leaves, size_t len, uint8_t hashes[3][CIPANGOHU_ROOT]) {
    uint8_t node[1 + 2 * CIPANGOHU_ROOT] = {1};
    for (size_t j = 0; j < 3; j++) CHECK(cipangohu_hash(leaves + j * len, len, hashes[j], CIPANGOHU_ROOT).cause == CIPANGOHU_ACCEPTED);
    memcpy(node + 1, hashes, 2 * CIPANGOHU_ROOT);
    CHECK(cipangohu_hash(node, sizeof node, root, sizeof root).cause == CIPANGOHU_ACCEPTED);
    memcpy(node + 1, root, CIPANGOHU_ROOT);
    memcpy(node + 1 + CIPANGOHU_ROOT, hashes[2], CIPANGOHU_ROOT);
    CHECK(cipangohu_hash(node, sizeof node, root, sizeof root).cause == CIPANGOHU_ACCEPTED);
}

/* The session number stands in the state, and in every leaf string before the share's number; number 0 stands in none. */
static void check_leaves(void) {
    const uint8_t with[3][8] = {{0, 1, 2, 3, 4, 1, 0x41, 0x40}, {0, 1, 2, 3, 4, 2, 0x82, 0x86}, {0, 1, 2, 3, 4, 3, 0xC3, 0xC4}};
    const uint8_t without[3][4] = {{0, 1, 0x41, 0x40}, {0, 2, 0x82, 0x86}, {0, 3, 0xC3, 0xC4}};
    uint8_t hashes[3][CIPANGOHU_ROOT];
    hash_tree(with[0], 8, hashes);
    CHECK(cipangohu_open(0x01020304, 3, 1, 1, (const uint8_t *)"AB", 2, state, sizeof state, out, sizeof out).cause == CIPANGOHU_ACCEPTED);
    CHECK(memcmp(out, root, sizeof root) == 0 && memcmp(state + 9, "\1\2\3\4", 4) == 0);
    hash_tree(without[0], 4, hashes);
    CHECK(cipangohu_open(0, 3, 1, 1, (const uint8_t *)"AB", 2, state, sizeof state, out, sizeof out).cause == CIPANGOHU_ACCEPTED);
    CHECK(memcmp(out, root, sizeof root) == 0 && memcmp(state + 9, "\0\0\0\0", 4) == 0);
}

/* The longest share that a path check takes, and a byte more, under number 0 and under others. */
static void check_longest_share(void) {
    const uint32_t sessions[] = {0, 1, 0xFF, 0x01000000, 0xFFFFFFFF};
    for (size_t k = 0; k < sizeof sessions / sizeof sessions[0]; k++) {
        size_t longest = CIPANGOHU_HASHED - (sessions[k] == 0 ? 2 : 6);
        cipangohu_answer answer = cipangohu_check_path(sessions[k], 1, 1, long_entry, longest, NULL, 0, root, sizeof root);
        CHECK(answer.cause == CIPANGOHU_ACCEPTED && answer.value == 0);
        answer = cipangohu_check_path(sessions[k], 1, 1, long_entry, longest + 1, NULL, 0, root, sizeof root);
        CHECK(answer.cause == CIPANGOHU_CAUSE_LENGTH && answer.value == 0);
    }
}

/* The agreed root is that of three shares which no message has together. Party 3 gets the first two, which are those of "AB", with paths that pass; but
 * "AB" has another root, so it ends with nothing, which needs no room. */
static void check_no_other_root(void) {
    const uint8_t leaves[3][4] = {{0, 1, 0x41, 0x40}, {0, 2, 0x82, 0x86}, {0, 3, 0xFF, 0xFF}}, silence[6] = {0};
    uint8_t hashes[3][CIPANGOHU_ROOT], packet[6 + 2 * CIPANGOHU_ROOT] = {7, 0, 0, 2}, inbox[200];
    size_t used = 0;
    cipangohu_answer answer = cipangohu_open(0, 3, 1, 3, (const uint8_t *)"C", 1, state, sizeof state, out, sizeof out);
    CHECK(answer.cause == CIPANGOHU_ACCEPTED);
    hash_tree(leaves[0], 4, hashes);
    CHECK(cipangohu_agree_root(state, sizeof state, root, sizeof root).cause == CIPANGOHU_ACCEPTED);
    CHECK(cipangohu_agree_bit(state, sizeof state, 1, out, sizeof out).value == 6);
    CHECK(cipangohu_take_shares(state, sizeof state, silence, sizeof silence, out, sizeof out).cause == CIPANGOHU_ACCEPTED);
    for (size_t j = 0; j < 2; j++) {
        packet[1] = (uint8_t)(j + 1);
        memcpy(packet + 4, leaves[j] + 2, 2);
        memcpy(packet + 6, hashes[1 - j], CIPANGOHU_ROOT);
        memcpy(packet + 6 + CIPANGOHU_ROOT, hashes[2], CIPANGOHU_ROOT);
        CHECK(cipangohu_check_path(0, 3, j + 1, packet + 4, 2, packet + 6, 2 * CIPANGOHU_ROOT, root, sizeof root).value == 1);
        used = cipangohu_append(inbox, sizeof inbox, used, packet, sizeof packet).value;
    }
    used = cipangohu_append(inbox, sizeof inbox, used, NULL, 0).value;
    answer = cipangohu_take_relays(state, sizeof state, inbox, used, NULL, 0);
    CHECK(answer.cause == CIPANGOHU_ACCEPTED && answer.value == 0);
    CHECK(cipangohu_stage(state, sizeof state).value == CIPANGOHU_ENDED_WITH_NOTHING);
}

/* What an opening by a sender is lent, with bytes that nobody would write. */
static struct { uint8_t state[CIPANGOHU_STATE + 1], root[CIPANGOHU_ROOT + 1], out[CIPANGOHU_MESSAGE_PACKET + 1]; } lent, before;

/* Party own of 3 opens in session 7 by party 2, with these rooms for state, root and packet; refused, it leaves every byte. */
static cipangohu_answer by_sender(size_t own, const char *bytes, size_t len, size_t state_room, size_t root_room, size_t out_room) {
    cipangohu_answer answer;
    memset(&lent, 0x55, sizeof lent);
    memcpy(&before, &lent, sizeof lent);
    answer = cipangohu_open_by_sender(7, 3, 1, own, 2, (const uint8_t *)bytes, len, lent.state, state_room, lent.root, root_room, lent.out, out_room);
    CHECK(answer.cause == CIPANGOHU_ACCEPTED || memcmp(&lent, &before, sizeof lent) == 0);
    return answer;
}

/* The opening wrote what cipangohu_open does with this message, and no byte past it. */
static void check_opened(size_t own, const char *message, size_t len) {
    cipangohu_answer answer = cipangohu_open(7, 3, 1, own, (const uint8_t *)message, len, state, sizeof state, root, sizeof root);
    CHECK(answer.cause == CIPANGOHU_ACCEPTED);
    CHECK(memcmp(lent.state, state, sizeof state) == 0 && lent.state[CIPANGOHU_STATE] == 0x55);
    CHECK(memcmp(lent.root, root, sizeof root) == 0 && lent.root[CIPANGOHU_ROOT] == 0x55);
}

/* The sender opens with its message and writes it as a packet, with which another opens; what cannot be read, or is silence, is the empty message. */
static void check_sender(void) {
    const struct { const char *bytes; size_t len; } unread[] = {{NULL, 0}, {"\0", 1}, {"\0\0", 2}, {"\10\0\2A", 4}, {"\10\0\2ABC", 6}, {"\10\14\1", 3},
                                                                {"\7\1\0\2AB", 6}, {"\30\0\2AB", 5}, {"\10\0\0", 3}};
    cipangohu_answer answer = by_sender(2, "AB", 2, CIPANGOHU_STATE, CIPANGOHU_ROOT, 5);
    CHECK(answer.cause == CIPANGOHU_ACCEPTED && answer.value == 5 && memcmp(lent.out, "\10\0\2AB\125", 6) == 0);
    check_opened(2, "AB", 2);
    answer = by_sender(1, "\10\0\2AB", 5, CIPANGOHU_STATE, CIPANGOHU_ROOT, 0);
    CHECK(answer.cause == CIPANGOHU_ACCEPTED && answer.value == 0 && memcmp(lent.out, before.out, sizeof lent.out) == 0);
    check_opened(1, "AB", 2);
    for (size_t k = 0; k < sizeof unread / sizeof unread[0]; k++) {
        answer = by_sender(3, unread[k].bytes, unread[k].len, CIPANGOHU_STATE, CIPANGOHU_ROOT, 0);
        CHECK(answer.cause == CIPANGOHU_ACCEPTED && answer.value == 0);
        check_opened(3, NULL, 0);
    }
    answer = cipangohu_open_by_sender(7, 1, 0, 1, 1, (const uint8_t *)"AB", 2, state, sizeof state, root, sizeof root, NULL, 0);
    CHECK(answer.cause == CIPANGOHU_ACCEPTED && answer.value == 0 && cipangohu_own(state, sizeof state).value == 1);
}

/* The causes of such an opening, in their order; a packet that is too long has none, a message of the sender's has. */
static void check_sender_causes(void) {
    const char *longest = (const char *)long_entry;
    cipangohu_answer answer = by_sender(2, longest, CIPANGOHU_MESSAGE, CIPANGOHU_STATE - 1, 0, 0);
    CHECK(answer.cause == CIPANGOHU_CAUSE_ROOM && answer.value == CIPANGOHU_STATE);
    answer = by_sender(2, longest, CIPANGOHU_MESSAGE, CIPANGOHU_STATE, CIPANGOHU_ROOT - 1, 0);
    CHECK(answer.cause == CIPANGOHU_CAUSE_ROOM && answer.value == CIPANGOHU_ROOT);
    answer = by_sender(2, longest, CIPANGOHU_MESSAGE, CIPANGOHU_STATE, CIPANGOHU_ROOT, CIPANGOHU_MESSAGE_PACKET - 1);
    CHECK(answer.cause == CIPANGOHU_CAUSE_ROOM && answer.value == CIPANGOHU_MESSAGE_PACKET);
    answer = by_sender(2, longest, CIPANGOHU_MESSAGE, CIPANGOHU_STATE, CIPANGOHU_ROOT, CIPANGOHU_MESSAGE_PACKET);
    CHECK(answer.cause == CIPANGOHU_ACCEPTED && answer.value == CIPANGOHU_MESSAGE_PACKET && lent.out[CIPANGOHU_MESSAGE_PACKET] == 0x55);
    answer = by_sender(2, longest, CIPANGOHU_MESSAGE + 1, 0, 0, 0);
    CHECK(answer.cause == CIPANGOHU_CAUSE_LENGTH && answer.value == 0);
    CHECK(by_sender(1, longest, sizeof long_entry, CIPANGOHU_STATE, CIPANGOHU_ROOT, 0).cause == CIPANGOHU_ACCEPTED);
    CHECK(by_sender(0, longest, CIPANGOHU_MESSAGE + 1, 0, 0, 0).cause == CIPANGOHU_CAUSE_NUMBER);
    CHECK(cipangohu_open_by_sender(7, 3, 1, 1, 4, NULL, 0, NULL, 0, NULL, 0, NULL, 0).cause == CIPANGOHU_CAUSE_NUMBER);
    CHECK(cipangohu_open_by_sender(7, 4, 2, 5, 5, NULL, 0, NULL, 0, NULL, 0, NULL, 0).cause == CIPANGOHU_CAUSE_FAULTS);
    CHECK(cipangohu_open_by_sender(7, 0, 0, 0, 0, NULL, 0, NULL, 0, NULL, 0, NULL, 0).cause == CIPANGOHU_CAUSE_PARTIES);
}

/* A sender's packet is read where it is whole; its message is found, also an empty one, and none in silence. */
static void check_message(void) {
    const uint8_t packet[] = {8, 0, 2, 'A', 'B'}, empty[] = {8, 0, 0}, share[] = {7, 1, 0, 2, 9, 8};
    uint32_t value = cipangohu_read_message(packet, sizeof packet).value;
    CHECK(value == 65536 + 2 && cipangohu_packet_message(packet, value).at == packet + 3 && cipangohu_packet_message(packet, value).len == 2);
    value = cipangohu_read_message(empty, sizeof empty).value;
    CHECK(value == 65536 && cipangohu_packet_message(empty, value).at == empty + 3 && cipangohu_packet_message(empty, value).len == 0);
    CHECK(cipangohu_read_message(NULL, 0).cause == CIPANGOHU_ACCEPTED && cipangohu_read_message(NULL, 0).value == 0);
    CHECK(cipangohu_packet_message(packet, 0).at == NULL);
    for (size_t len = 1; len < sizeof packet; len++) CHECK(cipangohu_read_message(packet, len).cause == CIPANGOHU_CAUSE_PACKET);
    CHECK(cipangohu_read_message(share, sizeof share).cause == CIPANGOHU_CAUSE_PACKET);
    CHECK(cipangohu_read_packet(1, share, sizeof share).cause == CIPANGOHU_ACCEPTED);
    CHECK(cipangohu_read_packet(3, packet, sizeof packet).cause == CIPANGOHU_CAUSE_PACKET);
}

/* The packets with the shares of "AB" for three parties. */
static struct { uint8_t bytes[80]; size_t len; } packets[3];

static void write_packets(uint32_t session) {
    for (size_t own = 1; own <= 2; own++) {
        cipangohu_answer answer = cipangohu_open(session, 3, 1, own, (const uint8_t *)"AB", 2, state, sizeof state, root, sizeof root);
        CHECK(answer.cause == CIPANGOHU_ACCEPTED && cipangohu_agree_root(state, sizeof state, root, sizeof root).value == 1);
        answer = cipangohu_agree_bit(state, sizeof state, 1, out, sizeof out);
        for (size_t j = 1; j <= 3; j++) {
            cipangohu_bytes packet = cipangohu_entry(out, answer.value, j);
            CHECK(packet.at != NULL && packet.len <= sizeof packets[0].bytes);
            if (j == own) continue;
            memcpy(packets[j - 1].bytes, packet.at, packet.len);
            packets[j - 1].len = packet.len;
        }
    }
}

/* Party 2 of 3 with this message, which waits for its first inbox under the root of "AB". */
static void await_shares(uint32_t session, const char *message) {
    uint8_t own_root[CIPANGOHU_ROOT];
    cipangohu_answer answer = cipangohu_open(session, 3, 1, 2, (const uint8_t *)message, strlen(message), state, sizeof state, own_root, sizeof own_root);
    CHECK(answer.cause == CIPANGOHU_ACCEPTED && cipangohu_agree_root(state, sizeof state, root, sizeof root).cause == CIPANGOHU_ACCEPTED);
    CHECK(cipangohu_agree_bit(state, sizeof state, 1, out, sizeof out).cause == CIPANGOHU_ACCEPTED);
    CHECK(cipangohu_faulty(state, sizeof state).cause == CIPANGOHU_ACCEPTED && cipangohu_faulty(state, sizeof state).value == 0);
}

/* Three entries in a buffer for an inbox, of which one sender's has these bytes. Gives their length. */
static size_t sent(uint8_t *inbox, size_t room, size_t sender, const void *bytes, size_t len) {
    size_t used = 0;
    for (size_t j = 1; j <= 3; j++) used = cipangohu_append(inbox, room, used, (const uint8_t *)bytes, j == sender ? len : 0).value;
    return used;
}

/* The map of party 2 after both inboxes, in which these senders have these bytes; the value of step 5 tells it, the state does, and both do so again. */
static uint32_t seen(uint32_t session, const char *message, size_t first, size_t second, const void *bytes, size_t len) {
    uint8_t inbox[100];
    size_t used = sent(inbox, sizeof inbox, first, bytes, len);
    uint32_t after_first;
    cipangohu_answer answer, again;
    await_shares(session, message);
    CHECK(cipangohu_take_shares(state, sizeof state, inbox, used, out, sizeof out).cause == CIPANGOHU_ACCEPTED);
    after_first = cipangohu_faulty(state, sizeof state).value;
    used = sent(inbox, sizeof inbox, second, bytes, len);
    answer = cipangohu_take_relays(state, sizeof state, inbox, used, out, sizeof out);
    again = cipangohu_take_relays(state, sizeof state, NULL, 0, out, sizeof out);
    CHECK(answer.cause == CIPANGOHU_ACCEPTED && again.cause == CIPANGOHU_ACCEPTED && answer.value == again.value);
    CHECK(cipangohu_result_settled(answer.value) == (cipangohu_result(state, sizeof state).at != NULL));
    CHECK(cipangohu_result_faulty(answer.value) == cipangohu_faulty(state, sizeof state).value);
    CHECK(after_first == (first == 0 ? 0 : cipangohu_result_faulty(answer.value) & (uint32_t)1 << (first - 1)));
    return cipangohu_result_faulty(answer.value);
}

/* What a liar may send is seen in either inbox by a happy party and by another; silence and what is due are not, and the own entry is not looked at. */
static void check_seen(uint32_t session, const char *message) {
    const struct { const char *bytes; size_t len; } faults[] = {{"\7", 1}, {"\0\0", 2}, {"\10\0\2AB", 5}, {"no packet", 9}};
    uint8_t turned[80];
    write_packets(session);
    for (size_t k = 0; k < sizeof faults / sizeof faults[0]; k++) {
        CHECK(seen(session, message, 1, 0, faults[k].bytes, faults[k].len) == 1 && seen(session, message, 0, 3, faults[k].bytes, faults[k].len) == 4);
        CHECK(seen(session, message, 1, 3, faults[k].bytes, faults[k].len) == 5 && seen(session, message, 3, 3, faults[k].bytes, faults[k].len) == 4);
        CHECK(seen(session, message, 2, 2, faults[k].bytes, faults[k].len) == 0);
    }
    CHECK(seen(session, message, 1, 3, NULL, 0) == 0 && seen(session, message, 1, 3, "\0", 1) == 0);
    /* The number of the receiver is due first, and then that of the sender. */
    CHECK(seen(session, message, 1, 0, packets[1].bytes, packets[1].len) == 0 && seen(session, message, 0, 1, packets[1].bytes, packets[1].len) == 1);
    CHECK(seen(session, message, 3, 0, packets[2].bytes, packets[2].len) == 4 && seen(session, message, 0, 3, packets[2].bytes, packets[2].len) == 0);
    memcpy(turned, packets[1].bytes, sizeof turned);
    turned[4] ^= 1;
    CHECK(seen(session, message, 1, 0, turned, packets[1].len) == 1 && seen(session ^ 1, message, 1, 0, packets[1].bytes, packets[1].len) == 1);
}

/* Where the buffer is too short, the map stays as it was. */
static void check_map_kept(void) {
    uint8_t inbox[20];
    size_t used = sent(inbox, sizeof inbox, 1, "\7", 1);
    cipangohu_answer answer;
    write_packets(0);
    await_shares(0, "AB");
    state[16] = 4;
    CHECK(cipangohu_take_shares(state, sizeof state, inbox, used, out, 1).cause == CIPANGOHU_CAUSE_ROOM && cipangohu_faulty(state, sizeof state).value == 4);
    /* Step 4 begins anew, whatever the state says. */
    CHECK(cipangohu_take_shares(state, sizeof state, inbox, used, out, sizeof out).cause == CIPANGOHU_ACCEPTED);
    CHECK(cipangohu_faulty(state, sizeof state).value == 1);
    used = sent(inbox, sizeof inbox, 3, "\7", 1);
    answer = cipangohu_take_relays(state, sizeof state, inbox, used, out, 1);
    CHECK(answer.cause == CIPANGOHU_CAUSE_ROOM && answer.value == 2 && cipangohu_faulty(state, sizeof state).value == 1);
    answer = cipangohu_take_relays(state, sizeof state, inbox, used, out, 2);
    CHECK(answer.cause == CIPANGOHU_ACCEPTED && answer.value == 2 * 5 + 1);
    state[0] = 3;
    CHECK(cipangohu_take_relays(state, sizeof state, NULL, 0, out, 2).cause == CIPANGOHU_CAUSE_STATE);
}

/* A map is none at any stage if it has the own number in it, or one above n. */
static void check_map_bits(void) {
    await_shares(0, "AB");
    for (unsigned stage = 0; stage <= CIPANGOHU_ENDED_WITH_MESSAGE; stage++) {
        for (unsigned bit = 0; bit < 32; bit++) {
            uint32_t map = (uint32_t)1 << bit;
            cipangohu_answer answer;
            state[4] = (uint8_t)stage;
            for (unsigned k = 0; k < 4; k++) state[13 + k] = (uint8_t)(map >> (24 - 8 * k));
            answer = cipangohu_faulty(state, sizeof state);
            CHECK(answer.cause == (map == 1 || map == 4 ? CIPANGOHU_ACCEPTED : CIPANGOHU_CAUSE_STATE));
            CHECK(answer.value == (answer.cause == CIPANGOHU_ACCEPTED ? map : 0) && cipangohu_own(state, sizeof state).cause == answer.cause);
        }
    }
}

/* The value of step 5 and the map in it are taken apart. */
static void check_map(void) {
    CHECK(cipangohu_result_settled(0) == 0 && cipangohu_result_settled(1) == 1 && cipangohu_result_settled(10) == 0 && cipangohu_result_settled(11) == 1);
    CHECK(cipangohu_result_faulty(0) == 0 && cipangohu_result_faulty(1) == 0 && cipangohu_result_faulty(10) == 5 && cipangohu_result_faulty(11) == 5);
    for (size_t party = 0; party <= 40; party++) {
        CHECK(cipangohu_map_has(0xFFFFFFFF, party) == (party >= 1 && party <= CIPANGOHU_PARTIES) && cipangohu_map_has(0, party) == 0);
        CHECK(cipangohu_map_has(5, party) == (party == 1 || party == 3));
    }
    CHECK(cipangohu_map_has(0xFFFFFFFF, SIZE_MAX) == 0);
}

int main(void) {
    CHECK(cipangohu_version() == CIPANGOHU_VERSION && cipangohu_state_size() == CIPANGOHU_STATE);
    check_any_bytes();
    check_append();
    check_party(0);
    check_party(0xFFFFFFFF);
    check_nothing();
    check_rebuild(0);
    check_rebuild(0x01000000);
    check_leaves();
    check_longest_share();
    check_no_other_root();
    check_sender();
    check_sender_causes();
    check_message();
    check_seen(0, "AB");
    check_seen(7, "C");
    check_map_kept();
    check_map_bits();
    check_map();
    for (uint32_t cause = 0; cause <= CIPANGOHU_CAUSE_OTHER_ROOT + 1; cause++) printf("%u %s\n", (unsigned)cause, cipangohu_cause_text(cause));
    return 0;
}
