/* Cipangohu: one party of a session, step by step, and the tools beside it. C99 and C++, for x86-64 Linux.
 *
 * A host opens its party with a message and puts the root that comes of it into a short agreement. It hands in the agreed root, and puts the bit
 * that comes of it into a second short agreement. It hands in the agreed bit, and sends each entry of the outbox that comes of it to the party of
 * that number. It hands in what the others sent, and sends the relay that comes of it to all others. It hands in what they relayed, and has the
 * result, a message or nothing, and the parties that were seen to cheat. Whoever does that last step again gets the same. (A party is one box of a sitting, and a
 * message is a test book; documents for people say box and book.)
 *
 * Where one party alone has the message, all parties open by it, their named sender. Its opening writes a packet with the whole message, which its host sends to
 * all others. Each of these is handed the packet that came, and opens with the message in it, or with the empty one if it cannot read any. All that follows is
 * the same, and a good sender's message is every good party's result.
 *
 * A session has a number, and all good parties open with the same one. Two sessions with two numbers may settle the same message: it has another root in
 * each, and packets of the one fail the check in the other. Any number of 32 bits will do, 0 as well, under which roots and packets are those of versions before 3.
 * (Documents for people call it the sitting number.)
 *
 * A party keeps a map of the parties that it saw cheat, a number in which party p counts 2^(p-1): those others from whom the first or the second inbox brought a
 * packet that is not silence and cannot be read, bears a number that it should not, or fails the check. A happy party keeps it like any other. Where all good
 * parties have one n, one agreed root and one session number, and what they send one another arrives as it was sent, no good party is ever in a good party's map,
 * however many are bad. Who is not in it may be bad all the same: silence is no cheating, and a bad party may lie to one and not to another.
 *
 * The host keeps the party's state, CIPANGOHU_STATE bytes, and hands it to every step. Its layout, with numbers big-endian here and in all entries:
 * byte 0 the version of the layout, CIPANGOHU_LAYOUT, byte 1 n, byte 2 t, byte 3 own number, byte 4 stage, bytes 5-6 the length of the message (of
 * a party that ended with one, of the result), bytes 7-8 the length of the share that an unhappy party relayed (a party is happy if the agreed root is
 * that of its own message; it then holds no share), bytes 9-12 the session number, at every stage, bytes 13-16 the map of parties seen to cheat, from the first inbox
 * on, bytes 17-48 the agreed root, then CIPANGOHU_MESSAGE bytes for the message, then CIPANGOHU_SHARE bytes for that share. An accepted step writes all of it anew,
 * with zeros for what the stage does not have.
 *
 * Any bytes may stand in a state. Cause 5 is: fewer than CIPANGOHU_STATE bytes, another version, no stage, n, t or own number out of range, or at any
 * stage a length over its limit, or a map with the party itself or a number above n in it. All else is taken for the state that it says; this is no seal against
 * forgers. Bytes past a length are ignored. Of a longer buffer the first CIPANGOHU_STATE bytes are the state.
 *
 * An answer has a cause, 0 if the call was accepted, and a value, which says nothing without the cause: with cause 9 it is the length that the buffer
 * needs, of all other refusals it is 0. A refused call leaves every lent byte as it was, and bytes of a buffer past what is written keep their values. Where several
 * causes apply, the one that stands first behind "Causes" is given.
 *
 * An entry is a two-byte length and as many bytes, up to CIPANGOHU_ENTRY; n of them, in number order, make an inbox, an outbox, or what is rebuilt
 * from. In an inbox entry k is what party k sent, length 0 if it sent nothing. A packet in it that cannot be read, bears a number that it should not
 * (in the first inbox any but the own, in the second any but the sender's) or fails the check gives no share, and tells that its sender cheats. The own entry is
 * passed over.
 *
 * A packet is silence, which is no bytes or one zero byte; or byte 0 is 7, byte 1 the number of a share, bytes 2-3 the share's length, and behind them stand
 * the share and its path, hash by hash from the leaf upward. None that can be read is longer than CIPANGOHU_PACKET.
 *
 * The packet of a named sender is silence, as above; or byte 0 is 8, bytes 1-2 the length of the message, up to CIPANGOHU_MESSAGE, and behind them stands the
 * message and nothing else. In an inbox it cannot be read, and where it is due a packet with a share cannot.
 *
 * A buffer that a call writes overlaps no other buffer of that call. Through a pointer with length 0 nothing is read or written. Nothing is
 * global: calls on different buffers may run at once, and so may calls that only read one state. In trials every call fits a stack of 96 KiB, the host's own buffers not counted;
 * CIPANGOHU_INBOX bytes are better kept elsewhere. */
#ifndef CIPANGOHU_H
#define CIPANGOHU_H

#include <stddef.h>
#include <stdint.h>
#include <string.h>

#ifdef __cplusplus
extern "C" {
#endif

/* The version of this header, and as one number, which cipangohu_version gives of the library.
 * New in 4.0: the map of parties seen to cheat. The value of step 5 tells it beside the result, and is no longer 0 or 1: cipangohu_result_settled and
 * cipangohu_result_faulty take it apart, and the names CIPANGOHU_NOTHING and CIPANGOHU_SETTLED are gone. cipangohu_faulty, cipangohu_map_has. A state has four bytes
 * more, and states of versions before 4 are cause 5: sessions that run are ended with the version that began them.
 * New in 3.0: the session number, which cipangohu_open, cipangohu_open_by_sender, cipangohu_check_path and cipangohu_rebuild_with_root take in front of n; a
 * host that numbers no sessions puts 0 there. cipangohu_session. A state has four bytes more, and states of versions before 3 are cause 5: sessions that run are
 * ended with the version that began them.
 * New in 2.2: cipangohu_open_by_sender, cipangohu_read_message, cipangohu_packet_message, CIPANGOHU_MESSAGE_PACKET.
 * New in 2.1: step 5 takes a message that it rebuilt only under the agreed root; cipangohu_rebuild_with_root; cause 15. */
#define CIPANGOHU_VERSION_MAJOR 4
#define CIPANGOHU_VERSION_MINOR 0
#define CIPANGOHU_VERSION_PATCH 0
#define CIPANGOHU_VERSION ((CIPANGOHU_VERSION_MAJOR << 16) | (CIPANGOHU_VERSION_MINOR << 8) | CIPANGOHU_VERSION_PATCH)

/* The greatest numbers, each once: parties, hashes in a path, and the bytes of a message, of a string that is hashed and of an entry. Then the
 * bytes of a hash, and so of a root, and the version of a state's layout. */
#define CIPANGOHU_PARTIES 16
#define CIPANGOHU_PATH 4
#define CIPANGOHU_MESSAGE 3072
#define CIPANGOHU_HASHED 65535
#define CIPANGOHU_ENTRY 65535
#define CIPANGOHU_ROOT 32
#define CIPANGOHU_LAYOUT 4

/* Rooms that follow from them, in bytes: for the longest share, which is the whole frame of one party alone; for a state; for any packet with a share that a
 * party writes: four bytes, the share, the longest path; for any packet of a named sender: three bytes, the message; for all shares of a message together, which are
 * less than twice the longest frame with its zeros; for any outbox: these shares, and beside each its entry's length and the rest of its packet; and for any
 * inbox. */
#define CIPANGOHU_SHARE (CIPANGOHU_MESSAGE + 2)
#define CIPANGOHU_STATE (17 + CIPANGOHU_ROOT + CIPANGOHU_MESSAGE + CIPANGOHU_SHARE)
#define CIPANGOHU_PACKET (4 + CIPANGOHU_SHARE + CIPANGOHU_PATH * CIPANGOHU_ROOT)
#define CIPANGOHU_MESSAGE_PACKET (3 + CIPANGOHU_MESSAGE)
#define CIPANGOHU_SHARES (2 * (CIPANGOHU_SHARE + CIPANGOHU_PARTIES))
#define CIPANGOHU_OUTBOX (CIPANGOHU_SHARES + CIPANGOHU_PARTIES * (6 + CIPANGOHU_PATH * CIPANGOHU_ROOT))
#define CIPANGOHU_INBOX (CIPANGOHU_PARTIES * (2 + CIPANGOHU_ENTRY))

/* The causes. 13 and 14 are those of a plan that is rehearsed, and no call here gives them. */
enum cipangohu_causes {
    CIPANGOHU_ACCEPTED = 0,
    CIPANGOHU_CAUSE_PARTIES = 1,     /* n is not 1 to CIPANGOHU_PARTIES */
    CIPANGOHU_CAUSE_FAULTS = 2,      /* 2 * t is n or more */
    CIPANGOHU_CAUSE_NUMBER = 3,      /* a number that is not 1 to n */
    CIPANGOHU_CAUSE_LENGTH = 4,      /* too long a message, string, share, entry or entries */
    CIPANGOHU_CAUSE_STATE = 5,       /* not a state */
    CIPANGOHU_CAUSE_STEP = 6,        /* not the step that is due, which at the end is step 5 alone, or no message to tell of */
    CIPANGOHU_CAUSE_ROOT_OR_BIT = 7, /* a root that is not CIPANGOHU_ROOT bytes, or a bit that is not 0 or 1 */
    CIPANGOHU_CAUSE_ENTRIES = 8,     /* entries that run short or leave bytes over */
    CIPANGOHU_CAUSE_ROOM = 9,        /* a buffer too short for what is written */
    CIPANGOHU_CAUSE_PACKET = 10,     /* a packet that is neither silence nor readable */
    CIPANGOHU_CAUSE_FEW_SHARES = 11, /* fewer than n - t shares */
    CIPANGOHU_CAUSE_NO_MESSAGE = 12, /* shares of no message */
    CIPANGOHU_CAUSE_OTHER_ROOT = 15  /* a rebuilt message whose root is not the one given */
};

/* The stages: what a party waits for, or how it ended. */
enum cipangohu_stages {
    CIPANGOHU_AWAITS_ROOT = 0,
    CIPANGOHU_AWAITS_BIT = 1,
    CIPANGOHU_AWAITS_SHARES = 2,
    CIPANGOHU_AWAITS_RELAYS = 3,
    CIPANGOHU_ENDED_WITH_NOTHING = 4,
    CIPANGOHU_ENDED_WITH_MESSAGE = 5
};

/* What a call answers. */
typedef struct cipangohu_answer {
    uint32_t value;
    uint32_t cause;
} cipangohu_answer;

/* Bytes that lie in a buffer of the host; no address where there are none to tell of. What is there and empty has an address. */
typedef struct cipangohu_bytes {
    const uint8_t *at;
    size_t len;
} cipangohu_bytes;

/* The library gives an answer in one register, the value in its lower half. */
#if !defined(__BYTE_ORDER__) || __BYTE_ORDER__ != __ORDER_LITTLE_ENDIAN__
#error the library is for machines whose numbers have the lowest byte first
#endif
typedef char cipangohu_answer_has_8_bytes[sizeof(cipangohu_answer) == 8 ? 1 : -1];
typedef char cipangohu_size_has_8_bytes[sizeof(size_t) == 8 ? 1 : -1];

/* Compilers warn where an answer is not used. */
#if (defined(__cplusplus) && __cplusplus >= 201703L) || (defined(__STDC_VERSION__) && __STDC_VERSION__ > 201710L)
#define CIPANGOHU_MUST_USE [[nodiscard]]
#elif defined(__GNUC__)
#define CIPANGOHU_MUST_USE __attribute__((__warn_unused_result__))
#else
#define CIPANGOHU_MUST_USE
#endif

/* Step 1, the opening in the session of this number: writes a new state, and the root for the short agreement. Value: CIPANGOHU_ROOT. Causes 1, 2, 3, 4, then 9
 * for the state's buffer, then 9 for the root's. */
CIPANGOHU_MUST_USE cipangohu_answer cipangohu_open(uint32_t session, size_t n, size_t t, size_t own, const uint8_t *message, size_t message_len,
                                                   uint8_t *state, size_t state_len, uint8_t *root, size_t root_len);

/* Step 1 by a named sender; all good parties name the same one. State and root are what cipangohu_open writes for the message that the party opens with, and all
 * later steps are as they are after it.
 *     The sender itself (own is sender) hands in its message as bytes. The packet for all others is written to out, the same for each of them; there is none
 * with n 1. CIPANGOHU_MESSAGE_PACKET is room for any.
 *     Any other party hands in what came from the sender, as it came; NULL and 0 if nothing did. Nothing is written to out, which may be NULL and 0. Bytes that
 * cannot be read are not refused: the party opens with the empty message. cipangohu_read_message tells a host that they cannot.
 * Value: the bytes written to out. Causes 1, 2, 3 for the own number, 3 for the sender's, 4 for the sender's own message, then 9 for the state's buffer, 9 for
 * the root's, 9 for the packet's. */
CIPANGOHU_MUST_USE cipangohu_answer cipangohu_open_by_sender(uint32_t session, size_t n, size_t t, size_t own, size_t sender,
                                                             const uint8_t *bytes, size_t bytes_len, uint8_t *state, size_t state_len,
                                                             uint8_t *root, size_t root_len, uint8_t *out, size_t out_len);

/* Step 2, the agreed root. Value: the party's bit, 1 if it is happy, which it is if the agreed root is its own, else 0, for the second short agreement.
 * Causes 5, 6, 7. */
CIPANGOHU_MUST_USE cipangohu_answer cipangohu_agree_root(uint8_t *state, size_t state_len, const uint8_t *root, size_t root_len);

/* Step 3, the agreed bit: writes n entries to out, each the packet for that party, the own one of length 0, and all where nothing is to be sent.
 * On bit 0 they are written too, and the party has ended with nothing. Value: the bytes written. Causes 5, 6, 7, 9. */
CIPANGOHU_MUST_USE cipangohu_answer cipangohu_agree_bit(uint8_t *state, size_t state_len, size_t bit, uint8_t *out, size_t out_len);

/* Step 4, the first inbox: writes the packet to relay to all others, and begins the map of parties seen to cheat, whatever map the state had. Value: the bytes
 * written, 0 if there is none. Causes 5, 6, 8, 9. */
CIPANGOHU_MUST_USE cipangohu_answer cipangohu_take_shares(uint8_t *state, size_t state_len, const uint8_t *inbox, size_t inbox_len,
                                                          uint8_t *out, size_t out_len);

/* Step 5, the second inbox: writes the message, if the result is one, and adds to the map of parties seen to cheat. Value: twice that map, and 1 more for a
 * message of any length, which cipangohu_result_length tells; cipangohu_result_settled and cipangohu_result_faulty take it apart. Nothing is no message, not even an
 * empty one. A happy party ends with its own message. Another one rebuilds a message from the shares that were relayed, its own among them, codes it again, and
 * ends with it only if its root is the agreed one; else with nothing. A party that has ended, at this step or on bit 0, gives its result and its map, which on bit
 * 0 is empty, to every further reader in the same way, and writes its state anew. It does not look at the inbox. Readers hand in none (NULL and 0): a party that
 * has not ended yet refuses that, and would take entries for its second inbox. Causes 5, 6, 8, and 9 where there is a message (of a party that has ended: 5, and 9
 * where its result is a message). */
CIPANGOHU_MUST_USE cipangohu_answer cipangohu_take_relays(uint8_t *state, size_t state_len, const uint8_t *inbox, size_t inbox_len,
                                                          uint8_t *out, size_t out_len);

/* The length of the message that a party ended with, and so the room that a further reader needs. Causes 5, and 6 where it has not ended, or with
 * nothing, which needs no room. */
CIPANGOHU_MUST_USE cipangohu_answer cipangohu_result_length(const uint8_t *state, size_t state_len);

/* The stage of a party. Cause 5. */
CIPANGOHU_MUST_USE cipangohu_answer cipangohu_stage(const uint8_t *state, size_t state_len);

/* The own number of a party. Cause 5. */
CIPANGOHU_MUST_USE cipangohu_answer cipangohu_own(const uint8_t *state, size_t state_len);

/* The number of the session that a party was opened in. Cause 5. */
CIPANGOHU_MUST_USE cipangohu_answer cipangohu_session(const uint8_t *state, size_t state_len);

/* The map of the parties that a party has seen cheat, 0 before its first inbox; cipangohu_map_has tells who is in it. Cause 5. */
CIPANGOHU_MUST_USE cipangohu_answer cipangohu_faulty(const uint8_t *state, size_t state_len);

/* Reads a packet among n parties. Value: 0 for silence (no bytes, or one zero byte), else what cipangohu_packet_number and the three beside it take
 * apart: count * 2^24 + number * 2^16 + the share's length, where count is that of the path's hashes. Causes 1, 10. */
CIPANGOHU_MUST_USE cipangohu_answer cipangohu_read_packet(size_t n, const uint8_t *packet, size_t packet_len);

/* Reads the packet of a named sender. Value: 0 for silence, else 2^16 + the length of the message, which may be 0; cipangohu_packet_message finds the message.
 * Cause 10. */
CIPANGOHU_MUST_USE cipangohu_answer cipangohu_read_message(const uint8_t *packet, size_t packet_len);

/* Whether a path of hashes leads from share j of n to the root, in the session of this number. Value: 1 yes, 0 no; a path that is not as many whole hashes as
 * n and j give is a no. Causes 1, 3, 4 (a share over CIPANGOHU_HASHED - 2 bytes under session number 0, over CIPANGOHU_HASHED - 6 under any other), 7. */
CIPANGOHU_MUST_USE cipangohu_answer cipangohu_check_path(uint32_t session, size_t n, size_t j, const uint8_t *share, size_t share_len,
                                                         const uint8_t *path, size_t path_len, const uint8_t *root, size_t root_len);

/* Writes the n shares of a message, of equal length, concatenated. Value: the bytes written. Causes 1, 2, 4, 9. */
CIPANGOHU_MUST_USE cipangohu_answer cipangohu_shares(size_t n, size_t t, const uint8_t *message, size_t message_len,
                                                     uint8_t *out, size_t out_len);

/* Rebuilds the message from n entries, each a share, of length 0 if it is missing; of those present the n - t lowest-numbered are used, and none is
 * checked. Value: the bytes written. Causes 1, 2, 8, 11, 12, and 9 where a message was found. */
CIPANGOHU_MUST_USE cipangohu_answer cipangohu_rebuild(size_t n, size_t t, const uint8_t *entries, size_t entries_len,
                                                      uint8_t *out, size_t out_len);

/* Rebuilds as cipangohu_rebuild does, codes the message again, and writes it only if its root is the one given; a message has the root that
 * cipangohu_open gives with this session number, n and t. Value: the bytes written. Causes 1, 2, 7, 8, 11, 12, 15, and 9 where a message with this root was found. */
CIPANGOHU_MUST_USE cipangohu_answer cipangohu_rebuild_with_root(uint32_t session, size_t n, size_t t, const uint8_t *root, size_t root_len,
                                                                const uint8_t *entries, size_t entries_len, uint8_t *out, size_t out_len);

/* SHA-256 of up to CIPANGOHU_HASHED bytes. Value: CIPANGOHU_ROOT. Causes 4, 9. */
CIPANGOHU_MUST_USE cipangohu_answer cipangohu_hash(const uint8_t *message, size_t message_len, uint8_t *out, size_t out_len);

/* The library's CIPANGOHU_VERSION. It fits a program that was built with a header of the same major number, of no higher minor number, and with
 * CIPANGOHU_STATE as cipangohu_state_size gives it. */
uint32_t cipangohu_version(void);

/* The library's CIPANGOHU_STATE. */
size_t cipangohu_state_size(void);

/* A cause in words. This function and those below it stand in the header alone. */
static inline const char *cipangohu_cause_text(uint32_t cause) {
    switch (cause) {
    case CIPANGOHU_ACCEPTED: return "accepted";
    case CIPANGOHU_CAUSE_PARTIES: return "the number of parties is out of range";
    case CIPANGOHU_CAUSE_FAULTS: return "the fault limit is half of the parties or more";
    case CIPANGOHU_CAUSE_NUMBER: return "the number is no party's";
    case CIPANGOHU_CAUSE_LENGTH: return "the message, string, share or entries are too long";
    case CIPANGOHU_CAUSE_STATE: return "the bytes are no state";
    case CIPANGOHU_CAUSE_STEP: return "the call does not fit the party's stage";
    case CIPANGOHU_CAUSE_ROOT_OR_BIT: return "the root has not the length of a hash, or the bit is not 0 or 1";
    case CIPANGOHU_CAUSE_ENTRIES: return "the entries run short or leave bytes over";
    case CIPANGOHU_CAUSE_ROOM: return "the buffer is too short";
    case CIPANGOHU_CAUSE_PACKET: return "the packet is neither silence nor readable";
    case CIPANGOHU_CAUSE_FEW_SHARES: return "too few shares are present";
    case CIPANGOHU_CAUSE_NO_MESSAGE: return "the shares are of no message";
    case CIPANGOHU_CAUSE_OTHER_ROOT: return "the rebuilt message has another root";
    default: return "an unknown cause";
    }
}

/* Entry j, from 1, of an outbox or of any entries; no address where the bytes end before it does. */
static inline cipangohu_bytes cipangohu_entry(const uint8_t *entries, size_t entries_len, size_t j) {
    cipangohu_bytes found = {NULL, 0};
    size_t at = 0;
    while (j > 0 && entries_len - at >= 2) {
        size_t len = (size_t)entries[at] * 256 + entries[at + 1];
        at += 2;
        if (entries_len - at < len) break;
        if (--j == 0) {
            found.at = entries + at;
            found.len = len;
        }
        at += len;
    }
    return found;
}

/* Writes bytes as an entry behind the first `used` bytes of a buffer, which are those of the entries before it. Value: the bytes then used. Causes
 * 4 (over CIPANGOHU_ENTRY bytes, or behind more than CIPANGOHU_INBOX), 9. */
CIPANGOHU_MUST_USE static inline cipangohu_answer cipangohu_append(uint8_t *entries, size_t entries_len, size_t used,
                                                                   const uint8_t *bytes, size_t bytes_len) {
    cipangohu_answer answer = {0, CIPANGOHU_CAUSE_LENGTH};
    if (bytes_len > CIPANGOHU_ENTRY || used > CIPANGOHU_INBOX) return answer;
    answer.value = (uint32_t)(used + 2 + bytes_len);
    answer.cause = CIPANGOHU_CAUSE_ROOM;
    if (used > entries_len || entries_len - used < 2 + bytes_len) return answer;
    entries[used] = (uint8_t)(bytes_len / 256);
    entries[used + 1] = (uint8_t)(bytes_len % 256);
    if (bytes_len > 0) memcpy(entries + used + 2, bytes, bytes_len);
    answer.cause = CIPANGOHU_ACCEPTED;
    return answer;
}

/* The message that a party ended with, where it lies in the state; nothing is written. No address where there is none: cipangohu_stage tells whether
 * the party ended with nothing or waits. */
static inline cipangohu_bytes cipangohu_result(const uint8_t *state, size_t state_len) {
    cipangohu_bytes result = {NULL, 0};
    cipangohu_answer length = cipangohu_result_length(state, state_len);
    if (length.cause != CIPANGOHU_ACCEPTED) return result;
    result.at = state + 17 + CIPANGOHU_ROOT;
    result.len = length.value;
    return result;
}

/* Whether the result is a message, of the value that an accepted step 5 gave: 1 for a message, 0 for nothing. */
static inline int cipangohu_result_settled(uint32_t value) { return (int)(value & 1); }

/* The map of parties seen to cheat, of the same value. */
static inline uint32_t cipangohu_result_faulty(uint32_t value) { return value >> 1; }

/* Whether a party is in a map: 1 or 0. No number but 1 to CIPANGOHU_PARTIES is in any. */
static inline int cipangohu_map_has(uint32_t map, size_t party) {
    return party >= 1 && party <= CIPANGOHU_PARTIES && (map >> (party - 1) & 1) == 1;
}

/* The number that a packet bears, of the value that cipangohu_read_packet gave; 0 for silence. */
static inline size_t cipangohu_packet_number(uint32_t value) { return value >> 16 & 0xFF; }

/* How many hashes the path in a packet has, of the same value. */
static inline size_t cipangohu_packet_count(uint32_t value) { return value >> 24; }

/* The share in a packet, of the same value; no address for silence. */
static inline cipangohu_bytes cipangohu_packet_share(const uint8_t *packet, uint32_t value) {
    cipangohu_bytes share = {NULL, 0};
    if (value == 0) return share;
    share.at = packet + 4;
    share.len = value & 0xFFFF;
    return share;
}

/* The path in a packet, of the same value, its hashes concatenated; no address for silence. */
static inline cipangohu_bytes cipangohu_packet_path(const uint8_t *packet, uint32_t value) {
    cipangohu_bytes path = cipangohu_packet_share(packet, value);
    if (value == 0) return path;
    path.at += path.len;
    path.len = cipangohu_packet_count(value) * CIPANGOHU_ROOT;
    return path;
}

/* The message in the packet of a named sender, of the value that cipangohu_read_message gave; no address for silence. */
static inline cipangohu_bytes cipangohu_packet_message(const uint8_t *packet, uint32_t value) {
    cipangohu_bytes message = {NULL, 0};
    if (value == 0) return message;
    message.at = packet + 3;
    message.len = value & 0xFFFF;
    return message;
}

#ifdef __cplusplus
}
#endif

#endif
