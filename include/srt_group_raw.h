/* Made by tools/prototypes from the sources that are proved; not to be edited. The calls as the archive exports them, the sizes of what they are
 * lent, and the codes. include/srt_group.h has calls of a few parameters over these; its rules on what is lent hold here too. */
#ifndef SRT_GROUP_RAW_H
#define SRT_GROUP_RAW_H

#if !defined(__x86_64__) || defined(__ILP32__) || defined(_WIN32)
#error "srt_group passes a slice as two arguments, as x86-64 Linux does; it is made for no other machine"
#endif

#include <stddef.h>
#include <stdint.h>

#if defined(__GNUC__)
#define SRT_GROUP_NOT_NULL __attribute__((nonnull))
#else
#define SRT_GROUP_NOT_NULL
#endif

/* ---- sizes and numbers */

/** SRTGROUP_MASK: the bit that marks a group id, bit 30. */
#define SRT_GROUP_MASK UINT32_C(1073741824)

/** The bytes of a cell of the store: the longest payload. */
#define SRT_GROUP_CELL 1456

/** The most cells of a store that are used. */
#define SRT_GROUP_MAX_CELLS 2048

/** The bytes of the output before the payload: the host's RTP head. */
#define SRT_GROUP_HEAD 12

/** The least bytes of the output: the head and the longest payload. */
#define SRT_GROUP_OUTPUT 1468

/** The most members of a group. */
#define SRT_GROUP_MAX_MEMBERS 64

/** The most events, data or not, in a leg's queue. */
#define SRT_GROUP_MAX_QUEUED UINT64_C(16)

/** The most events that one poll passes. */
#define SRT_GROUP_MAX_EVENTS 64

/** The rows of the list of sends: more than one call can make. */
#define SRT_GROUP_MAX_SENT 1100

/** A peer's first sequence where there is none. */
#define SRT_GROUP_NO_SEQUENCE UINT64_C(4294967295)

/** The cell in a row of the list of sends, for the call's own payload. */
#define SRT_GROUP_OWN_PAYLOAD UINT64_C(4294967295)

/** The words of the record. */
#define SRT_GROUP_RECORD_WORDS 20

/** The words of a member's row, in which a leg is handed over too. */
#define SRT_GROUP_ROW_WORDS 189

/** The words of the table of members. */
#define SRT_GROUP_MEMBERS_WORDS 12096

/** The words of the table of held packets. */
#define SRT_GROUP_PENDING_WORDS 18432

/** The words of the table of waiting events. */
#define SRT_GROUP_WAITING_WORDS 192

/** The words of the history, and of its source times. */
#define SRT_GROUP_HISTORY_WORDS 512

/** The words of a row of the list of sends. */
#define SRT_GROUP_SENT_ROW_WORDS 5

/** The words of the list of sends. */
#define SRT_GROUP_SENT_WORDS 5500

/** The words of a member that is shown. */
#define SRT_GROUP_MEMBER_ANSWER_WORDS 8

/** The words of the list of members that are shown. */
#define SRT_GROUP_MEMBER_LIST_WORDS 512

/** The words of a poll's answer. */
#define SRT_GROUP_POLL_ANSWER_WORDS 8

/** The words of a send's answer. */
#define SRT_GROUP_SEND_ANSWER_WORDS 2

/** The words of a readiness test's answer. */
#define SRT_GROUP_READY_ANSWER_WORDS 1

/** The words of the answer of a look at a number or a flag. */
#define SRT_GROUP_LOOK_ANSWER_WORDS 1

/** A member's label: its leg is not connected yet. */
#define SRT_GROUP_LABEL_PENDING UINT64_C(0)

/** A member's label: it carries. */
#define SRT_GROUP_LABEL_ACTIVE UINT64_C(1)

/** A member's label: it waits to be promoted, in Backup. */
#define SRT_GROUP_LABEL_STANDBY UINT64_C(2)

/** A member's label: it was silent, or its window was full. */
#define SRT_GROUP_LABEL_UNSTABLE UINT64_C(3)

/** A member's label: it is out until its removal. */
#define SRT_GROUP_LABEL_BROKEN UINT64_C(4)

/** The words of a member's row that hold its leg. */
#define SRT_GROUP_ROW_LINK_STATE 9
#define SRT_GROUP_ROW_LINK_PEER 10
#define SRT_GROUP_ROW_LINK_LIMIT 11
#define SRT_GROUP_ROW_TRIP_SRTT 12
#define SRT_GROUP_ROW_TRIP_RTTVAR 13
#define SRT_GROUP_ROW_TRIP_HEARD 14
#define SRT_GROUP_ROW_SENDER_STARTED 18
#define SRT_GROUP_ROW_SENDER_NEXT 19
#define SRT_GROUP_ROW_SENDER_FLIGHT 20
#define SRT_GROUP_ROW_SENDER_WINDOW 21
#define SRT_GROUP_ROW_SENDER_OLDEST 22
#define SRT_GROUP_ROW_SENDER_PACE 23
#define SRT_GROUP_ROW_RECEIVER_FIRST 27
#define SRT_GROUP_ROW_RECEIVER_WINDOW 28
#define SRT_GROUP_ROW_RECEIVER_LATENCY 29
#define SRT_GROUP_ROW_RECEIVER_RESERVED 30
#define SRT_GROUP_ROW_RECEIVER_ADVANCED 31

/** The fields of a reading. */
#define SRT_GROUP_FIELD_STATE UINT64_C(1)
#define SRT_GROUP_FIELD_WINDOW UINT64_C(2)
#define SRT_GROUP_FIELD_RECEIVE_WINDOW UINT64_C(3)
#define SRT_GROUP_FIELD_LATENCY UINT64_C(4)
#define SRT_GROUP_FIELD_ACKNOWLEDGE UINT64_C(5)
#define SRT_GROUP_FIELD_SRTT UINT64_C(6)
#define SRT_GROUP_FIELD_RTTVAR UINT64_C(7)
#define SRT_GROUP_FIELD_HEARD UINT64_C(8)
#define SRT_GROUP_FIELD_PACE UINT64_C(9)
#define SRT_GROUP_FIELD_PEER UINT64_C(10)
#define SRT_GROUP_FIELD_LIMIT UINT64_C(11)
#define SRT_GROUP_FIELD_OLDEST UINT64_C(12)

/* ---- codes */

/** What a call answers: 0, or why it was refused. */
enum srt_group_code {
    SRT_GROUP_ACCEPTED = 0,
    /** a group id without SRTGROUP_MASK */
    SRT_GROUP_MISSING_GROUP_MASK = 1,
    /** a field beyond its range */
    SRT_GROUP_OUT_OF_RANGE = 2,
    /** no member has that id */
    SRT_GROUP_UNKNOWN_MEMBER = 3,
    /** a payload longer than a cell */
    SRT_GROUP_PAYLOAD_TOO_LONG = 4,
    /** a lent slice is too short, or the store's length is not the one given at the start */
    SRT_GROUP_INSUFFICIENT_BUFFER = 5,
    /** the lent state breaks a rule */
    SRT_GROUP_INVALID_STATE = 6,
    /** the group has as many members as it may have */
    SRT_GROUP_MEMBER_LIMIT = 20,
    /** a member has that id already */
    SRT_GROUP_DUPLICATE_MEMBER = 21,
    /** the leg's send sequence could not be aligned with the group's */
    SRT_GROUP_ALIGNMENT_FAILED = 22,
    /** the payload is above the first active leg's limit */
    SRT_GROUP_PAYLOAD_ABOVE_LIMIT = 23,
    /** no member is active */
    SRT_GROUP_NO_ACTIVE_MEMBER = 24,
    /** the active legs are not at the group's send sequence */
    SRT_GROUP_SEQUENCE_MISMATCH = 25,
    /** every Broadcast member failed */
    SRT_GROUP_ALL_BROADCAST_FAILED = 26,
    /** every Backup member failed */
    SRT_GROUP_ALL_BACKUP_FAILED = 27,
    /** the history cannot be replayed on the leg that takes over */
    SRT_GROUP_REPLAY_REFUSED = 28,
    /** the send after a promotion failed */
    SRT_GROUP_PROMOTION_SEND_FAILED = 29,
    /** every cell of the store is in use */
    SRT_GROUP_NO_FREE_CELL = 30,
    /** the leg's event queue is full */
    SRT_GROUP_QUEUE_FULL = 31,
    /** a leg state that goes back, or an acknowledgement outside the flight */
    SRT_GROUP_OUT_OF_TURN = 32
};

/** What a code means, in a few words; for any other number "unknown code". */
static inline const char *srt_group_strerror(uint32_t code)
{
    switch (code) {
    case 0: return "accepted";
    case 1: return "a group id without SRTGROUP_MASK";
    case 2: return "a field beyond its range";
    case 3: return "no member has that id";
    case 4: return "a payload longer than a cell";
    case 5: return "a lent slice is too short, or the store's length is not the one given at the start";
    case 6: return "the lent state breaks a rule";
    case 20: return "the group has as many members as it may have";
    case 21: return "a member has that id already";
    case 22: return "the leg's send sequence could not be aligned with the group's";
    case 23: return "the payload is above the first active leg's limit";
    case 24: return "no member is active";
    case 25: return "the active legs are not at the group's send sequence";
    case 26: return "every Broadcast member failed";
    case 27: return "every Backup member failed";
    case 28: return "the history cannot be replayed on the leg that takes over";
    case 29: return "the send after a promotion failed";
    case 30: return "every cell of the store is in use";
    case 31: return "the leg's event queue is full";
    case 32: return "a leg state that goes back, or an acknowledgement outside the flight";
    default: return "unknown code";
    }
}

/* ---- the calls: a slice is its pointer, which is never null, and its length in elements */

#ifdef __cplusplus
extern "C" {
#endif

/** A fresh group over tables of which no row is in use: its id, its mode (0 Broadcast, 1 Backup), and the length of the store that every
 *  call is then to be lent, or 0. */
uint32_t srt_group_raw_new(
    uint64_t *record, size_t record_length,
    uint64_t id,
    uint64_t mode,
    size_t length) SRT_GROUP_NOT_NULL;

/** A leg is added, handed over in a row of the members' table, of which the membership part is not read. 22 leaves it added. */
uint32_t srt_group_raw_add_member(
    uint64_t *record, size_t record_length,
    uint64_t *members, size_t members_length,
    const uint64_t *pending, size_t pending_length,
    const uint64_t *waiting, size_t waiting_length,
    const uint64_t *history, size_t history_length,
    const uint64_t *sources, size_t sources_length,
    const uint64_t *row, size_t row_length,
    uint64_t id,
    uint64_t weight) SRT_GROUP_NOT_NULL;

/** A member is removed, and its leg dropped. */
uint32_t srt_group_raw_remove_member(
    uint64_t *record, size_t record_length,
    uint64_t *members, size_t members_length,
    uint64_t *pending, size_t pending_length,
    const uint64_t *waiting, size_t waiting_length,
    const uint64_t *history, size_t history_length,
    const uint64_t *sources, size_t sources_length,
    uint64_t id) SRT_GROUP_NOT_NULL;

/** A member is removed, and its leg given back in a row of the members' table. */
uint32_t srt_group_raw_remove_member_connection(
    uint64_t *record, size_t record_length,
    uint64_t *members, size_t members_length,
    uint64_t *pending, size_t pending_length,
    const uint64_t *waiting, size_t waiting_length,
    const uint64_t *history, size_t history_length,
    const uint64_t *sources, size_t sources_length,
    uint64_t *row, size_t row_length,
    uint64_t id) SRT_GROUP_NOT_NULL;

/** A packet at the end of a leg's queue, its payload in the lowest free cell of the store. */
uint32_t srt_group_raw_queue_data(
    const uint64_t *record, size_t record_length,
    uint64_t *members, size_t members_length,
    const uint64_t *pending, size_t pending_length,
    const uint64_t *waiting, size_t waiting_length,
    const uint64_t *history, size_t history_length,
    const uint64_t *sources, size_t sources_length,
    uint8_t *store, size_t store_length,
    uint64_t id,
    uint64_t sequence,
    uint64_t count,
    uint64_t message,
    uint64_t timestamp,
    uint64_t source,
    const uint8_t *payload, size_t payload_length) SRT_GROUP_NOT_NULL;

/** A lifecycle event at the end of a leg's queue. */
uint32_t srt_group_raw_queue_event(
    const uint64_t *record, size_t record_length,
    uint64_t *members, size_t members_length,
    const uint64_t *pending, size_t pending_length,
    const uint64_t *waiting, size_t waiting_length,
    const uint64_t *history, size_t history_length,
    const uint64_t *sources, size_t sources_length,
    uint64_t id,
    uint64_t kind,
    uint64_t reason) SRT_GROUP_NOT_NULL;

/** A number into a field of a leg. */
uint32_t srt_group_raw_read_leg(
    const uint64_t *record, size_t record_length,
    uint64_t *members, size_t members_length,
    const uint64_t *pending, size_t pending_length,
    const uint64_t *waiting, size_t waiting_length,
    const uint64_t *history, size_t history_length,
    const uint64_t *sources, size_t sources_length,
    uint64_t id,
    uint64_t field,
    uint64_t number) SRT_GROUP_NOT_NULL;

/** The next packet in order, after at most so many events, which are dropped. Its payload is written from byte 12 of the output on. The
 *  answer: whether to poll again at once, and of the packet its leg, sequence, count (0: none), message number, timestamp, source time and
 *  length. */
uint32_t srt_group_raw_poll_data_bounded(
    uint64_t *record, size_t record_length,
    uint64_t *members, size_t members_length,
    uint64_t *pending, size_t pending_length,
    uint64_t *waiting, size_t waiting_length,
    const uint64_t *history, size_t history_length,
    const uint64_t *sources, size_t sources_length,
    const uint8_t *store, size_t store_length,
    uint8_t *output, size_t output_length,
    uint64_t time,
    size_t max_events,
    uint64_t *answer, size_t answer_length) SRT_GROUP_NOT_NULL;

/** `poll_data_bounded` with as many events as it may pass, 64. */
uint32_t srt_group_raw_poll_data(
    uint64_t *record, size_t record_length,
    uint64_t *members, size_t members_length,
    uint64_t *pending, size_t pending_length,
    uint64_t *waiting, size_t waiting_length,
    const uint64_t *history, size_t history_length,
    const uint64_t *sources, size_t sources_length,
    const uint8_t *store, size_t store_length,
    uint8_t *output, size_t output_length,
    uint64_t time,
    uint64_t *answer, size_t answer_length) SRT_GROUP_NOT_NULL;

/** The next event, or the next packet in order, with 5 and 6 tested. The answer's words: of an event its kind (1 connected, 2 error, 3
 *  disconnected), its leg, its reason, and zeros; of a packet 0, its leg, sequence, count, message number, timestamp, source time and
 *  length; of neither zeros. A packet's count is never 0. */
uint32_t srt_group_raw_poll_event(
    uint64_t *record, size_t record_length,
    uint64_t *members, size_t members_length,
    uint64_t *pending, size_t pending_length,
    uint64_t *waiting, size_t waiting_length,
    const uint64_t *history, size_t history_length,
    const uint64_t *sources, size_t sources_length,
    const uint8_t *store, size_t store_length,
    uint8_t *output, size_t output_length,
    uint64_t time,
    uint64_t *answer, size_t answer_length) SRT_GROUP_NOT_NULL;

/** One payload through the group, on every active leg or on the carrier; each send that a leg takes fills a row of the list: leg, sequence,
 *  history cell (4294967295 for this payload), source time, time. The answer: on how many legs, and how many rows were filled. */
uint32_t srt_group_raw_send(
    uint64_t *record, size_t record_length,
    uint64_t *members, size_t members_length,
    const uint64_t *pending, size_t pending_length,
    const uint64_t *waiting, size_t waiting_length,
    uint64_t *history, size_t history_length,
    uint64_t *sources, size_t sources_length,
    uint8_t *store, size_t store_length,
    uint64_t *list, size_t list_length,
    uint64_t time,
    const uint8_t *payload, size_t payload_length,
    uint64_t *answer, size_t answer_length) SRT_GROUP_NOT_NULL;

/** The same: a lent payload is shared by all legs as it is, so the Rust's form for counted bytes is no other call. */
uint32_t srt_group_raw_send_shared(
    uint64_t *record, size_t record_length,
    uint64_t *members, size_t members_length,
    const uint64_t *pending, size_t pending_length,
    const uint64_t *waiting, size_t waiting_length,
    uint64_t *history, size_t history_length,
    uint64_t *sources, size_t sources_length,
    uint8_t *store, size_t store_length,
    uint64_t *list, size_t list_length,
    uint64_t time,
    const uint8_t *payload, size_t payload_length,
    uint64_t *answer, size_t answer_length) SRT_GROUP_NOT_NULL;

/** Whether the group could send now. The test refreshes and trims. */
uint32_t srt_group_raw_can_send(
    uint64_t *record, size_t record_length,
    uint64_t *members, size_t members_length,
    const uint64_t *pending, size_t pending_length,
    const uint64_t *waiting, size_t waiting_length,
    const uint64_t *history, size_t history_length,
    const uint64_t *sources, size_t sources_length,
    uint64_t *answer, size_t answer_length) SRT_GROUP_NOT_NULL;

/** The same, where a leg counts that may send by its pace at this time. */
uint32_t srt_group_raw_can_send_with_pacing(
    uint64_t *record, size_t record_length,
    uint64_t *members, size_t members_length,
    const uint64_t *pending, size_t pending_length,
    const uint64_t *waiting, size_t waiting_length,
    const uint64_t *history, size_t history_length,
    const uint64_t *sources, size_t sources_length,
    uint64_t time,
    uint64_t *answer, size_t answer_length) SRT_GROUP_NOT_NULL;

/** A member turns Broken. */
uint32_t srt_group_raw_mark_member_broken(
    const uint64_t *record, size_t record_length,
    uint64_t *members, size_t members_length,
    const uint64_t *pending, size_t pending_length,
    const uint64_t *waiting, size_t waiting_length,
    const uint64_t *history, size_t history_length,
    const uint64_t *sources, size_t sources_length,
    uint64_t id) SRT_GROUP_NOT_NULL;

/** The members' states follow their legs; a member that arrives may set the base and bind the group. */
uint32_t srt_group_raw_refresh_member_states(
    uint64_t *record, size_t record_length,
    uint64_t *members, size_t members_length,
    const uint64_t *pending, size_t pending_length,
    const uint64_t *waiting, size_t waiting_length,
    const uint64_t *history, size_t history_length,
    const uint64_t *sources, size_t sources_length) SRT_GROUP_NOT_NULL;

/** Every leg is disconnected; nothing is queued. The stand-in's legs need no time. */
uint32_t srt_group_raw_disconnect(
    const uint64_t *record, size_t record_length,
    uint64_t *members, size_t members_length,
    const uint64_t *pending, size_t pending_length,
    const uint64_t *waiting, size_t waiting_length,
    const uint64_t *history, size_t history_length,
    const uint64_t *sources, size_t sources_length,
    uint64_t time) SRT_GROUP_NOT_NULL;

/** The group's id. */
uint32_t srt_group_raw_group_id(
    const uint64_t *record, size_t record_length,
    const uint64_t *members, size_t members_length,
    const uint64_t *pending, size_t pending_length,
    const uint64_t *waiting, size_t waiting_length,
    const uint64_t *history, size_t history_length,
    const uint64_t *sources, size_t sources_length,
    uint64_t *answer, size_t answer_length) SRT_GROUP_NOT_NULL;

/** 0 for Broadcast, 1 for Backup. */
uint32_t srt_group_raw_mode(
    const uint64_t *record, size_t record_length,
    const uint64_t *members, size_t members_length,
    const uint64_t *pending, size_t pending_length,
    const uint64_t *waiting, size_t waiting_length,
    const uint64_t *history, size_t history_length,
    const uint64_t *sources, size_t sources_length,
    uint64_t *answer, size_t answer_length) SRT_GROUP_NOT_NULL;

/** The peer group that the group is bound to, or 0. */
uint32_t srt_group_raw_peer_group_id(
    const uint64_t *record, size_t record_length,
    const uint64_t *members, size_t members_length,
    const uint64_t *pending, size_t pending_length,
    const uint64_t *waiting, size_t waiting_length,
    const uint64_t *history, size_t history_length,
    const uint64_t *sources, size_t sources_length,
    uint64_t *answer, size_t answer_length) SRT_GROUP_NOT_NULL;

/** How many packets were skipped for good. */
uint32_t srt_group_raw_skipped_receive_packets(
    const uint64_t *record, size_t record_length,
    const uint64_t *members, size_t members_length,
    const uint64_t *pending, size_t pending_length,
    const uint64_t *waiting, size_t waiting_length,
    const uint64_t *history, size_t history_length,
    const uint64_t *sources, size_t sources_length,
    uint64_t *answer, size_t answer_length) SRT_GROUP_NOT_NULL;

/** Whether a packet is held, an event waits, or the continuation is asked for. */
uint32_t srt_group_raw_has_pending_data(
    const uint64_t *record, size_t record_length,
    const uint64_t *members, size_t members_length,
    const uint64_t *pending, size_t pending_length,
    const uint64_t *waiting, size_t waiting_length,
    const uint64_t *history, size_t history_length,
    const uint64_t *sources, size_t sources_length,
    uint64_t *answer, size_t answer_length) SRT_GROUP_NOT_NULL;

/** Whether the last poll stopped with work left. */
uint32_t srt_group_raw_has_receive_continuation(
    const uint64_t *record, size_t record_length,
    const uint64_t *members, size_t members_length,
    const uint64_t *pending, size_t pending_length,
    const uint64_t *waiting, size_t waiting_length,
    const uint64_t *history, size_t history_length,
    const uint64_t *sources, size_t sources_length,
    uint64_t *answer, size_t answer_length) SRT_GROUP_NOT_NULL;

/** How long until pacing lets a member send, in microseconds. */
uint32_t srt_group_raw_time_until_send(
    const uint64_t *record, size_t record_length,
    const uint64_t *members, size_t members_length,
    const uint64_t *pending, size_t pending_length,
    const uint64_t *waiting, size_t waiting_length,
    const uint64_t *history, size_t history_length,
    const uint64_t *sources, size_t sources_length,
    uint64_t time,
    uint64_t *answer, size_t answer_length) SRT_GROUP_NOT_NULL;

/** A member: its id, weight, label, its leg's state, whether it was admitted, its reserved sum, and its collision's expected and actual
 *  peer group. */
uint32_t srt_group_raw_member(
    const uint64_t *record, size_t record_length,
    const uint64_t *members, size_t members_length,
    const uint64_t *pending, size_t pending_length,
    const uint64_t *waiting, size_t waiting_length,
    const uint64_t *history, size_t history_length,
    const uint64_t *sources, size_t sources_length,
    uint64_t id,
    uint64_t *answer, size_t answer_length) SRT_GROUP_NOT_NULL;

/** How long the member may be silent as the carrier of a Backup group, in microseconds; 0 for a leg without a sender. */
uint32_t srt_group_raw_backup_stability_timeout_micros(
    const uint64_t *record, size_t record_length,
    const uint64_t *members, size_t members_length,
    const uint64_t *pending, size_t pending_length,
    const uint64_t *waiting, size_t waiting_length,
    const uint64_t *history, size_t history_length,
    const uint64_t *sources, size_t sources_length,
    uint64_t id,
    uint64_t *answer, size_t answer_length) SRT_GROUP_NOT_NULL;

/** All members as rows of a lent list, in the order of their addition. The answer is how many rows were filled. */
uint32_t srt_group_raw_members(
    const uint64_t *record, size_t record_length,
    const uint64_t *members, size_t members_length,
    const uint64_t *pending, size_t pending_length,
    const uint64_t *waiting, size_t waiting_length,
    const uint64_t *history, size_t history_length,
    const uint64_t *sources, size_t sources_length,
    uint64_t *list, size_t list_length,
    uint64_t *answer, size_t answer_length) SRT_GROUP_NOT_NULL;

#ifdef __cplusplus
}
#endif

#endif
