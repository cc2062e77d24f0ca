/* A bonded SRT group: the calls of the module srt_group of srt-rs, for C99 and C++11 programs on x86-64 Linux.
 *
 *     struct srt_group *group = malloc(sizeof *group);
 *     uint8_t *store = malloc(40 * SRT_GROUP_CELL);
 *     srt_group_init(group, SRT_GROUP_MASK | 1, SRT_GROUP_BROADCAST, store, 40 * SRT_GROUP_CELL);
 *
 * Then legs are added, what they receive is queued, and polls give the packets in order. docs/LINKING.md goes through it; examples/gateway.c is a
 * whole program. Link libsrt_group.a. It allocates nothing and keeps nothing between calls: all that it knows stands in the struct.
 *
 * Every call answers a code. 0: it did what its definition says. Any other: it was refused, and why (srt_group_strerror). What each leaves:
 *   1 to 6, 20, 21, 30 to 32   everything as it was: the group, the store, the output, the list of sends;
 *   22 of an addition          the leg added, with its send number not aligned;
 *   22 to 29 of a send         what was done before it failed: the refreshed members, a take-over, rows of the list (docs/CODES.md says which).
 * What a call answers in a struct of its own, or in a number, is 0 where it is refused. The store and the output are written by no refused call.
 * A number beyond its range is refused by 2, so parameters have 64 bits where their range is smaller. Times are microseconds of one clock that
 * the host chooses.
 *
 * The calls are proved for whatever the memory holds, and refuse what breaks a rule (5, 6). They cannot see, and the caller sees to it, that
 *   - no pointer is null, also where the length is 0;
 *   - every pointer points to as many elements as its length says, alive for the whole call;
 *   - a pointer to 64-bit words or to a struct is aligned to 8 bytes;
 *   - what a call is lent does not overlap: the group, its store, the payload, the output, what the answer is put into. So a payload that stands
 *     in the store is copied before it is sent or queued;
 *   - no other thread uses the group or its store during a call. Two groups with two stores may be used by two threads;
 *   - no two groups have the same store.
 * Between calls nobody writes the struct or the store. Both may be read, and moved as they are (then set group->store). */
#ifndef SRT_GROUP_H
#define SRT_GROUP_H

#include <stdbool.h>
#include <string.h>

#include "srt_group_raw.h"

#define SRT_GROUP_INLINE SRT_GROUP_NOT_NULL static inline

/* C99 has no static assertion. */
#define SRT_GROUP_ASSERT(name, condition) typedef char srt_group_assert_##name[(condition) ? 1 : -1]

/* ---- what the group stands in */

/** A group. Its owner allocates it once, 254,128 bytes, and writes none of it. docs/TABLES.md says what the words are. */
struct srt_group {
    uint64_t record[SRT_GROUP_RECORD_WORDS];
    uint64_t members[SRT_GROUP_MEMBERS_WORDS];
    uint64_t pending[SRT_GROUP_PENDING_WORDS];
    uint64_t waiting[SRT_GROUP_WAITING_WORDS];
    uint64_t history[SRT_GROUP_HISTORY_WORDS];
    uint64_t sources[SRT_GROUP_HISTORY_WORDS];
    uint8_t *store;
    size_t store_length;
};

SRT_GROUP_ASSERT(group_has_no_padding,
    sizeof(struct srt_group) == sizeof(uint8_t *) + sizeof(size_t)
        + sizeof(uint64_t) * (SRT_GROUP_RECORD_WORDS + SRT_GROUP_MEMBERS_WORDS + SRT_GROUP_PENDING_WORDS + SRT_GROUP_WAITING_WORDS
            + 2 * SRT_GROUP_HISTORY_WORDS));

/** The record and the tables as the raw calls are lent them. */
#define SRT_GROUP_LENT(group) \
    (group)->record, SRT_GROUP_RECORD_WORDS, (group)->members, SRT_GROUP_MEMBERS_WORDS, (group)->pending, SRT_GROUP_PENDING_WORDS, \
    (group)->waiting, SRT_GROUP_WAITING_WORDS, (group)->history, SRT_GROUP_HISTORY_WORDS, (group)->sources, SRT_GROUP_HISTORY_WORDS

/** Structs of words alone, as the words that a raw call fills. */
#define SRT_GROUP_WORDS(structs) ((uint64_t *)(void *)(structs))

/** Modes. */
enum { SRT_GROUP_BROADCAST = 0, SRT_GROUP_BACKUP = 1 };

/** The states of a leg. */
enum { SRT_GROUP_HANDSHAKING = 0, SRT_GROUP_CONNECTED = 1, SRT_GROUP_DISCONNECTED = 2 };

/** The kinds of an event that is queued on a leg. */
enum { SRT_GROUP_EVENT_CONNECTED = 1, SRT_GROUP_EVENT_ERROR = 2, SRT_GROUP_EVENT_DISCONNECTED = 3 };

/** Makes a group without members in the struct: its id, which has the bit SRT_GROUP_MASK, its mode, and the store that it keeps payloads in, of
 *  which every whole cell of SRT_GROUP_CELL bytes is used, up to SRT_GROUP_MAX_CELLS. The store stays lent for as long as the group is used.
 *  What was in the struct before does not matter. A Backup group keeps up to 512 sent payloads in the store, beside those received.
 *  Codes: 5 the store is below one cell; 2 id or mode out of range; 1 the id is without the bit. */
SRT_GROUP_INLINE enum srt_group_code srt_group_init(struct srt_group *group, uint64_t id, uint64_t mode, uint8_t *store, size_t store_length)
{
    uint64_t record[SRT_GROUP_RECORD_WORDS] = {0};
    uint32_t code;
    if (store_length < SRT_GROUP_CELL)
        return SRT_GROUP_INSUFFICIENT_BUFFER;
    code = srt_group_raw_new(record, SRT_GROUP_RECORD_WORDS, id, mode, store_length);
    if (code == SRT_GROUP_ACCEPTED) {
        memset(group, 0, sizeof *group);
        memcpy(group->record, record, sizeof record);
        group->store = store;
        group->store_length = store_length;
    }
    return (enum srt_group_code)code;
}

/* ---- members */

/** A leg as it is handed to an addition and given back by a removal. */
struct srt_group_leg {
    uint64_t state;               /**< SRT_GROUP_HANDSHAKING, SRT_GROUP_CONNECTED or SRT_GROUP_DISCONNECTED */
    uint64_t peer_group;          /**< the peer's group id; 0: none */
    uint64_t payload_limit;       /**< the longest payload that it sends, 0 to 65,535 */
    uint64_t srtt;                /**< smoothed round trip, microseconds, 32 bits */
    uint64_t rttvar;              /**< its variance, likewise */
    uint64_t last_heard;          /**< when the peer was last heard */
    uint64_t next_sequence;       /**< the number of its next send, below 2^31 */
    uint64_t flight;              /**< sends that are not acknowledged, 0 to 65,535; 0 of a handshaking leg */
    uint64_t window;              /**< the most of them, 0 to 65,535 */
    uint64_t oldest_send_time;    /**< when the oldest of them was sent */
    uint64_t pace_time;           /**< before it pacing holds a send back */
    uint64_t peer_first_sequence; /**< the first number that the peer sends, below 2^31; SRT_GROUP_NO_SEQUENCE: not known */
    uint64_t receive_window;      /**< 0 to 65,535; bounds what the group keeps of removed legs */
    uint64_t latency;             /**< a packet behind a gap waits until its source time and this; 0: for ever */
    uint64_t advanced;            /**< how far the group last told the leg that it has come */
};

/** A fresh leg, handshaking: 0 in every field, but a payload limit of a cell, a receive window of 8,192, no first sequence of its peer. */
SRT_GROUP_INLINE void srt_group_leg_init(struct srt_group_leg *leg)
{
    memset(leg, 0, sizeof *leg);
    leg->payload_limit = SRT_GROUP_CELL;
    leg->peer_first_sequence = SRT_GROUP_NO_SEQUENCE;
    leg->receive_window = 8192;
}

SRT_GROUP_INLINE void srt_group_leg_to_row(const struct srt_group_leg *leg, uint64_t row[SRT_GROUP_ROW_WORDS])
{
    memset(row, 0, SRT_GROUP_ROW_WORDS * sizeof *row);
    row[SRT_GROUP_ROW_LINK_STATE] = leg->state;
    row[SRT_GROUP_ROW_LINK_PEER] = leg->peer_group;
    row[SRT_GROUP_ROW_LINK_LIMIT] = leg->payload_limit;
    row[SRT_GROUP_ROW_TRIP_SRTT] = leg->srtt;
    row[SRT_GROUP_ROW_TRIP_RTTVAR] = leg->rttvar;
    row[SRT_GROUP_ROW_TRIP_HEARD] = leg->last_heard;
    row[SRT_GROUP_ROW_SENDER_NEXT] = leg->next_sequence;
    row[SRT_GROUP_ROW_SENDER_FLIGHT] = leg->flight;
    row[SRT_GROUP_ROW_SENDER_WINDOW] = leg->window;
    row[SRT_GROUP_ROW_SENDER_OLDEST] = leg->oldest_send_time;
    row[SRT_GROUP_ROW_SENDER_PACE] = leg->pace_time;
    row[SRT_GROUP_ROW_RECEIVER_FIRST] = leg->peer_first_sequence;
    row[SRT_GROUP_ROW_RECEIVER_WINDOW] = leg->receive_window;
    row[SRT_GROUP_ROW_RECEIVER_LATENCY] = leg->latency;
    row[SRT_GROUP_ROW_RECEIVER_ADVANCED] = leg->advanced;
}

SRT_GROUP_INLINE void srt_group_leg_of_row(struct srt_group_leg *leg, const uint64_t row[SRT_GROUP_ROW_WORDS])
{
    leg->state = row[SRT_GROUP_ROW_LINK_STATE];
    leg->peer_group = row[SRT_GROUP_ROW_LINK_PEER];
    leg->payload_limit = row[SRT_GROUP_ROW_LINK_LIMIT];
    leg->srtt = row[SRT_GROUP_ROW_TRIP_SRTT];
    leg->rttvar = row[SRT_GROUP_ROW_TRIP_RTTVAR];
    leg->last_heard = row[SRT_GROUP_ROW_TRIP_HEARD];
    leg->next_sequence = row[SRT_GROUP_ROW_SENDER_NEXT];
    leg->flight = row[SRT_GROUP_ROW_SENDER_FLIGHT];
    leg->window = row[SRT_GROUP_ROW_SENDER_WINDOW];
    leg->oldest_send_time = row[SRT_GROUP_ROW_SENDER_OLDEST];
    leg->pace_time = row[SRT_GROUP_ROW_SENDER_PACE];
    leg->peer_first_sequence = row[SRT_GROUP_ROW_RECEIVER_FIRST];
    leg->receive_window = row[SRT_GROUP_ROW_RECEIVER_WINDOW];
    leg->latency = row[SRT_GROUP_ROW_RECEIVER_LATENCY];
    leg->advanced = row[SRT_GROUP_ROW_RECEIVER_ADVANCED];
}

/** Adds a leg as a member: its id (32 bits, of the host's choice) and its weight (0 to 65,535, the higher is promoted first). The first leg that is
 *  connected and knows its peer's first sequence sets the base.
 *  Codes: 6; 2; 20 there are SRT_GROUP_MAX_MEMBERS; 21 a member has the id; 22 the leg is added, its send number could not be aligned. */
SRT_GROUP_INLINE enum srt_group_code srt_group_add_member(
    struct srt_group *group, uint64_t id, uint64_t weight, const struct srt_group_leg *leg)
{
    uint64_t row[SRT_GROUP_ROW_WORDS];
    srt_group_leg_to_row(leg, row);
    return (enum srt_group_code)srt_group_raw_add_member(SRT_GROUP_LENT(group), row, SRT_GROUP_ROW_WORDS, id, weight);
}

/** Removes a member. What is queued on its leg is dropped; what is held of it becomes the group's own, as far as the largest receive window goes.
 *  Codes: 6; 2; 3 no member has the id. */
SRT_GROUP_INLINE enum srt_group_code srt_group_remove_member(struct srt_group *group, uint64_t id)
{
    return (enum srt_group_code)srt_group_raw_remove_member(SRT_GROUP_LENT(group), id);
}

/** The same, and gives the leg back. Refused, it leaves *leg as it was. */
SRT_GROUP_INLINE enum srt_group_code srt_group_remove_member_connection(struct srt_group *group, uint64_t id, struct srt_group_leg *leg)
{
    uint64_t row[SRT_GROUP_ROW_WORDS] = {0};
    uint32_t code = srt_group_raw_remove_member_connection(SRT_GROUP_LENT(group), row, SRT_GROUP_ROW_WORDS, id);
    if (code == SRT_GROUP_ACCEPTED)
        srt_group_leg_of_row(leg, row);
    return (enum srt_group_code)code;
}

/** A member turns Broken: it sends no more until it is removed. Nobody is promoted for it by this call. Codes: 6; 2; 3. */
SRT_GROUP_INLINE enum srt_group_code srt_group_mark_member_broken(struct srt_group *group, uint64_t id)
{
    return (enum srt_group_code)srt_group_raw_mark_member_broken(SRT_GROUP_LENT(group), id);
}

/** The members' labels follow their legs. Polls, sends and readiness tests do the same first. Codes: 6. */
SRT_GROUP_INLINE enum srt_group_code srt_group_refresh_member_states(struct srt_group *group)
{
    return (enum srt_group_code)srt_group_raw_refresh_member_states(SRT_GROUP_LENT(group));
}

/** Every leg is disconnected; what is queued stays. Codes: 6. */
SRT_GROUP_INLINE enum srt_group_code srt_group_disconnect(struct srt_group *group, uint64_t now)
{
    return (enum srt_group_code)srt_group_raw_disconnect(SRT_GROUP_LENT(group), now);
}

/* ---- what the host reads of a leg, and what the leg receives */

/** A number that the host read of a leg, into a field of it: SRT_GROUP_FIELD_STATE and so on (docs/REPLAY.md has the fields and their ranges;
 *  SRT_GROUP_FIELD_ACKNOWLEDGE is the next number that the peer has not acknowledged).
 *  Codes: 6; 2; 3; 32 the state goes back, or the acknowledgement is not in the flight. */
SRT_GROUP_INLINE enum srt_group_code srt_group_read_leg(struct srt_group *group, uint64_t id, uint64_t field, uint64_t number)
{
    return (enum srt_group_code)srt_group_raw_read_leg(SRT_GROUP_LENT(group), id, field, number);
}

/** What is known of a DATA packet that a leg received. */
struct srt_group_received {
    uint64_t sequence;    /**< below 2^31 */
    uint64_t count;       /**< the sequence numbers that it covers, 1 to 65,535 */
    uint64_t message;     /**< message number, 32 bits */
    uint64_t timestamp;   /**< the sender's own, 32 bits */
    uint64_t source_time; /**< when it was sent, on the host's clock: with the latency, when the group gives up what is missing before it */
};

/** Puts a packet at the end of a leg's queue, and its payload into the lowest free cell of the store. A poll collects it.
 *  Codes: 6; 2; 3; 4 the payload is over SRT_GROUP_CELL bytes; 30 no free cell; 31 the queue has SRT_GROUP_MAX_QUEUED events. */
SRT_GROUP_INLINE enum srt_group_code srt_group_queue_data(
    struct srt_group *group, uint64_t id, const struct srt_group_received *data, const uint8_t *payload, size_t payload_length)
{
    return (enum srt_group_code)srt_group_raw_queue_data(SRT_GROUP_LENT(group), group->store, group->store_length, id, data->sequence,
        data->count, data->message, data->timestamp, data->source_time, payload, payload_length);
}

/** Puts a lifecycle event at the end of a leg's queue: SRT_GROUP_EVENT_CONNECTED and so on, with a reason of 32 bits. It acts when it is collected: an
 *  error or a disconnection turns the member Broken. The leg's state is read by srt_group_read_leg, not by this. Codes: 6; 2; 3; 31. */
SRT_GROUP_INLINE enum srt_group_code srt_group_queue_event(struct srt_group *group, uint64_t id, uint64_t kind, uint64_t reason)
{
    return (enum srt_group_code)srt_group_raw_queue_event(SRT_GROUP_LENT(group), id, kind, reason);
}

/* ---- polls */

/** A packet that a poll gives. Its payload stands in the output, from byte SRT_GROUP_HEAD on. */
struct srt_group_packet {
    uint64_t member;      /**< whose leg brought it */
    uint64_t sequence;    /**< its number */
    uint64_t count;       /**< the numbers that it covers; 0: there is no packet, and the fields above and below are 0 */
    uint64_t message;     /**< as it was queued */
    uint64_t timestamp;   /**< as it was queued */
    uint64_t source_time; /**< as it was queued */
    size_t length;        /**< the payload's bytes */
    bool again;           /**< of a data poll, also without a packet: it stopped with work left, poll again at once */
};

SRT_GROUP_INLINE void srt_group_packet_of_words(struct srt_group_packet *packet, const uint64_t *words)
{
    packet->member = words[0];
    packet->sequence = words[1];
    packet->count = words[2];
    packet->message = words[3];
    packet->timestamp = words[4];
    packet->source_time = words[5];
    packet->length = (size_t)words[6];
}

/** Collects from the legs and gives the next packet in order, passing at most max_events lifecycle events, which are dropped. A missing
 *  packet is passed over for good only where its waiting time is over and no queue has it (docs/WHY_A_SKIP_IS_RIGHT.md). The output has at least
 *  SRT_GROUP_OUTPUT bytes; its first SRT_GROUP_HEAD, for the host's RTP head, and those behind the payload stay. While something is held a poll
 *  collects one event only: "no packet" does not say that the queues are empty. Codes: 5 the output is too short; 6. */
SRT_GROUP_INLINE enum srt_group_code srt_group_poll_data_bounded(
    struct srt_group *group, uint64_t now, size_t max_events, uint8_t *output, size_t output_length, struct srt_group_packet *packet)
{
    uint64_t answer[SRT_GROUP_POLL_ANSWER_WORDS] = {0};
    uint32_t code = srt_group_raw_poll_data_bounded(SRT_GROUP_LENT(group), group->store, group->store_length, output, output_length, now,
        max_events, answer, SRT_GROUP_POLL_ANSWER_WORDS);
    packet->again = answer[0] != 0;
    srt_group_packet_of_words(packet, answer + 1);
    return (enum srt_group_code)code;
}

/** The same with max_events SRT_GROUP_MAX_EVENTS. */
SRT_GROUP_INLINE enum srt_group_code srt_group_poll_data(
    struct srt_group *group, uint64_t now, uint8_t *output, size_t output_length, struct srt_group_packet *packet)
{
    return srt_group_poll_data_bounded(group, now, SRT_GROUP_MAX_EVENTS, output, output_length, packet);
}

/** What an event poll gives: an event, a packet, or neither. */
struct srt_group_event {
    uint64_t kind;   /**< SRT_GROUP_EVENT_CONNECTED and so on; 0: there is no event, and the next two are 0 */
    uint64_t member; /**< on whose leg it was queued */
    uint64_t reason; /**< as it was queued */
    struct srt_group_packet packet; /**< its count is 0 where there is none; `again` is not said (srt_group_has_receive_continuation) */
};

/** Collects from the legs and gives the next lifecycle event, or else the next packet in order, as a data poll does: for hosts that want to see the
 *  events. Codes: 5 the output is too short; 6. */
SRT_GROUP_INLINE enum srt_group_code srt_group_poll_event(
    struct srt_group *group, uint64_t now, uint8_t *output, size_t output_length, struct srt_group_event *event)
{
    uint64_t answer[SRT_GROUP_POLL_ANSWER_WORDS] = {0};
    uint32_t code = srt_group_raw_poll_event(SRT_GROUP_LENT(group), group->store, group->store_length, output, output_length, now, answer,
        SRT_GROUP_POLL_ANSWER_WORDS);
    memset(event, 0, sizeof *event);
    if (answer[0] == 0) {
        srt_group_packet_of_words(&event->packet, answer + 1);
    } else {
        event->kind = answer[0];
        event->member = answer[1];
        event->reason = answer[2];
    }
    return (enum srt_group_code)code;
}

/* ---- sending */

/** A send that a leg took: the host puts it on the wire. */
struct srt_group_sent {
    uint64_t member;      /**< on whose leg */
    uint64_t sequence;    /**< the number it is sent with */
    uint64_t cell;        /**< SRT_GROUP_OWN_PAYLOAD: the call's payload; else the cell of an earlier one that is replayed */
    uint64_t source_time; /**< when that payload was first sent; for the call's own, now */
    uint64_t time;        /**< now */
};

/** What a send did, 44,016 bytes: its owner allocates it once. Rows behind `rows` stay as they were. */
struct srt_group_sends {
    struct srt_group_sent row[SRT_GROUP_MAX_SENT];
    size_t rows; /**< how many rows were filled, in order; after 22 to 29 too */
    size_t legs; /**< on how many legs the call's own payload went; 0 if refused */
};

SRT_GROUP_ASSERT(sent_is_a_row, sizeof(struct srt_group_sent) == SRT_GROUP_SENT_ROW_WORDS * sizeof(uint64_t));
SRT_GROUP_ASSERT(sends_are_the_list, SRT_GROUP_MAX_SENT * SRT_GROUP_SENT_ROW_WORDS == SRT_GROUP_SENT_WORDS);

/** Sends one payload: in Broadcast on every active leg, in Backup on the carrier, with a take-over where the carrier is silent or fails. In Backup
 *  the payload is kept in a cell until the carrier's peer acknowledges it. The Rust's send_shared is this call too.
 *  Codes: 6; 4 over SRT_GROUP_CELL bytes; 30 no free cell (Backup); 22 to 29 as docs/CODES.md has them. */
SRT_GROUP_INLINE enum srt_group_code srt_group_send(
    struct srt_group *group, uint64_t now, const uint8_t *payload, size_t payload_length, struct srt_group_sends *sends)
{
    uint64_t answer[SRT_GROUP_SEND_ANSWER_WORDS] = {0};
    uint32_t code = srt_group_raw_send(SRT_GROUP_LENT(group), group->store, group->store_length, SRT_GROUP_WORDS(sends->row), SRT_GROUP_SENT_WORDS,
        now, payload, payload_length, answer, SRT_GROUP_SEND_ANSWER_WORDS);
    sends->legs = (size_t)answer[0];
    sends->rows = (size_t)answer[1];
    return (enum srt_group_code)code;
}

/** The bytes that a row of a send names, until the next call; payload is the one that was sent. A row has no length: the host knows the length of
 *  what it sent under a number. */
SRT_GROUP_INLINE const uint8_t *srt_group_sent_payload(const struct srt_group *group, const struct srt_group_sent *sent, const uint8_t *payload)
{
    return sent->cell == SRT_GROUP_OWN_PAYLOAD ? payload : group->store + sent->cell * SRT_GROUP_CELL;
}

/** Whether a leg could take a send. The test refreshes the labels and drops acknowledged sends from the history. Codes: 6. */
SRT_GROUP_INLINE enum srt_group_code srt_group_can_send(struct srt_group *group, bool *ready)
{
    uint64_t answer = 0;
    uint32_t code = srt_group_raw_can_send(SRT_GROUP_LENT(group), &answer, SRT_GROUP_READY_ANSWER_WORDS);
    *ready = answer != 0;
    return (enum srt_group_code)code;
}

/** The same, where pacing holds a leg back until its pace time. Codes: 6. */
SRT_GROUP_INLINE enum srt_group_code srt_group_can_send_with_pacing(struct srt_group *group, uint64_t now, bool *ready)
{
    uint64_t answer = 0;
    uint32_t code = srt_group_raw_can_send_with_pacing(SRT_GROUP_LENT(group), now, &answer, SRT_GROUP_READY_ANSWER_WORDS);
    *ready = answer != 0;
    return (enum srt_group_code)code;
}

/* ---- looks: they change nothing. Codes: 6, and 2 or 3 where a member is named. */

/** The group's id. */
SRT_GROUP_INLINE enum srt_group_code srt_group_group_id(const struct srt_group *group, uint64_t *id)
{
    return (enum srt_group_code)srt_group_raw_group_id(SRT_GROUP_LENT(group), id, SRT_GROUP_LOOK_ANSWER_WORDS);
}

/** SRT_GROUP_BROADCAST or SRT_GROUP_BACKUP. */
SRT_GROUP_INLINE enum srt_group_code srt_group_mode(const struct srt_group *group, uint64_t *mode)
{
    return (enum srt_group_code)srt_group_raw_mode(SRT_GROUP_LENT(group), mode, SRT_GROUP_LOOK_ANSWER_WORDS);
}

/** The peer group that the group is bound to; 0: not yet. */
SRT_GROUP_INLINE enum srt_group_code srt_group_peer_group_id(const struct srt_group *group, uint64_t *peer)
{
    return (enum srt_group_code)srt_group_raw_peer_group_id(SRT_GROUP_LENT(group), peer, SRT_GROUP_LOOK_ANSWER_WORDS);
}

/** How many sequence numbers were passed over for good. */
SRT_GROUP_INLINE enum srt_group_code srt_group_skipped_receive_packets(const struct srt_group *group, uint64_t *skipped)
{
    return (enum srt_group_code)srt_group_raw_skipped_receive_packets(SRT_GROUP_LENT(group), skipped, SRT_GROUP_LOOK_ANSWER_WORDS);
}

/** Whether a packet is held, an event waits, or the last poll left work. */
SRT_GROUP_INLINE enum srt_group_code srt_group_has_pending_data(const struct srt_group *group, bool *pending)
{
    uint64_t answer = 0;
    uint32_t code = srt_group_raw_has_pending_data(SRT_GROUP_LENT(group), &answer, SRT_GROUP_LOOK_ANSWER_WORDS);
    *pending = answer != 0;
    return (enum srt_group_code)code;
}

/** Whether the last poll left work. */
SRT_GROUP_INLINE enum srt_group_code srt_group_has_receive_continuation(const struct srt_group *group, bool *again)
{
    uint64_t answer = 0;
    uint32_t code = srt_group_raw_has_receive_continuation(SRT_GROUP_LENT(group), &answer, SRT_GROUP_LOOK_ANSWER_WORDS);
    *again = answer != 0;
    return (enum srt_group_code)code;
}

/** How long until pacing lets a member send, in microseconds. */
SRT_GROUP_INLINE enum srt_group_code srt_group_time_until_send(const struct srt_group *group, uint64_t now, uint64_t *micros)
{
    return (enum srt_group_code)srt_group_raw_time_until_send(SRT_GROUP_LENT(group), now, micros, SRT_GROUP_LOOK_ANSWER_WORDS);
}

/** How long a member may be silent as the carrier of a Backup group, in microseconds; 0 for a leg that has never connected. */
SRT_GROUP_INLINE enum srt_group_code srt_group_backup_stability_timeout_micros(const struct srt_group *group, uint64_t id, uint64_t *micros)
{
    return (enum srt_group_code)srt_group_raw_backup_stability_timeout_micros(SRT_GROUP_LENT(group), id, micros, SRT_GROUP_LOOK_ANSWER_WORDS);
}

/** A member as it is shown. */
struct srt_group_member_shown {
    uint64_t id;                 /**< as it was added */
    uint64_t weight;             /**< as it was added */
    uint64_t label;              /**< SRT_GROUP_LABEL_PENDING and so on */
    uint64_t state;              /**< its leg's: SRT_GROUP_HANDSHAKING and so on */
    uint64_t admitted;           /**< 1: it connected, and its peer group fits */
    uint64_t reserved;           /**< the counts of what is held of it */
    uint64_t collision_expected; /**< the peer group that the group is bound to, where the member answered from another */
    uint64_t collision_actual;   /**< the one that it answered from; 0: no collision */
};

SRT_GROUP_ASSERT(member_is_its_words, sizeof(struct srt_group_member_shown) == SRT_GROUP_MEMBER_ANSWER_WORDS * sizeof(uint64_t));
SRT_GROUP_ASSERT(members_are_the_list, SRT_GROUP_MAX_MEMBERS * SRT_GROUP_MEMBER_ANSWER_WORDS == SRT_GROUP_MEMBER_LIST_WORDS);

/** One member. */
SRT_GROUP_INLINE enum srt_group_code srt_group_member(const struct srt_group *group, uint64_t id, struct srt_group_member_shown *member)
{
    return (enum srt_group_code)srt_group_raw_member(SRT_GROUP_LENT(group), id, SRT_GROUP_WORDS(member), SRT_GROUP_MEMBER_ANSWER_WORDS);
}

/** All members, in the order of their addition: `count` rows of the list, which has room for SRT_GROUP_MAX_MEMBERS. The others stay. */
SRT_GROUP_INLINE enum srt_group_code srt_group_members(
    const struct srt_group *group, struct srt_group_member_shown list[SRT_GROUP_MAX_MEMBERS], size_t *count)
{
    uint64_t answer = 0;
    uint32_t code = srt_group_raw_members(
        SRT_GROUP_LENT(group), SRT_GROUP_WORDS(list), SRT_GROUP_MEMBER_LIST_WORDS, &answer, SRT_GROUP_LOOK_ANSWER_WORDS);
    *count = (size_t)answer;
    return (enum srt_group_code)code;
}

#endif
