/* What include/srt_group.h says, tried on the archive: the lengths that the calls ask for, the word that each field of a struct is, what a refused
 * call leaves. It prints what fails, and how many tests there were. tools/library-test builds and runs it. */
#include <inttypes.h>
#include <stdio.h>
#include <stdlib.h>
#include <string.h>

#include <srt_group.h>

enum { CELLS = 40, STORE = CELLS * SRT_GROUP_CELL };

static int tests, failed;

static void same(const char *what, uint64_t is, uint64_t should_be)
{
    tests++;
    if (is == should_be)
        return;
    failed++;
    printf("%s: is %" PRIu64 ", should be %" PRIu64 "\n", what, is, should_be);
}

static struct srt_group group, before;
static struct srt_group_sends sends;
static uint8_t store[STORE], store_before[STORE], output[SRT_GROUP_OUTPUT];

static void init(uint64_t mode)
{
    same("init", srt_group_init(&group, SRT_GROUP_MASK | 5, mode, store, sizeof store), 0);
}

static struct srt_group_leg connected(uint64_t next_sequence)
{
    struct srt_group_leg leg;
    srt_group_leg_init(&leg);
    leg.state = SRT_GROUP_CONNECTED;
    leg.window = 100;
    leg.next_sequence = next_sequence;
    return leg;
}

static void add(uint64_t id, const struct srt_group_leg *leg)
{
    same("add_member", srt_group_add_member(&group, id, 3, leg), 0);
}

static uint64_t label_of(uint64_t id)
{
    struct srt_group_member_shown member;
    same("member", srt_group_member(&group, id, &member), 0);
    return member.label;
}

/* ---- the lengths: each as the header has it is taken, each that is one less is 5 */

struct lengths {
    size_t record, members, pending, waiting, history, sources;
};

static const struct lengths EXACT = {SRT_GROUP_RECORD_WORDS, SRT_GROUP_MEMBERS_WORDS, SRT_GROUP_PENDING_WORDS, SRT_GROUP_WAITING_WORDS,
    SRT_GROUP_HISTORY_WORDS, SRT_GROUP_HISTORY_WORDS};

static uint32_t look(struct lengths l)
{
    uint64_t answer;
    return srt_group_raw_mode(group.record, l.record, group.members, l.members, group.pending, l.pending, group.waiting, l.waiting,
        group.history, l.history, group.sources, l.sources, &answer, 1);
}

static void table_lengths(void)
{
    struct lengths l = EXACT;
    init(SRT_GROUP_BROADCAST);
    same("all lengths", look(l), 0);
    l = EXACT, l.record--, same("record", look(l), 5);
    l = EXACT, l.members--, same("members", look(l), 5);
    l = EXACT, l.pending--, same("pending", look(l), 5);
    l = EXACT, l.waiting--, same("waiting", look(l), 5);
    l = EXACT, l.history--, same("history", look(l), 5);
    l = EXACT, l.sources--, same("sources", look(l), 5);
}

static uint32_t poll_of(size_t output_length, size_t answer_length)
{
    uint64_t answer[SRT_GROUP_POLL_ANSWER_WORDS];
    return srt_group_raw_poll_data(SRT_GROUP_LENT(&group), store, sizeof store, output, output_length, 0, answer, answer_length);
}

static uint32_t send_of(size_t list_length, size_t answer_length)
{
    uint64_t answer[SRT_GROUP_SEND_ANSWER_WORDS];
    return srt_group_raw_send(SRT_GROUP_LENT(&group), store, sizeof store, SRT_GROUP_WORDS(sends.row), list_length, 0, output, 1, answer, answer_length);
}

static uint32_t add_of(size_t row_length)
{
    uint64_t row[SRT_GROUP_ROW_WORDS];
    struct srt_group_leg leg = connected(0);
    srt_group_leg_to_row(&leg, row);
    return srt_group_raw_add_member(SRT_GROUP_LENT(&group), row, row_length, 1, 0);
}

static uint32_t members_of(size_t list_length)
{
    static struct srt_group_member_shown list[SRT_GROUP_MAX_MEMBERS];
    uint64_t answer;
    return srt_group_raw_members(SRT_GROUP_LENT(&group), SRT_GROUP_WORDS(list), list_length, &answer, 1);
}

static void other_lengths(void)
{
    init(SRT_GROUP_BROADCAST);
    same("a short row", add_of(SRT_GROUP_ROW_WORDS - 1), 5);
    same("a row", add_of(SRT_GROUP_ROW_WORDS), 0);
    same("a short output", poll_of(SRT_GROUP_OUTPUT - 1, SRT_GROUP_POLL_ANSWER_WORDS), 5);
    same("a short answer", poll_of(SRT_GROUP_OUTPUT, SRT_GROUP_POLL_ANSWER_WORDS - 1), 5);
    same("an output", poll_of(SRT_GROUP_OUTPUT, SRT_GROUP_POLL_ANSWER_WORDS), 0);
    same("a short list of sends", send_of(SRT_GROUP_SENT_WORDS - 1, SRT_GROUP_SEND_ANSWER_WORDS), 5);
    same("a short answer of a send", send_of(SRT_GROUP_SENT_WORDS, SRT_GROUP_SEND_ANSWER_WORDS - 1), 5);
    same("a list of sends", send_of(SRT_GROUP_SENT_WORDS, SRT_GROUP_SEND_ANSWER_WORDS), 0);
    same("a short list of members", members_of(SRT_GROUP_MEMBER_LIST_WORDS - 1), 5);
    same("a list of members", members_of(SRT_GROUP_MEMBER_LIST_WORDS), 0);
}

static void init_refuses(void)
{
    struct srt_group_packet packet;
    init(SRT_GROUP_BROADCAST);
    before = group;
    same("a store below a cell", srt_group_init(&group, SRT_GROUP_MASK, SRT_GROUP_BACKUP, store, SRT_GROUP_CELL - 1), 5);
    same("mode 2", srt_group_init(&group, SRT_GROUP_MASK, 2, store, sizeof store), 2);
    same("an id of 33 bits", srt_group_init(&group, UINT64_C(0x140000000), SRT_GROUP_BACKUP, store, sizeof store), 2);
    same("an id without the bit", srt_group_init(&group, 5, SRT_GROUP_BACKUP, store, sizeof store), 1);
    same("a refused init leaves the struct", (uint64_t)memcmp(&group, &before, sizeof group), 0);
    group.store_length--;
    same("another length of the store", srt_group_poll_data(&group, 0, output, sizeof output, &packet), 5);
}

/* ---- the words of a leg */

/* What a reading puts into the leg, by its number in the Rattle sources, is given back in the field of that name. */
static void fields_read(void)
{
    struct srt_group_leg leg;
    srt_group_leg_init(&leg);
    init(SRT_GROUP_BROADCAST);
    add(7, &leg);
    same("state", srt_group_read_leg(&group, 7, SRT_GROUP_FIELD_STATE, SRT_GROUP_CONNECTED), 0);
    same("window", srt_group_read_leg(&group, 7, SRT_GROUP_FIELD_WINDOW, 102), 0);
    same("receive window", srt_group_read_leg(&group, 7, SRT_GROUP_FIELD_RECEIVE_WINDOW, 103), 0);
    same("latency", srt_group_read_leg(&group, 7, SRT_GROUP_FIELD_LATENCY, 104), 0);
    same("srtt", srt_group_read_leg(&group, 7, SRT_GROUP_FIELD_SRTT, 106), 0);
    same("rttvar", srt_group_read_leg(&group, 7, SRT_GROUP_FIELD_RTTVAR, 107), 0);
    same("heard", srt_group_read_leg(&group, 7, SRT_GROUP_FIELD_HEARD, 108), 0);
    same("pace", srt_group_read_leg(&group, 7, SRT_GROUP_FIELD_PACE, 109), 0);
    same("peer", srt_group_read_leg(&group, 7, SRT_GROUP_FIELD_PEER, 110), 0);
    same("limit", srt_group_read_leg(&group, 7, SRT_GROUP_FIELD_LIMIT, 111), 0);
    same("oldest", srt_group_read_leg(&group, 7, SRT_GROUP_FIELD_OLDEST, 112), 0);
    same("given back", srt_group_remove_member_connection(&group, 7, &leg), 0);
    same("leg.state", leg.state, SRT_GROUP_CONNECTED);
    same("leg.window", leg.window, 102);
    same("leg.receive_window", leg.receive_window, 103);
    same("leg.latency", leg.latency, 104);
    same("leg.srtt", leg.srtt, 106);
    same("leg.rttvar", leg.rttvar, 107);
    same("leg.last_heard", leg.last_heard, 108);
    same("leg.pace_time", leg.pace_time, 109);
    same("leg.peer_group", leg.peer_group, 110);
    same("leg.payload_limit", leg.payload_limit, 111);
    same("leg.oldest_send_time", leg.oldest_send_time, 112);
    same("leg.peer_first_sequence", leg.peer_first_sequence, SRT_GROUP_NO_SEQUENCE);
    same("field 13", srt_group_read_leg(&group, 7, 13, 0), 2);
}

/* A leg that was handed over comes back the same; its numbers act. */
static void leg_back(void)
{
    struct srt_group_leg leg = connected(4000), back;
    leg.flight = 3;
    leg.peer_first_sequence = 200;
    leg.advanced = 77;
    leg.srtt = 1, leg.rttvar = 2, leg.last_heard = 4, leg.oldest_send_time = 5, leg.pace_time = 6, leg.latency = 8, leg.receive_window = 9;
    memset(&back, 0xff, sizeof back);
    init(SRT_GROUP_BROADCAST);
    add(7, &leg);
    same("an acknowledgement before the flight", srt_group_read_leg(&group, 7, SRT_GROUP_FIELD_ACKNOWLEDGE, 3996), 32);
    same("removal of another", srt_group_remove_member_connection(&group, 8, &back), 3);
    same("nothing given back", back.state, UINT64_MAX);
    same("removal", srt_group_remove_member_connection(&group, 7, &back), 0);
    same("the leg is given back", (uint64_t)memcmp(&leg, &back, sizeof leg), 0);
}

/* ---- packets, sends and members by their fields */

static void packet_fields(void)
{
    struct srt_group_leg leg = connected(0);
    struct srt_group_received data = {201, 2, 33, 44, 55};
    struct srt_group_packet packet;
    leg.peer_first_sequence = 201;
    init(SRT_GROUP_BROADCAST);
    add(7, &leg);
    memset(output, 0xaa, sizeof output);
    same("queue_data", srt_group_queue_data(&group, 7, &data, (const uint8_t *)"payload", 7), 0);
    same("poll_data", srt_group_poll_data(&group, 60, output, sizeof output, &packet), 0);
    same("packet.member", packet.member, 7);
    same("packet.sequence", packet.sequence, 201);
    same("packet.count", packet.count, 2);
    same("packet.message", packet.message, 33);
    same("packet.timestamp", packet.timestamp, 44);
    same("packet.source_time", packet.source_time, 55);
    same("packet.length", packet.length, 7);
    same("packet.again", packet.again, 0);
    same("the payload", (uint64_t)memcmp(output + SRT_GROUP_HEAD, "payload", 7), 0);
    same("the byte before it", output[SRT_GROUP_HEAD - 1], 0xaa);
    same("the byte behind it", output[SRT_GROUP_HEAD + 7], 0xaa);
    same("no more", srt_group_poll_data(&group, 60, output, sizeof output, &packet), 0);
    same("no packet", packet.count + packet.sequence + packet.member + packet.length, 0);
}

/* A leg's event is passed by a data poll; what becomes of the member. */
static void event_passed(uint64_t kind, uint64_t label)
{
    struct srt_group_leg leg = connected(0);
    struct srt_group_packet packet;
    init(SRT_GROUP_BROADCAST);
    add(7, &leg);
    same("queue_event", srt_group_queue_event(&group, 7, kind, 9), 0);
    same("a poll that passes none", srt_group_poll_data_bounded(&group, 60, 0, output, sizeof output, &packet), 0);
    same("as it was", label_of(7), SRT_GROUP_LABEL_ACTIVE);
    same("a poll that passes one", srt_group_poll_data_bounded(&group, 60, 1, output, sizeof output, &packet), 0);
    same("its label", label_of(7), label);
}

/* An event poll gives it, then the packet behind it, then nothing. */
static void event_fields(uint64_t kind)
{
    struct srt_group_leg leg = connected(0);
    struct srt_group_received data = {201, 2, 33, 44, 55};
    struct srt_group_event event;
    leg.peer_first_sequence = 201;
    init(SRT_GROUP_BROADCAST);
    add(7, &leg);
    same("queue_event", srt_group_queue_event(&group, 7, kind, 9), 0);
    same("queue_data", srt_group_queue_data(&group, 7, &data, (const uint8_t *)"payload", 7), 0);
    same("a short output", srt_group_poll_event(&group, 60, output, sizeof output - 1, &event), 5);
    same("zeros", event.kind + event.member + event.reason + event.packet.count, 0);
    same("poll_event", srt_group_poll_event(&group, 60, output, sizeof output, &event), 0);
    same("event.kind", event.kind, kind), same("event.member", event.member, 7), same("event.reason", event.reason, 9);
    same("no packet with it", event.packet.count + event.packet.member + event.packet.sequence, 0);
    same("poll_event again", srt_group_poll_event(&group, 60, output, sizeof output, &event), 0);
    same("no event with it", event.kind + event.member + event.reason, 0);
    same("event.packet.member", event.packet.member, 7), same("event.packet.sequence", event.packet.sequence, 201);
    same("event.packet.count", event.packet.count, 2), same("event.packet.length", event.packet.length, 7);
    same("its payload", (uint64_t)memcmp(output + SRT_GROUP_HEAD, "payload", 7), 0);
    same("poll_event once more", srt_group_poll_event(&group, 60, output, sizeof output, &event), 0);
    same("neither", event.kind + event.packet.count, 0);
}

static void events(void)
{
    event_fields(SRT_GROUP_EVENT_CONNECTED);
    event_fields(SRT_GROUP_EVENT_ERROR);
    event_fields(SRT_GROUP_EVENT_DISCONNECTED);
    event_passed(SRT_GROUP_EVENT_CONNECTED, SRT_GROUP_LABEL_ACTIVE);
    event_passed(SRT_GROUP_EVENT_ERROR, SRT_GROUP_LABEL_BROKEN);
    event_passed(SRT_GROUP_EVENT_DISCONNECTED, SRT_GROUP_LABEL_BROKEN);
}

static void send_fields(void)
{
    struct srt_group_leg leg = connected(300);
    const uint8_t payload[3] = {1, 2, 3};
    bool ready;
    init(SRT_GROUP_BROADCAST);
    same("no leg to send on", srt_group_send(&group, 70, payload, 3, &sends), 24);
    same("no row", sends.rows + sends.legs, 0);
    same("can_send without a leg", srt_group_can_send(&group, &ready), 0);
    same("not ready", ready, 0);
    add(7, &leg);
    leg.pace_time = 90;
    add(9, &leg);
    same("can_send", srt_group_can_send(&group, &ready), 0);
    same("ready", ready, 1);
    same("send", srt_group_send(&group, 70, payload, 3, &sends), 0);
    same("sends.legs", sends.legs, 2);
    same("sends.rows", sends.rows, 2);
    same("row 0 member", sends.row[0].member, 7);
    same("row 1 member", sends.row[1].member, 9);
    same("row sequence", sends.row[1].sequence, 300);
    same("row cell", sends.row[1].cell, SRT_GROUP_OWN_PAYLOAD);
    same("row source time", sends.row[1].source_time, 70);
    same("row time", sends.row[1].time, 70);
    same("its payload", srt_group_sent_payload(&group, &sends.row[1], payload) == payload, 1);
}

/* The raw send_shared, which the header has no call for, fills the same row. */
static void send_shared(void)
{
    struct srt_group_leg leg = connected(300);
    uint64_t answer[SRT_GROUP_SEND_ANSWER_WORDS];
    init(SRT_GROUP_BROADCAST);
    add(7, &leg);
    same("send_shared", srt_group_raw_send_shared(SRT_GROUP_LENT(&group), store, sizeof store, SRT_GROUP_WORDS(sends.row), SRT_GROUP_SENT_WORDS, 80,
        output, 3, answer, SRT_GROUP_SEND_ANSWER_WORDS), 0);
    same("on one leg", answer[0], 1), same("in one row", answer[1], 1);
    same("row 0 member", sends.row[0].member, 7), same("row 0 sequence", sends.row[0].sequence, 300), same("row 0 time", sends.row[0].time, 80);
}

static void paced(void)
{
    struct srt_group_leg leg = connected(300);
    bool ready;
    init(SRT_GROUP_BROADCAST);
    leg.pace_time = 90;
    add(7, &leg);
    same("before its pace time", srt_group_can_send_with_pacing(&group, 89, &ready), 0), same("not yet", ready, 0);
    same("at its pace time", srt_group_can_send_with_pacing(&group, 90, &ready), 0), same("now", ready, 1);
}

/* A silent carrier: the other leg takes over, and the history is replayed from its cells. */
static void replayed(void)
{
    struct srt_group_leg leg = connected(300);
    const uint8_t first[3] = {1, 2, 3}, second[2] = {4, 5};
    uint64_t timeout;
    init(SRT_GROUP_BACKUP);
    add(7, &leg);
    add(9, &leg);
    same("the second leg", label_of(9), SRT_GROUP_LABEL_STANDBY);
    same("a send on the carrier", srt_group_send(&group, 70, first, 3, &sends), 0);
    same("on one leg", sends.rows, 1);
    same("stability timeout", srt_group_backup_stability_timeout_micros(&group, 7, &timeout), 0);
    same("its least", timeout, 60000);
    same("a send after its silence", srt_group_send(&group, 71 + timeout, second, 2, &sends), 0);
    same("the replay and the payload", sends.rows, 2);
    same("the other leg", sends.row[0].member, 9);
    same("the first number", sends.row[0].sequence, 300);
    same("the time it was first sent", sends.row[0].source_time, 70);
    same("the time of the replay", sends.row[0].time, 71 + timeout);
    same("a cell", sends.row[0].cell, 0);
    same("its bytes", (uint64_t)memcmp(srt_group_sent_payload(&group, &sends.row[0], second), first, 3), 0);
    same("the call's own", sends.row[1].cell, SRT_GROUP_OWN_PAYLOAD);
    same("the silent carrier", label_of(7), SRT_GROUP_LABEL_UNSTABLE);
    same("the new one", label_of(9), SRT_GROUP_LABEL_ACTIVE);
}

static void looks(void)
{
    static struct srt_group_member_shown list[SRT_GROUP_MAX_MEMBERS];
    struct srt_group_leg leg = connected(300);
    struct srt_group_received data = {202, 4, 0, 0, 0};
    struct srt_group_packet packet;
    uint64_t number;
    size_t count;
    bool truth;
    init(SRT_GROUP_BACKUP);
    leg.peer_group = SRT_GROUP_MASK | 6, leg.peer_first_sequence = 201, leg.pace_time = 500;
    add(7, &leg);
    leg.peer_group = SRT_GROUP_MASK | 8;
    add(9, &leg);
    same("queue_data", srt_group_queue_data(&group, 7, &data, output, 1), 0);
    same("poll_data", srt_group_poll_data(&group, 0, output, sizeof output, &packet), 0);
    same("group_id", srt_group_group_id(&group, &number), 0), same("its id", number, SRT_GROUP_MASK | 5);
    same("mode", srt_group_mode(&group, &number), 0), same("its mode", number, SRT_GROUP_BACKUP);
    same("peer_group_id", srt_group_peer_group_id(&group, &number), 0), same("its peer", number, SRT_GROUP_MASK | 6);
    same("has_pending_data", srt_group_has_pending_data(&group, &truth), 0), same("held", truth, 1);
    same("has_receive_continuation", srt_group_has_receive_continuation(&group, &truth), 0), same("no work", truth, 0);
    same("time_until_send", srt_group_time_until_send(&group, 100, &number), 0), same("until its pace", number, 400);
    same("members", srt_group_members(&group, list, &count), 0), same("two", count, 2);
    same("id", list[0].id, 7), same("weight", list[0].weight, 3), same("label", list[0].label, SRT_GROUP_LABEL_ACTIVE);
    same("state", list[0].state, SRT_GROUP_CONNECTED), same("admitted", list[0].admitted, 1), same("reserved", list[0].reserved, 4);
    same("the other's label", list[1].label, SRT_GROUP_LABEL_BROKEN);
    same("member", srt_group_member(&group, 9, &list[0]), 0);
    same("the same member", (uint64_t)memcmp(&list[0], &list[1], sizeof list[0]), 0);
    same("collision_expected", list[0].collision_expected, SRT_GROUP_MASK | 6);
    same("collision_actual", list[0].collision_actual, SRT_GROUP_MASK | 8);
    same("no such member", srt_group_member(&group, 8, &list[0]), 3), same("zeros", list[0].id, 0);
}

static void states(void)
{
    struct srt_group_leg leg = connected(0);
    struct srt_group_member_shown member;
    init(SRT_GROUP_BROADCAST);
    add(7, &leg);
    same("mark_member_broken", srt_group_mark_member_broken(&group, 7), 0);
    same("broken", label_of(7), SRT_GROUP_LABEL_BROKEN);
    leg.state = SRT_GROUP_HANDSHAKING;
    add(8, &leg);
    same("pending", label_of(8), SRT_GROUP_LABEL_PENDING);
    same("refresh_member_states", srt_group_refresh_member_states(&group), 0);
    same("disconnect", srt_group_disconnect(&group, 5), 0);
    same("member again", srt_group_member(&group, 7, &member), 0), same("disconnected", member.state, SRT_GROUP_DISCONNECTED);
    same("remove_member", srt_group_remove_member(&group, 7), 0);
    same("removed", srt_group_remove_member(&group, 7), 3);
}

/* ---- refusals leave the group and the store as they were */

static void unchanged(const char *what, enum srt_group_code code, uint64_t should_be)
{
    same(what, code, should_be);
    same(what, (uint64_t)(memcmp(&group, &before, sizeof group) != 0) + (uint64_t)(memcmp(store, store_before, sizeof store) != 0), 0);
}

static void refusals(void)
{
    static uint8_t payload[SRT_GROUP_CELL + 1];
    struct srt_group_leg leg = connected(0);
    struct srt_group_received data = {0, 1, 0, 0, 0};
    int i;
    init(SRT_GROUP_BROADCAST);
    add(7, &leg);
    for (i = 0; i < (int)SRT_GROUP_MAX_QUEUED; i++)
        same("queue_data", srt_group_queue_data(&group, 7, &data, payload, SRT_GROUP_CELL), 0);
    before = group;
    memcpy(store_before, store, sizeof store);
    unchanged("a full queue", srt_group_queue_data(&group, 7, &data, payload, 0), 31);
    unchanged("a long payload", srt_group_queue_data(&group, 7, &data, payload, sizeof payload), 4);
    unchanged("an unknown leg", srt_group_queue_data(&group, 8, &data, payload, 0), 3);
    unchanged("a long payload to send", srt_group_send(&group, 0, payload, sizeof payload, &sends), 4);
    unchanged("a second leg of the id", srt_group_add_member(&group, 7, 0, &leg), 21);
    unchanged("a state that goes back", srt_group_read_leg(&group, 7, SRT_GROUP_FIELD_STATE, SRT_GROUP_HANDSHAKING), 32);
    unchanged("an unknown kind", srt_group_queue_event(&group, 7, 4, 0), 2);
    data.sequence = UINT64_C(1) << 31;
    unchanged("a sequence of 2^31", srt_group_queue_data(&group, 7, &data, payload, 0), 2);
    leg.state = 3;
    unchanged("a leg in no state", srt_group_add_member(&group, 8, 0, &leg), 2);
    group.record[2] = 2;
    before = group;
    unchanged("a broken record", srt_group_refresh_member_states(&group), 6);
}

static void texts(void)
{
    uint32_t code, known = 0;
    for (code = 0; code < 100; code++)
        known += strcmp(srt_group_strerror(code), "unknown code") != 0;
    same("codes with a text", known, 20);
    same("accepted", (uint64_t)strcmp(srt_group_strerror(0), "accepted"), 0);
}

int main(void)
{
    table_lengths();
    other_lengths();
    init_refuses();
    fields_read();
    leg_back();
    packet_fields();
    events();
    send_fields();
    send_shared();
    paced();
    replayed();
    looks();
    states();
    refusals();
    texts();
    printf("%d tests, %d failed\n", tests, failed);
    return failed != 0;
}
