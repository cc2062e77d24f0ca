/* A gateway that receives a programme over two legs, and sends one payload. Packet 102 is lost on the first leg alone, packet 104 on both: the
 * group gives 102 from the second leg, waits for 104 as long as the latency says, and then passes over it for good.
 *
 *     tools/library                                                   makes out/libsrt_group.a
 *     cc -std=c99 -Iinclude -o gateway examples/gateway.c out/libsrt_group.a
 *     ./gateway
 *
 * What it prints stands in gateway.out. A clock of its own, in microseconds, stands for the host's, so that every run prints the same. */
#include <inttypes.h>
#include <stdio.h>
#include <stdlib.h>
#include <string.h>

#include <srt_group.h>

enum { CELLS = 40, FIRST = 100, INTERVAL = 1000, LATENCY = 120000 };

static const uint64_t LEG_A = 7, LEG_B = 9;

static void say(uint64_t now, const char *call, enum srt_group_code code)
{
    printf("%7" PRIu64 "  %s: code %d, %s\n", now, call, (int)code, srt_group_strerror(code));
}

/* For calls that this program never makes wrong. */
static void must(enum srt_group_code code)
{
    if (code != SRT_GROUP_ACCEPTED) {
        fprintf(stderr, "refused: %s\n", srt_group_strerror(code));
        exit(1);
    }
}

static void add_leg(struct srt_group *group, uint64_t id)
{
    struct srt_group_leg leg;
    srt_group_leg_init(&leg);
    leg.state = SRT_GROUP_CONNECTED;
    leg.window = 8192;
    leg.latency = LATENCY;
    leg.next_sequence = 5000;
    leg.peer_first_sequence = FIRST;
    must(srt_group_add_member(group, id, 0, &leg));
}

static uint64_t sent_at(uint64_t sequence)
{
    return (sequence - FIRST) * INTERVAL;
}

/* A leg brings a packet. */
static void arrive(struct srt_group *group, uint64_t leg, uint64_t sequence)
{
    char payload[32];
    struct srt_group_received data;
    int length = snprintf(payload, sizeof payload, "frame %" PRIu64, sequence);
    memset(&data, 0, sizeof data);
    data.sequence = sequence;
    data.count = 1;
    data.source_time = sent_at(sequence);
    must(srt_group_queue_data(group, leg, &data, (const uint8_t *)payload, (size_t)length));
}

/* Polls while packets come, and prints each. */
static void drain(struct srt_group *group, uint64_t now)
{
    uint8_t output[SRT_GROUP_OUTPUT] = "RTP head...";
    struct srt_group_packet packet;
    do {
        must(srt_group_poll_data(group, now, output, sizeof output, &packet));
        if (packet.count != 0)
            printf("%7" PRIu64 "  packet %" PRIu64 " from leg %" PRIu64 ": %s '%.*s'\n", now, packet.sequence, packet.member,
                (const char *)output, (int)packet.length, (const char *)output + SRT_GROUP_HEAD);
    } while (packet.count != 0 || packet.again);
}

static void print_skipped(const struct srt_group *group, uint64_t now)
{
    uint64_t skipped;
    must(srt_group_skipped_receive_packets(group, &skipped));
    printf("%7" PRIu64 "  skipped so far: %" PRIu64 "\n", now, skipped);
}

static void receive(struct srt_group *group)
{
    uint64_t sequence, now = 0;
    for (sequence = FIRST; sequence <= FIRST + 5; sequence++) {
        now = sent_at(sequence) + 20000;
        if (sequence == FIRST + 4)
            continue;
        if (sequence != FIRST + 2)
            arrive(group, LEG_A, sequence);
        drain(group, now);
        arrive(group, LEG_B, sequence);
        drain(group, now + 100);
    }
    now = sent_at(FIRST + 5) + LATENCY;
    print_skipped(group, now - 1);
    drain(group, now - 1);
    drain(group, now);
    print_skipped(group, now);
}

static void send_payload(struct srt_group *group, struct srt_group_sends *sends, uint64_t now)
{
    const uint8_t payload[] = "a payload";
    size_t i;
    must(srt_group_send(group, now, payload, sizeof payload, sends));
    for (i = 0; i < sends->rows; i++)
        printf("%7" PRIu64 "  to the wire of leg %" PRIu64 ": sequence %" PRIu64 ", '%s'\n", now, sends->row[i].member, sends->row[i].sequence,
            (const char *)srt_group_sent_payload(group, &sends->row[i], payload));
}

/* What the group refuses, by number; it has changed nothing. */
static void refused(struct srt_group *group, uint64_t now)
{
    uint8_t output[SRT_GROUP_OUTPUT];
    struct srt_group_packet packet;
    struct srt_group_received data = {FIRST + 6, 0, 0, 0, 0};
    say(now, "poll_data with a short output", srt_group_poll_data(group, now, output, sizeof output - 1, &packet));
    say(now, "queue_data of a packet with count 0", srt_group_queue_data(group, LEG_A, &data, output, 0));
    say(now, "remove_member of leg 8", srt_group_remove_member(group, 8));
}

static void remove_leg(struct srt_group *group, uint64_t id, uint64_t now)
{
    struct srt_group_leg leg;
    must(srt_group_remove_member_connection(group, id, &leg));
    printf("%7" PRIu64 "  leg %" PRIu64 " is given back, its next sequence %" PRIu64 ", in flight %" PRIu64 "\n", now, id, leg.next_sequence,
        leg.flight);
}

int main(void)
{
    struct srt_group *group = (struct srt_group *)malloc(sizeof *group);
    struct srt_group_sends *sends = (struct srt_group_sends *)malloc(sizeof *sends);
    uint8_t *store = (uint8_t *)malloc(CELLS * SRT_GROUP_CELL);
    if (group == NULL || sends == NULL || store == NULL)
        return 1;
    must(srt_group_init(group, SRT_GROUP_MASK | 1, SRT_GROUP_BROADCAST, store, CELLS * SRT_GROUP_CELL));
    add_leg(group, LEG_A);
    add_leg(group, LEG_B);
    receive(group);
    send_payload(group, sends, 130000);
    refused(group, 131000);
    remove_leg(group, LEG_B, 132000);
    free(store);
    free(sends);
    free(group);
    return 0;
}
