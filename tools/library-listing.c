/* The replay of document 01 through include/srt_group.h: a listing on standard input, its answers on standard output. It is no part of the library:
 * tools/library-test compares what it prints with the Rust's stored answers, so that the archive is tried as C programs call it. */
#include <inttypes.h>
#include <stdio.h>
#include <string.h>

#include <srt_group.h>

enum { COLUMNS = 8, WIDTH = 11, LINE = COLUMNS * WIDTH, CELLS = 40 };

static struct srt_group group;
static struct srt_group_sends sends;
static uint8_t store[CELLS * SRT_GROUP_CELL], output[SRT_GROUP_OUTPUT];
static bool made;

/* Spaces, then digits to the right edge. */
static bool read_column(const char *text, uint64_t *number)
{
    int i = 0;
    while (i < WIDTH && text[i] == ' ')
        i++;
    if (i == WIDTH)
        return false;
    for (*number = 0; i < WIDTH; i++) {
        if (text[i] < '0' || text[i] > '9')
            return false;
        *number = *number * 10 + (uint64_t)(text[i] - '0');
    }
    return true;
}

static enum srt_group_code add(const uint64_t *c)
{
    struct srt_group_leg leg;
    srt_group_leg_init(&leg);
    leg.state = c[3];
    leg.next_sequence = c[4];
    leg.peer_first_sequence = c[5];
    leg.window = c[6];
    leg.latency = c[7];
    return srt_group_add_member(&group, c[1], c[2], &leg);
}

static enum srt_group_code queue(const uint64_t *c)
{
    struct srt_group_received data;
    uint8_t payload = (uint8_t)c[5];
    if (c[5] > 255)
        return SRT_GROUP_OUT_OF_RANGE;
    memset(&data, 0, sizeof data);
    data.sequence = c[2];
    data.count = c[3];
    data.source_time = c[4];
    return srt_group_queue_data(&group, c[1], &data, &payload, 1);
}

static enum srt_group_code poll(const uint64_t *c, uint64_t *answer)
{
    struct srt_group_packet packet;
    enum srt_group_code code = srt_group_poll_data(&group, c[1], output, sizeof output, &packet);
    answer[0] = packet.member;
    answer[1] = packet.sequence;
    answer[2] = packet.count;
    return code == SRT_GROUP_ACCEPTED ? srt_group_skipped_receive_packets(&group, &answer[3]) : code;
}

static enum srt_group_code send_byte(const uint64_t *c, uint64_t *answer)
{
    uint8_t payload = (uint8_t)c[1];
    enum srt_group_code code;
    if (c[1] > 255)
        return SRT_GROUP_OUT_OF_RANGE;
    code = srt_group_send(&group, c[2], &payload, 1, &sends);
    answer[0] = sends.legs;
    return code;
}

static enum srt_group_code make(const uint64_t *c)
{
    enum srt_group_code code = srt_group_init(&group, c[1], c[2], store, sizeof store);
    made = made || code == SRT_GROUP_ACCEPTED;
    return code;
}

static enum srt_group_code call(const uint64_t *c, uint64_t *answer)
{
    if (c[0] != 1 && !made)
        return SRT_GROUP_INVALID_STATE;
    switch (c[0]) {
    case 1: return make(c);
    case 2: return add(c);
    case 3: return srt_group_read_leg(&group, c[1], c[2], c[3]);
    case 4: return queue(c);
    case 5: return poll(c, answer);
    case 6: return send_byte(c, answer);
    case 7: return srt_group_remove_member(&group, c[1]);
    case 8: return srt_group_mark_member_broken(&group, c[1]);
    default: return srt_group_queue_event(&group, c[1], c[2], c[3]);
    }
}

static void answer_line(const char *text, size_t length)
{
    uint64_t c[COLUMNS] = {0}, answer[4] = {0};
    enum srt_group_code code = SRT_GROUP_OUT_OF_RANGE;
    bool formed = length == LINE;
    int i;
    for (i = 0; formed && i < COLUMNS; i++)
        formed = read_column(text + i * WIDTH, &c[i]);
    formed = formed && 1 <= c[0] && c[0] <= 9;
    if (formed)
        code = call(c, answer);
    printf("%11" PRIu64 "%11d", formed ? c[0] : 0, (int)code);
    for (i = 0; i < 4; i++)
        printf("%11" PRIu64, answer[i]);
    printf("\n");
}

int main(void)
{
    char text[LINE];
    size_t length = 0;
    int byte;
    while ((byte = getchar()) != EOF) {
        if (byte == '\n') {
            answer_line(text, length);
            length = 0;
        } else {
            if (length < LINE)
                text[length] = (char)byte;
            length++;
        }
    }
    if (length > 0)
        answer_line(text, length);
    return 0;
}
