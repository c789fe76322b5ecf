/* Writes a packet of each family, reads it back, shows refusals, and passes a proposal on by a merge. include/check
   builds and runs it; by hand, from the top of the repository:

       tools/build packets_c
       gcc -std=c11 -Wall -Wextra -Werror -Iinclude include/example.c target/staticlib/libpackets_c.a -o target/example
       target/example
*/
#include <inttypes.h>
#include <stdio.h>
#include "packets.h"

static const char *const phases[] = {"Prepare", "Committed", "Aborted"};

static void show_text(const uint8_t *text, uint64_t len)
{
    printf("%.*s (%" PRIu64 " bytes)\n", (int)len, (const char *)text, len);
}

static void show_refusal(const char *what, uint64_t refusal)
{
    printf("%s: refusal %" PRIu64 "\n", what, refusal);
}

static int capture(void)
{
    const uint64_t numbers[CE_NUMBERS] = {1, 0, 3, 2, 1};
    const uint8_t data[] = {'t', 'x', '1'};
    uint8_t text[CE_LONGEST];
    uint64_t len = 0;
    if (ce_packet_write(numbers, CE_NUMBERS, data, sizeof data, text, sizeof text, 0, &len) != 0)
        return 1;
    show_text(text, len);

    uint64_t back[CE_NUMBERS];
    uint8_t bytes[PACKET_DATA];
    if (ce_packet_read(text, sizeof text, len, back, CE_NUMBERS, bytes, sizeof bytes) != 0)
        return 1;
    printf("term %" PRIu64 ", %s, %" PRIu64 " bytes of data, %" PRIu64 " entries, marks %" PRIu64 "\n",
           back[CE_TERM], phases[back[CE_PHASE]], back[CE_DATA_LEN], back[CE_BITMAP_LEN], back[CE_MARKS]);

    /* A text that is cut short is refused, and so are a buffer that is one byte short and a mark of an entry that the
       bitmap does not have. */
    show_refusal("cut text", ce_packet_read(text, sizeof text, len - 1, back, CE_NUMBERS, bytes, sizeof bytes));
    show_refusal("short buffer", ce_packet_write(numbers, CE_NUMBERS, data, sizeof data, text, len - 1, 0, &len));
    const uint64_t stray[CE_NUMBERS] = {1, 0, 3, 2, 5};
    show_refusal("stray mark", ce_packet_write(stray, CE_NUMBERS, data, sizeof data, text, sizeof text, 0, &len));
    return 0;
}

static int pipeline(void)
{
    const uint64_t numbers[PIPELINE_NUMBERS] = {7, 0, 4, 5, 0, 3, 0, 2, 1, 3, 1, 1};
    uint8_t text[PIPELINE_LONGEST];
    uint64_t len = 0;
    if (pipeline_packet_write(numbers, PIPELINE_NUMBERS, NULL, 0, text, sizeof text, 0, &len) != 0)
        return 1;
    show_text(text, len);

    uint64_t back[PIPELINE_NUMBERS];
    uint8_t bytes[PACKET_DATA];
    if (pipeline_packet_read(text, sizeof text, len, back, PIPELINE_NUMBERS, bytes, sizeof bytes) != 0)
        return 1;
    for (int i = 0; i < PIPELINE_NUMBERS; i++)
        if (back[i] != numbers[i])
            return 1;
    printf("transaction %" PRIu64 ", %s, nack %" PRIu64 ", sender %" PRIu64 ", piggyback of %" PRIu64 ": %s\n",
           back[PIPELINE_TRANSACTION_ID], phases[back[PIPELINE_STATE]], back[PIPELINE_NACK_TX_ID],
           back[PIPELINE_SENDER], back[PIPELINE_PIGGYBACK_TX], phases[back[PIPELINE_PIGGYBACK_STATE]]);
    return 0;
}

/* Position 0 of two proposes, and position 1, which held nothing, merges what it hears: all votes are in, so it
   commits. */
static int merge(void)
{
    uint8_t sent[CE_LONGEST], held[CE_LONGEST];
    uint64_t sent_len = 0, held_len = 0, news = 0;
    if (ce_packet_propose(0, 2, 0, 0.0, 0, sent, sizeof sent, &sent_len) != 0)
        return 1;
    show_text(sent, sent_len);
    if (ce_packet_merge(held, sizeof held, &held_len, sent, sizeof sent, sent_len, 2, 1, 0.0, 0, &news) != 0)
        return 1;
    printf("news: %" PRIu64 "\n", news);
    show_text(held, held_len);
    show_refusal("position 2 of 2",
                 ce_packet_merge(held, sizeof held, &held_len, sent, sizeof sent, sent_len, 2, 2, 0.0, 0, &news));
    return 0;
}

/* Whether two positions vote no in term 1 of a room with this seed. */
static int vote(void)
{
    const uint64_t seed = UINT64_C(0x61C8864680B583EC);
    for (uint64_t v = 0; v < 2; v++)
        printf("position %" PRIu64 " votes %s\n", v, ce_vote(1, v, 0.0005, seed) ? "no" : "yes");
    return 0;
}

int main(void)
{
    return capture() || pipeline() || merge() || vote();
}
