/* The packet entries of libpackets_c.a, for C and C++.

   A slice is two parameters: a pointer and the number of its elements, which must all be there. The pointer of a slice
   of 0 elements may be null, no other.

   A pointer to one number (next, local_len, news) may not be null, also where the call is refused. These numbers lie
   apart from each other and from every slice. A slice that is written (not const) overlaps no other slice; slices that
   are only read may overlap each other.

   Nothing of this is tested: a call that breaks it may do anything. All else is answered. Each call but ce_vote
   answers with its refusal, 0 for none: 9 for a text or numbers that are those of no packet within the limits, 10 for
   a slice that is too short. A refused call writes nothing, neither a slice nor a single number. */
#ifndef PACKETS_H
#define PACKETS_H
#include <stddef.h>
#include <stdint.h>

#ifdef __cplusplus
extern "C" {
#endif

/* The numbers of a capture packet (CeTwoPcPacket). */
enum {
    CE_TERM,
    CE_PHASE,         /* 0 Prepare, 1 Committed, 2 Aborted */
    CE_DATA_LEN,      /* at most 32 */
    CE_BITMAP_LEN,    /* at most 64 */
    CE_MARKS,         /* entry i of the bitmap is bit i; 0 in every bit at or above CE_BITMAP_LEN */
    CE_NUMBERS
};

/* The numbers of a pipeline packet (TwoPcPacket). Phases, lengths and marks as above. */
enum {
    PIPELINE_TRANSACTION_ID,
    PIPELINE_STATE,
    PIPELINE_BITMAP_LEN,
    PIPELINE_MARKS,
    PIPELINE_ABORT_FLAG,            /* 0 or 1 */
    PIPELINE_NACK_TX_ID,
    PIPELINE_DATA_LEN,
    PIPELINE_SENDER,
    PIPELINE_HAS_PIGGYBACK_TX,      /* 0 or 1 */
    PIPELINE_PIGGYBACK_TX,          /* 0 if there is none */
    PIPELINE_HAS_PIGGYBACK_STATE,   /* 0 or 1 */
    PIPELINE_PIGGYBACK_STATE,       /* a phase; 0 if there is none */
    PIPELINE_NUMBERS
};

enum { PACKET_DATA = 32, CE_LONGEST = 596, PIPELINE_LONGEST = 758 };

/* Reads the packet whose text the first text_len bytes of text are. The first CE_NUMBERS of numbers become its
   numbers, the first PACKET_DATA of data its data with zeros behind it; what lies behind them stays.
   10 for a text_len over text_count and for fewer than CE_NUMBERS numbers or PACKET_DATA bytes, then 9 for any text
   that is no packet's. */
uint64_t ce_packet_read(const uint8_t *text, size_t text_count, uint64_t text_len,
                        uint64_t *numbers, size_t numbers_count,
                        uint8_t *data, size_t data_count);

/* Writes the text of the packet that the first CE_NUMBERS of numbers and the first CE_DATA_LEN bytes of data say into
   buf from index at on; *next becomes the index behind it, and all other bytes of buf stay. What is written is read
   back as these numbers and these bytes.
   10 for too few numbers or too little data; then 9 for numbers that no packet has: a phase above 2, a length over its
   limit, a mark at or above the bitmap's length; then 10 for a text that does not fit. */
uint64_t ce_packet_write(const uint64_t *numbers, size_t numbers_count,
                         const uint8_t *data, size_t data_count,
                         uint8_t *buf, size_t buf_count, uint64_t at, uint64_t *next);

/* The same for pipeline packets, with PIPELINE_NUMBERS numbers. 9 also for a flag above 1, and for a piggyback number
   that is not 0 beside the 0 that says that there is none. */
uint64_t pipeline_packet_read(const uint8_t *text, size_t text_count, uint64_t text_len,
                              uint64_t *numbers, size_t numbers_count,
                              uint8_t *data, size_t data_count);

uint64_t pipeline_packet_write(const uint64_t *numbers, size_t numbers_count,
                               const uint8_t *data, size_t data_count,
                               uint8_t *buf, size_t buf_count, uint64_t at, uint64_t *next);

/* Merges the received text into the local one for position node_id of n, where each position votes by the abort
   probability and the seed. The local text is the first *local_len bytes of local (0: none), the received one the
   first received_len of received. *news becomes 1 if there is news, and then local holds the new text and *local_len
   its length, the bytes behind it as they were; or 0, and local and *local_len are as they were.
   2 for n outside 1 to 64, 8 for a position that is none of them, 10 for a stated length over its buffer, in this
   order and before any text is read; a text that is no packet's is no news; 10 for a new text that does not fit. */
uint64_t ce_packet_merge(uint8_t *local, size_t local_count, uint64_t *local_len,
                         const uint8_t *received, size_t received_count, uint64_t received_len,
                         uint64_t n, uint64_t node_id, double abort_probability, uint64_t seed,
                         uint64_t *news);

/* Writes the text of what position initiator of n holds after proposing in a room whose term was `term` to the start
   of buf; *next becomes its length. 2 and 8 as above, 13 for the last term there is, 10 for a text that does not
   fit. */
uint64_t ce_packet_propose(uint64_t term, uint64_t n, uint64_t initiator, double abort_probability, uint64_t seed,
                           uint8_t *buf, size_t buf_count, uint64_t *next);

/* 1 if the position votes no in the term, 0 if it votes yes. Nothing is refused. */
uint64_t ce_vote(uint64_t term, uint64_t node_id, double abort_probability, uint64_t seed);

#ifdef __cplusplus
}
#endif

#endif
