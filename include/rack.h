/*
 * The terminal's side of T=1 for a rack of eight slots that put card responses together in one pool of 96 cells.
 *
 * The table is lent by the caller and holds all that there is between calls; the library keeps and allocates nothing.
 * For all six calls:
 *   - A call returns 0, or the number of its refusal: the lowest that applies.
 *   - A record of 64 bytes or more gets the whole answer in its first 64 bytes, unused bytes 0. A shorter one is never
 *     written.
 *   - A refusal changes no byte of table and output; in the record all but the number is 0.
 *   - Bytes beyond the first 32,768 of the table are neither read nor written.
 *   - A block to send is written at the front of the output, by collect the response; all other bytes of it stay.
 * The caller answers for this:
 *   - No pointer is null, also where its length is 0, and each has as many bytes behind it as its length says.
 *   - The buffers of one call do not overlap.
 *   - No two calls at once on one table, and nobody but the library writes the table.
 */
#ifndef RACK_H
#define RACK_H

#include <stddef.h>
#include <stdint.h>

#ifdef __cplusplus
extern "C" {
#endif

/* Sizes, in bytes where not said otherwise. */
#define RACK_TABLE_SIZE 32768u
#define RACK_RECORD_SIZE 64u
#define RACK_OUTPUT_SIZE 258u /* least output of attach, command and event: the longest block */
#define RACK_SLOTS 8u         /* slots are numbered 0 to 7 */
#define RACK_CELLS 96u        /* cells of the pool; a cell holds the INF of one I-block */
#define RACK_CELL_SIZE 254u
#define RACK_COMMAND_MAX 261u
#define RACK_ATR_MAX 33u
#define RACK_RESPONSE_MAX (RACK_CELLS * RACK_CELL_SIZE) /* 24,384 */

/* What a call returns. */
#define RACK_OK 0u
#define RACK_REFUSED_TABLE 1u         /* table too short, or (all but open) not sound */
#define RACK_REFUSED_SHARES 2u        /* share above its ceiling, ceiling above 96, or shares above 96 together */
#define RACK_REFUSED_SLOT 3u          /* slot above 7 */
#define RACK_REFUSED_STATE 4u         /* the slot is not in a state that the call needs */
#define RACK_REFUSED_BUFFER 5u        /* record or output too short */
#define RACK_REFUSED_KIND 6u          /* event kind above 2 */
#define RACK_REFUSED_COMMAND 7u       /* command form wrong */
#define RACK_REFUSED_ATR_START 8u     /* ATR starts with neither 3B nor 3F */
#define RACK_REFUSED_ATR_LENGTH 9u    /* ATR shorter or longer than it says, or above 33 bytes */
#define RACK_REFUSED_ATR_CHECK 10u    /* TCK wrong */
#define RACK_REFUSED_ATR_PROTOCOL 11u /* not T=1 on the library's terms */
#define RACK_REFUSED_ATR_PARAMETER 12u

/* The ending in the answer that ends a slot; its cells are free at once. */
#define RACK_ENDED_NO_CELL 20u  /* the pool gave no cell for an I-block */
#define RACK_ENDED_GOES 21u     /* three goes used */
#define RACK_ENDED_ABORT 22u    /* the card asked to abort */
#define RACK_ENDED_ONE_BYTE 23u /* response of one byte */
#define RACK_ENDED_REQUESTS 24u /* the card's 256th request (IFS or WTX) since the command */

/* The state of a slot. */
#define RACK_STATE_EMPTY 0u    /* attach it */
#define RACK_STATE_GREETING 1u /* S(IFS request) is out: hand over events */
#define RACK_STATE_READY 2u    /* takes a command */
#define RACK_STATE_BUSY 3u     /* a command runs: hand over events */
#define RACK_STATE_DONE 4u     /* the response is whole: collect it */
#define RACK_STATE_ENDED 5u    /* remove it */

/* The kind of an event. */
#define RACK_EVENT_BYTES 0u   /* a block's bytes, with good parity */
#define RACK_EVENT_PARITY 1u  /* a parity fault; bytes are not looked at */
#define RACK_EVENT_SILENCE 2u /* nothing within the wait; bytes are not looked at */

/* Offsets in the record. Numbers of several bytes have the high byte first. */
#define RACK_AT_NUMBER 0u              /* 1 byte */
#define RACK_AT_STATE 1u               /* 1 */
#define RACK_AT_ENDING 2u              /* 1 */
#define RACK_AT_BLOCKS_SENT 4u         /* 4 */
#define RACK_AT_WRITTEN 8u             /* 4 */
#define RACK_AT_WAIT 12u               /* 4 */
#define RACK_AT_IFSC 16u               /* 1; from here on attach's alone */
#define RACK_AT_D_IN_USE 17u           /* 1 */
#define RACK_AT_HISTORICAL_COUNT 18u   /* 1 */
#define RACK_AT_D_OFFERED 19u          /* 1 */
#define RACK_AT_F_OFFERED 20u          /* 2 */
#define RACK_AT_CHARACTER_DISTANCE 22u /* 2 */
#define RACK_AT_CWT 24u                /* 4 */
#define RACK_AT_BWT 28u                /* 4 */

/*
 * Makes a fresh table: all eight slots empty, all cells free. It writes all 32,768 bytes, whatever they were.
 * The share of a slot is the number of cells it always gets; the ceiling is the most it ever holds. Between the two it
 * gets a cell when more are free than the other slots together lack to their shares.
 * Refusals: 1 (length alone), 2, 5. Record: state empty.
 */
uint64_t rack_open(uint8_t *table, size_t table_len, const uint8_t shares[8], const uint8_t ceilings[8],
                   uint8_t *record, size_t record_len);

/*
 * Takes the ATR of the card in an empty slot. The output gets S(IFS request) with FE, and the slot is greeting.
 * Refusals: 1, 3, 4, 5, 8 to 12. Record: also the fields from RACK_AT_IFSC on, which only attach fills.
 */
uint64_t rack_attach(uint8_t *table, size_t table_len, uint64_t slot, const uint8_t *atr, size_t atr_len, uint8_t *out,
                     size_t out_len, uint8_t *record, size_t record_len);

/*
 * Starts a command on a ready slot. The output gets its first I-block, and the slot is busy. The bytes are copied.
 * Forms: 4 bytes; 5; 5 + L or 6 + L with L, the fifth byte, from 1 to 255.
 * Refusals: 1, 3, 4, 5, 7.
 */
uint64_t rack_command(uint8_t *table, size_t table_len, uint64_t slot, const uint8_t *bytes, size_t bytes_len,
                      uint8_t *out, size_t out_len, uint8_t *record, size_t record_len);

/*
 * Hands over what came from the card of a greeting or busy slot: a block, a parity fault, or silence. The state in the
 * record says what follows. Greeting or busy: the output has the block to send. Ready: the card answered the greeting.
 * Done: collect. Ended: the ending says why.
 * Refusals: 1, 3, 4, 5 (also where no block would go out), 6. A faulty block is no refusal.
 */
uint64_t rack_event(uint8_t *table, size_t table_len, uint64_t slot, uint64_t kind, const uint8_t *bytes,
                    size_t bytes_len, uint8_t *out, size_t out_len, uint8_t *record, size_t record_len);

/*
 * Copies the response of a done slot to the front of the output and frees its cells; the slot is ready.
 * Refusals: 1, 3, 4, 5 (record, or output shorter than the response: nothing is lost, call again with a longer
 * one).
 */
uint64_t rack_collect(uint8_t *table, size_t table_len, uint64_t slot, uint8_t *out, size_t out_len, uint8_t *record,
                      size_t record_len);

/*
 * Takes the card out of a slot in any state but empty: its cells are free, the slot is empty and can be attached anew.
 * Refusals: 1, 3, 4, 5 (record).
 */
uint64_t rack_remove(uint8_t *table, size_t table_len, uint64_t slot, uint8_t *record, size_t record_len);

/* The number of 2 or 4 bytes at an offset of a record, high byte first. */
static inline uint32_t rack_record_two(const uint8_t *record, size_t at)
{
    const uint32_t high = record[at];
    return high << 8 | record[at + 1];
}

static inline uint32_t rack_record_four(const uint8_t *record, size_t at)
{
    return rack_record_two(record, at) << 16 | rack_record_two(record, at + 2);
}

/* RACK_OK, or the number of the refusal. */
static inline uint32_t rack_record_number(const uint8_t *record)
{
    return record[RACK_AT_NUMBER];
}

/* The slot's state after the call. */
static inline uint32_t rack_record_state(const uint8_t *record)
{
    return record[RACK_AT_STATE];
}

/* The ending, in the answer that ends the slot; else 0. */
static inline uint32_t rack_record_ending(const uint8_t *record)
{
    return record[RACK_AT_ENDING];
}

/* Blocks sent since the command (or attach), repeats counted; 0 from open, collect and remove. */
static inline uint32_t rack_record_blocks_sent(const uint8_t *record)
{
    return rack_record_four(record, RACK_AT_BLOCKS_SENT);
}

/* Bytes written to the front of the output; 0 if none. */
static inline uint32_t rack_record_written(const uint8_t *record)
{
    return rack_record_four(record, RACK_AT_WRITTEN);
}

/* The wait for the card's answer, in etu; 0 if no block is sent. */
static inline uint32_t rack_record_wait(const uint8_t *record)
{
    return rack_record_four(record, RACK_AT_WAIT);
}

/* Attach: the longest INF that the card takes. */
static inline uint32_t rack_record_ifsc(const uint8_t *record)
{
    return record[RACK_AT_IFSC];
}

/* Attach: the D to run with, 1, 2 or 4. */
static inline uint32_t rack_record_d_in_use(const uint8_t *record)
{
    return record[RACK_AT_D_IN_USE];
}

/* Attach: how many historical bytes the ATR has. */
static inline uint32_t rack_record_historical_count(const uint8_t *record)
{
    return record[RACK_AT_HISTORICAL_COUNT];
}

/* Attach: the D that TA1 offers; 0 for a reserved code. */
static inline uint32_t rack_record_d_offered(const uint8_t *record)
{
    return record[RACK_AT_D_OFFERED];
}

/* Attach: the F that TA1 offers; 0 for a reserved code. */
static inline uint32_t rack_record_f_offered(const uint8_t *record)
{
    return rack_record_two(record, RACK_AT_F_OFFERED);
}

/* Attach: from one character to the next, in etu. */
static inline uint32_t rack_record_character_distance(const uint8_t *record)
{
    return rack_record_two(record, RACK_AT_CHARACTER_DISTANCE);
}

/* Attach: CWT, in etu. */
static inline uint32_t rack_record_cwt(const uint8_t *record)
{
    return rack_record_four(record, RACK_AT_CWT);
}

/* Attach: BWT, in etu. */
static inline uint32_t rack_record_bwt(const uint8_t *record)
{
    return rack_record_four(record, RACK_AT_BWT);
}

#ifdef __cplusplus
}
#endif

#endif
