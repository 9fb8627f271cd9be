/*
 * What the files of this test share: buffers lent between guard bytes, a call and the answer expected of it, bytes as
 * text, lists of calls, and slots in a wanted state.
 */
#ifndef CALLS_H
#define CALLS_H

#include "rack.h"

#include <stdio.h>
#include <string.h>

/* ---- What is expected and what came: a check is begun, compares, and is finished ---- */

/* Runs a part of the test; what differs in it is printed with its name. */
#define PART(name) (part(#name), name())
void part(const char *name);

void begin(int line, const char *file, const char *says);
void finish(void);
void same_number(const char *what, uint64_t expected, uint64_t came);
void same_bytes(const char *what, const uint8_t *expected, const uint8_t *came, size_t len);

/* The words of a check that is run for many values. */
const char *words(const char *form, ...);

/* The last line of the test, and its exit code. */
int summary(void);

/* ---- Lent buffers ---- */

enum { TABLE, INPUT, SHARES, CEILINGS, OUTPUT, RECORD, BUFFERS };

/* Places in the table, by docs/LAYOUT.md. */
enum { POOL_AT = 8, SLOTS_AT = 25472, SLOT_SIZE = 320, UNUSED_AT = SLOTS_AT + 8 * SLOT_SIZE };

/* A buffer's lent bytes. */
uint8_t *at(int buffer);

/* Bytes that no answer has by chance, into all of a buffer and its guards. */
void fill(int buffer, unsigned seed);

/* ---- A call and its answer ---- */

enum name { OPEN, ATTACH, COMMAND, EVENT, COLLECT, REMOVE, NAMES };
extern const char *const call_name[NAMES];

struct call {
    enum name name;
    uint64_t slot, kind;
    size_t input_len; /* the bytes stand in INPUT, open's in SHARES and CEILINGS */
    size_t table_len, output_len, record_len;
};

struct attached {
    uint32_t ifsc, d_in_use, historical_count, d_offered, f_offered, character_distance, cwt, bwt;
};

struct answer {
    uint64_t number;
    uint32_t state, ending, sent, wait;
    const uint8_t *written;
    size_t written_len;
    const struct attached *attached; /* only attach */
};

/* The lengths that calls lend, unless a check is about lengths. */
struct lengths {
    size_t table, output, record;
};
extern struct lengths lend;

struct call a_call(enum name name, uint64_t slot);

/* Makes a call whose input stands ready, and compares all of its answer and all bytes that have to stay. */
void expect_at(int line, const char *file, const char *says, const struct call *c, const struct answer *a);
void expect_refusal_at(int line, const char *file, const char *says, const struct call *c, uint64_t number);
#define expect(says, c, a) expect_at(__LINE__, __FILE__, says, c, a)
#define expect_refusal(says, c, number) expect_refusal_at(__LINE__, __FILE__, says, c, number)

/* ---- Bytes as text ---- */

/*
 * Bytes from words: "3B" a byte, "AA*15" fifteen of them, "lrc" the exclusive or of all before, "tck" the same without
 * the first byte, "cmd:32+16" 16 bytes of the long command from byte 32.
 */
size_t spell(uint8_t *to, const char *text);

/* The text's bytes into the input buffer; what was there is overwritten with other bytes. */
size_t give(const char *text);

/* The fifth byte of the long command: 00 A4 04 00, that byte, data. */
extern uint8_t long_command_data_len;

uint8_t exclusive_or(const uint8_t *bytes, size_t from, size_t to);

/* ---- Steps: a list of calls with their answers ---- */

struct step {
    int line;
    const char *file, *says;
    enum name name;
    uint64_t slot, kind;
    const char *input;
    uint64_t number;
    uint32_t state, ending, sent, wait;
    const char *output;
};

/* clang-format off */
#define STEP(says, call, answer) {__LINE__, __FILE__, says, call, answer}
/* clang-format on */
#define PLAY(steps) play(steps, sizeof(steps) / sizeof(steps)[0])

/* What is called, */
#define ON_COMMAND(slot, bytes) COMMAND, slot, 0, bytes
#define ON_CARD(slot, bytes) EVENT, slot, RACK_EVENT_BYTES, bytes
#define ON_PARITY(slot) EVENT, slot, RACK_EVENT_PARITY, ""
#define ON_SILENCE(slot) EVENT, slot, RACK_EVENT_SILENCE, ""
#define ON_COLLECT(slot) COLLECT, slot, 0, ""
#define ON_REMOVE(slot) REMOVE, slot, 0, ""

/* and what is expected: a block sent while busy (the count, the wait, the block), or none. */
#define SEND(sent, wait, block) 0, RACK_STATE_BUSY, 0, sent, wait, block
#define GREET(sent) 0, RACK_STATE_GREETING, 0, sent, WAIT, IFS_REQUEST
#define READY(sent) 0, RACK_STATE_READY, 0, sent, 0, ""
#define DONE(sent) 0, RACK_STATE_DONE, 0, sent, 0, ""
#define END(ending, sent) 0, RACK_STATE_ENDED, ending, sent, 0, ""
#define GIVE(response) 0, RACK_STATE_READY, 0, 0, 0, response
#define EMPTY 0, RACK_STATE_EMPTY, 0, 0, 0, ""
#define REFUSE(number) number, 0, 0, 0, 0, ""

void play(const struct step *steps, size_t count);

/* ---- Racks and slots to start from ---- */

#define WAIT 15371u                               /* BWT of P1's ATR: 960 * 2^4 + 11 */
#define P1_ATR "3B E0 00 00 81 31 20 45 35"       /* IFSC 32 */
#define P4_ATR "3B F0 13 00 00 91 01 31 FE 45 F9" /* IFSC 254 */
#define IFSC_16_ATR "3B 80 81 31 10 45 tck"
#define IFS_REQUEST "00 C1 01 FE 3E"
#define IFS_RESPONSE "00 E1 01 FE 1E"
#define SELECT "00 A4 04 00"
#define SELECT_0 "00 00 04 00 A4 04 00 A4" /* SELECT as I-block number 0 */
#define SELECT_1 "00 40 04 00 A4 04 00 E4" /* and number 1 */
#define EDC "00 81 00 81"                  /* R(0) after a fault in parity or LRC */
#define OTHER "00 82 00 82"                /* R(0) after any other */
#define REPORT_OF_P1 32, 1, 0, 1, 372, 12, 43, 15371

void set_shares(const uint8_t shares[RACK_SLOTS], const uint8_t ceilings[RACK_SLOTS]);
void open_rack(const uint8_t shares[RACK_SLOTS], const uint8_t ceilings[RACK_SLOTS]);
void open_even(uint8_t share, uint8_t ceiling);

/* Attaches with an ATR that is accepted. */
void attach_at(int line, const char *file, const char *says, uint64_t slot, const char *atr,
               const struct attached *fields);
#define attach(says, slot, atr, fields) attach_at(__LINE__, __FILE__, says, slot, atr, fields)

/* An empty slot becomes ready, by an ATR with P1's parameters but for IFSC and D, or by P1 (this is P7). */
void ready_with(uint64_t slot, const char *atr, uint32_t ifsc, uint32_t d);
void ready(uint64_t slot);

/* An empty slot becomes ready and then busy with SELECT. */
void busy(uint64_t slot);

/* A slot is removed. */
void empty(uint64_t slot);

/* The cells number from + 1 to number to are asked for and got, 254 bytes each, each acknowledged. */
void get_cells(uint64_t slot, unsigned from, unsigned to);

/* ---- The test's parts ---- */

void atrs(void);
void sessions(void);
void too_many_requests(void);
void blocks(void);
void commands(void);
void p11(void);
void pool(void);
void refusals(void);

#endif
