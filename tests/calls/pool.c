/* Shares: P11, who gets a cell, and what frees cells. */
#include "calls.h"

/* Byte j of the INF of the response's I-block k. */
static uint8_t inf_byte(unsigned k, unsigned j)
{
    return (uint8_t)((k * 5u + j * 3u + 1u) & 0xFFu);
}

/* I-block k, from 0, of the first response since attach goes into the input. Its number is k mod 2. */
static size_t give_i_block(unsigned k, unsigned len, int more)
{
    uint8_t *to = at(INPUT);
    unsigned j;
    fill(INPUT, 3);
    to[0] = 0;
    to[1] = (uint8_t)((k % 2 == 1 ? 0x40u : 0u) | (more ? 0x20u : 0u));
    to[2] = (uint8_t)len;
    for (j = 0; j < len; j++)
        to[3 + j] = inf_byte(k, j);
    to[3 + len] = exclusive_or(to, 0, 3 + len);
    return len + 4;
}

void get_cells(uint64_t slot, unsigned from, unsigned to)
{
    uint8_t block[4];
    struct call c = a_call(EVENT, slot);
    struct answer a = {0, RACK_STATE_BUSY, 0, 0, WAIT, block, sizeof block, NULL};
    unsigned k;
    for (k = from; k < to; k++) {
        c.input_len = give_i_block(k, RACK_CELL_SIZE, 1);
        spell(block, k % 2 == 0 ? "00 90 00 90" : "00 80 00 80");
        a.sent = 2 + k;
        expect(words("slot %u gets cell %u", (unsigned)slot, k + 1), &c, &a);
    }
}

/* After got cells the next I-block gets none. */
static void get_no_cell(uint64_t slot, unsigned got, unsigned len, int more)
{
    const struct answer a = {0, RACK_STATE_ENDED, 20, 1 + got, 0, NULL, 0, NULL};
    struct call c = a_call(EVENT, slot);
    c.input_len = give_i_block(got, len, more);
    expect(words("slot %u gets %u cells and no more: ending 20", (unsigned)slot, got), &c, &a);
}

/* After got cells the last I-block gets one, and the response is whole. */
static void get_last_cell(uint64_t slot, unsigned got)
{
    const struct answer a = {0, RACK_STATE_DONE, 0, 1 + got, 0, NULL, 0, NULL};
    struct call c = a_call(EVENT, slot);
    c.input_len = give_i_block(got, RACK_CELL_SIZE, 0);
    expect(words("slot %u is done with cell %u", (unsigned)slot, got + 1), &c, &a);
}

/* Collects the response of got cells of 254 bytes, into an output of just that length. */
static void collect_cells(uint64_t slot, unsigned got)
{
    static uint8_t response[RACK_RESPONSE_MAX];
    const struct answer a = {0, RACK_STATE_READY, 0, 0, 0, response, got * RACK_CELL_SIZE, NULL};
    struct call c = a_call(COLLECT, slot);
    unsigned i;
    for (i = 0; i < a.written_len; i++)
        response[i] = inf_byte(i / RACK_CELL_SIZE, i % RACK_CELL_SIZE);
    c.output_len = a.written_len - 1;
    expect_refusal("an output one byte shorter than the response", &c, 5);
    c.output_len = a.written_len;
    expect("collect delivers the joined INFs", &c, &a);
}

void p11(void)
{
    static const uint8_t shares[RACK_SLOTS] = {10, 10, 10, 10, 10, 10, 10, 10};
    static const uint8_t ceilings[RACK_SLOTS] = {96, 10, 10, 10, 10, 10, 10, 10};
    uint64_t slot;
    open_rack(shares, ceilings);
    busy(0);
    get_cells(0, 0, 26);
    get_no_cell(0, 26, RACK_CELL_SIZE, 1);
    busy(1);
    get_cells(1, 0, 10);
    get_no_cell(1, 10, RACK_CELL_SIZE, 1);

    open_rack(shares, ceilings);
    busy(0);
    get_cells(0, 0, 26);
    for (slot = 1; slot < RACK_SLOTS; slot++) {
        busy(slot);
        get_cells(slot, 0, 9);
        get_last_cell(slot, 9);
    }
    get_no_cell(0, 26, RACK_CELL_SIZE, 1);
    for (slot = 1; slot < RACK_SLOTS; slot++)
        collect_cells(slot, 10);
}

/* Shares of 12 each: everybody gets 12, nobody a thirteenth. */
static void shares_of_12(void)
{
    uint64_t slot;
    open_even(12, 96);
    for (slot = 0; slot < RACK_SLOTS; slot++) {
        busy(slot);
        get_cells(slot, 0, 12);
    }
    for (slot = 0; slot < RACK_SLOTS; slot++)
        get_no_cell(slot, 12, RACK_CELL_SIZE, 1);
}

/* Between share and ceiling: free must be greater than what the others lack, and a surplus of others is no lack. */
static void between(void)
{
    static const uint8_t lacking[RACK_SLOTS] = {0, 95, 0, 0, 0, 0, 0, 0};
    static const uint8_t surplus[RACK_SLOTS] = {1, 1, 2, 0, 0, 0, 0, 0};
    static const uint8_t all[RACK_SLOTS] = {96, 96, 96, 96, 96, 96, 96, 96};
    open_rack(lacking, all);
    busy(0);
    get_cells(0, 0, 1);
    get_no_cell(0, 1, RACK_CELL_SIZE, 1);
    open_rack(surplus, all);
    busy(1);
    get_cells(1, 0, 50);
    busy(0);
    get_cells(0, 0, 44); /* then 2 are free, and slot 2 lacks 2 */
    get_no_cell(0, 44, RACK_CELL_SIZE, 0);
    get_cells(1, 50, 93); /* slot 0 has ended: it lacks 1, slot 2 lacks 2, and 3 are left */
    get_no_cell(1, 93, RACK_CELL_SIZE, 1);
}

/* Ceilings of 0 and 5, shares of 0. */
static void low_ceilings(void)
{
    open_even(0, 0);
    busy(3);
    get_no_cell(3, 0, 1, 0); /* one byte, but no cell: 20 and not 23 */
    open_even(0, 5);
    busy(3);
    get_cells(3, 0, 5);
    get_no_cell(3, 5, 2, 0);
}

/* One slot takes all 96 cells; what it does then frees them for another. */
static void whole_pool(void)
{
    static const struct step aborted[] = {STEP("abort frees the cells", ON_CARD(1, "00 C2 00 C2"), END(22, 97))};
    static const struct step renewed[] = {STEP("s and r start anew: R(0)", ON_PARITY(2), SEND(2, WAIT, "00 81 00 81"))};
    open_even(0, 96);
    busy(0);
    get_cells(0, 0, 96);
    get_no_cell(0, 96, RACK_CELL_SIZE, 1);
    busy(1);
    get_cells(1, 0, 96);
    busy(3);
    get_no_cell(3, 0, RACK_CELL_SIZE, 1);
    PLAY(aborted);
    busy(2);
    get_cells(2, 0, 95);
    empty(2);
    busy(2);
    PLAY(renewed);
    empty(2);
    busy(2);
    get_cells(2, 0, 95);
    get_last_cell(2, 95);
    busy(4);
    get_no_cell(4, 0, RACK_CELL_SIZE, 0);
    collect_cells(2, 96);
    busy(5);
    get_cells(5, 0, 95);
    get_last_cell(5, 95);
    empty(5);
    busy(6);
    get_cells(6, 0, 96);
}

/* The last block sent goes twice more, or an R in its place. */
static void two_silences(uint32_t *sent, const char *repeated)
{
    const struct step steps[] = {
        STEP("silence: go 2", ON_SILENCE(0), SEND(*sent + 1, WAIT, repeated)),
        STEP("silence: go 3", ON_SILENCE(0), SEND(*sent + 2, WAIT, repeated)),
    };
    PLAY(steps);
    *sent += 2;
}

/* A command in 17 I-blocks, then 255 requests, three goes each. */
static uint32_t longest_sending(void)
{
    char block[48];
    uint32_t sent = 1;
    unsigned k;
    for (k = 0; k < 17; k++) {
        const unsigned len = k < 16 ? 16 : 5, pcb = (k % 2 == 1 ? 0x40u : 0u) | (k < 16 ? 0x20u : 0u);
        const struct step first = STEP("the first I-block", ON_COMMAND(0, "cmd:0+261"), SEND(1, WAIT, block));
        const struct step next = STEP("the next I-block", ON_CARD(0, k % 2 == 1 ? "00 90 00 90" : "00 80 00 80"),
                                      SEND(sent + 1, WAIT, block));
        snprintf(block, sizeof block, "00 %02X %02X cmd:%u+%u lrc", pcb, len, k * 16, len);
        play(k == 0 ? &first : &next, 1);
        sent += k == 0 ? 0u : 1u;
        two_silences(&sent, OTHER);
    }
    for (k = 0; k < 255; k++) {
        const struct step wtx = STEP("a request", ON_CARD(0, "00 C3 01 01 C3"), SEND(sent + 1, WAIT, "00 E3 01 01 E3"));
        play(&wtx, 1);
        sent++;
        two_silences(&sent, OTHER);
    }
    return sent;
}

/* And 96 cells, each acknowledged in three goes; the next I-block gets none. */
static void longest_command(void)
{
    uint32_t sent;
    unsigned k;
    open_even(0, 96);
    long_command_data_len = 255;
    ready_with(0, IFSC_16_ATR, 16, 1);
    sent = longest_sending();
    for (k = 0; k < 97; k++) {
        const char *const i_block = k % 2 == 0 ? "00 20 01 AA lrc" : "00 60 01 AA lrc";
        const char *const acknowledged = k % 2 == 0 ? "00 90 00 90" : "00 80 00 80";
        const struct step taken = STEP("acknowledged", ON_CARD(0, i_block), SEND(sent + 1, WAIT, acknowledged));
        const struct step denied = STEP("ends after 3 x (272 + 96) blocks", ON_CARD(0, i_block), END(20, 1104));
        play(k < 96 ? &taken : &denied, 1);
        if (k < 96) {
            sent++;
            two_silences(&sent, acknowledged);
        }
    }
}

void pool(void)
{
    PART(p11);
    PART(shares_of_12);
    PART(between);
    PART(low_ceilings);
    PART(whole_pool);
    PART(longest_command);
}
