/* Open with P12, and every refusal, alone and with others. */
#include "calls.h"

struct limits {
    int line;
    const char *says;
    uint64_t number;
    uint8_t shares[RACK_SLOTS], ceilings[RACK_SLOTS];
};

static const struct limits limits[] = {
    {__LINE__, "P12: shares adding to 96", 0, {12, 12, 12, 12, 12, 12, 12, 12}, {12, 12, 12, 12, 12, 12, 12, 12}},
    {__LINE__, "P12: shares adding to 97", 2, {13, 12, 12, 12, 12, 12, 12, 12}, {13, 12, 12, 12, 12, 12, 12, 12}},
    {__LINE__, "97 by the last share", 2, {12, 12, 12, 12, 12, 12, 12, 13}, {96, 96, 96, 96, 96, 96, 96, 96}},
    {__LINE__, "one share of 96", 0, {0, 0, 0, 96, 0, 0, 0, 0}, {0, 0, 0, 96, 0, 0, 0, 0}},
    {__LINE__, "no shares, ceilings of 96", 0, {0, 0, 0, 0, 0, 0, 0, 0}, {96, 96, 96, 96, 96, 96, 96, 96}},
    {__LINE__, "a share above its ceiling", 2, {0, 0, 0, 0, 0, 0, 0, 11}, {96, 96, 96, 96, 96, 96, 96, 10}},
    {__LINE__, "a ceiling of 97", 2, {0, 0, 0, 0, 0, 0, 0, 0}, {97, 96, 96, 96, 96, 96, 96, 96}},
    {__LINE__, "a last ceiling of 255", 2, {0, 0, 0, 0, 0, 0, 0, 0}, {96, 96, 96, 96, 96, 96, 96, 255}},
    {__LINE__, "shares adding to 256", 2, {32, 32, 32, 32, 32, 32, 32, 32}, {96, 96, 96, 96, 96, 96, 96, 96}},
};

static void open_limits(void)
{
    static const struct answer opened = {0, 0, 0, 0, 0, NULL, 0, NULL};
    const struct limits *l;
    for (l = limits; l < limits + sizeof limits / sizeof *l; l++) {
        const struct call c = a_call(OPEN, 0);
        set_shares(l->shares, l->ceilings);
        if (l->number == 0)
            expect_at(l->line, __FILE__, l->says, &c, &opened);
        else
            expect_refusal_at(l->line, __FILE__, l->says, &c, l->number);
    }
}

/* Open writes all 32,768 bytes: over other bytes, and over a rack in use, the table is the same. */
static void open_writes_all(void)
{
    static uint8_t first[RACK_TABLE_SIZE];
    static const uint8_t mark[5] = {'T', 'B', 'L', 0, 1};
    static const char *const over[3] = {"open over zeros", "open over other bytes", "open over a rack in use"};
    int round;
    for (round = 0; round < 3; round++) {
        if (round == 0)
            memset(at(TABLE), 0, RACK_TABLE_SIZE);
        else if (round == 1)
            fill(TABLE, 77);
        else
            get_cells(0, 0, 20);
        open_even(5, 70);
        begin(__LINE__, __FILE__, over[round]);
        same_bytes("mark TBL and version 1", mark, at(TABLE), sizeof mark);
        if (round > 0)
            same_bytes("table", first, at(TABLE), sizeof first);
        finish();
        memcpy(first, at(TABLE), sizeof first);
        busy(0);
    }
}

/* ---- Refusals, on a rack that has a slot in each state: slot 0 is empty, 1 greeting, to 5 ended ---- */

static void one_slot_in_each_state(void)
{
    static const struct attached p1 = {REPORT_OF_P1};
    static const struct step steps[] = {
        STEP("slot 4 is done", ON_CARD(4, "00 00 02 90 00 92"), DONE(1)),
        STEP("slot 5 is ended", ON_CARD(5, "00 C2 00 C2"), END(22, 1)),
    };
    open_even(12, 96);
    attach("slot 1 is greeting", 1, P1_ATR, &p1);
    ready(2);
    busy(3);
    busy(4);
    busy(5);
    PLAY(steps);
}

/* Each slot still does what its state says. */
static void all_slots_go_on(void)
{
    static const struct attached p1 = {REPORT_OF_P1};
    static const struct step steps[] = {
        STEP("slot 1 becomes ready", ON_CARD(1, IFS_RESPONSE), READY(1)),
        STEP("slot 2 takes a command", ON_COMMAND(2, SELECT), SEND(1, WAIT, SELECT_0)),
        STEP("slot 3 is done", ON_CARD(3, "00 00 02 6A 82 lrc"), DONE(1)),
        STEP("slot 4 delivers", ON_COLLECT(4), GIVE("90 00")),
        STEP("slot 5 is removed", ON_REMOVE(5), EMPTY),
    };
    attach("slot 0 is attached", 0, P1_ATR, &p1);
    PLAY(steps);
}

/* The states that each call needs, a bit for each; open needs none. */
static const unsigned needs[NAMES] = {0, 1u << 0, 1u << 2, 1u << 1 | 1u << 3, 1u << 4, 0x3Eu};

/* A slot for which the call would not be refused, and its input. */
static const uint64_t good_slot[NAMES] = {0, 0, 2, 3, 4, 3};
static const char *const good_input[NAMES] = {"", P1_ATR, SELECT, "00 00 02 90 00 92", "", ""};

static struct call good_call(enum name name)
{
    struct call c = a_call(name, good_slot[name]);
    c.input_len = give(good_input[name]);
    return c;
}

static void wrong_states(void)
{
    int name;
    unsigned state;
    for (name = ATTACH; name < NAMES; name++) {
        for (state = 0; state < 6; state++) {
            struct call c = good_call((enum name)name);
            c.slot = state;
            if ((needs[name] >> state & 1u) == 0)
                expect_refusal(words("%s of a slot in state %u", call_name[name], state), &c, 4);
        }
    }
}

static void wrong_slots(void)
{
    static const uint64_t far[] = {8, 9, 1u << 8, 1u << 16, (uint64_t)1 << 31, (uint64_t)1 << 32, (uint64_t)1 << 63};
    int name;
    size_t i;
    for (name = ATTACH; name < NAMES; name++) {
        struct call c = good_call((enum name)name);
        for (i = 0; i < sizeof far / sizeof far[0]; i++) {
            c.slot = i < 2 ? far[i] : far[i] + good_slot[name];
            expect_refusal(words("%s of slot %llX", call_name[name], (unsigned long long)c.slot), &c, 3);
        }
        c.slot = UINT64_MAX;
        expect_refusal(words("%s of the highest slot number", call_name[name]), &c, 3);
    }
}

static void wrong_kinds(void)
{
    static const uint64_t kinds[] = {3, 4, 255, 256, 65536, (uint64_t)1 << 32, ((uint64_t)1 << 32) + 2, UINT64_MAX};
    size_t i;
    for (i = 0; i < sizeof kinds / sizeof kinds[0]; i++) {
        struct call c = good_call(EVENT);
        c.kind = kinds[i];
        expect_refusal(words("event of kind %llX", (unsigned long long)c.kind), &c, 6);
        c.slot = 1;
        expect_refusal(words("event of kind %llX while greeting", (unsigned long long)c.kind), &c, 6);
    }
}

/* Lengths too short by one, and 0. */
static void short_lengths(void)
{
    static const size_t tables[2] = {0, RACK_TABLE_SIZE - 1}, records[2] = {0, RACK_RECORD_SIZE - 1};
    static const size_t outputs[2] = {0, RACK_OUTPUT_SIZE - 1}, responses[2] = {0, 1};
    int name, i;
    for (name = OPEN; name < NAMES; name++) {
        for (i = 0; i < 2; i++) {
            struct call c = good_call((enum name)name);
            c.table_len = tables[i];
            expect_refusal(words("%s, %s", call_name[name], "short table"), &c, 1);
            c = good_call((enum name)name);
            c.record_len = records[i];
            expect_refusal(words("%s, %s", call_name[name], "short record"), &c, 5);
            if (name == OPEN || name == REMOVE)
                continue;
            c = good_call((enum name)name);
            c.output_len = name == COLLECT ? responses[i] : outputs[i];
            expect_refusal(words("%s, %s", call_name[name], "short output"), &c, 5);
        }
    }
}

/* A byte that breaks one of the layout's rules, and each call but open is refused. */
static void damaged_tables(void)
{
    static const struct {
        unsigned at;
        uint8_t value;
    } damage[] = {
        /* mark and version */
        {0, 't'},
        {1, 0},
        {2, 'M'},
        {3, 1},
        {3, 255},
        {4, 0},
        {4, 2},
        /* slot 7's share above its ceiling, a ceiling above 96, a cell held by slot 0, cell 95 owned by nobody there is */
        {POOL_AT + 7, 97},
        {POOL_AT + 15, 97},
        {POOL_AT + 16, 1},
        {POOL_AT + 24 + 95, 8},
        /* slot 1's state 6, IFSC 15 and 255, s 2; slot 3's go 0 and 4, block behind its command, blocks sent 0 */
        {SLOTS_AT + SLOT_SIZE, 6},
        {SLOTS_AT + SLOT_SIZE + 1, 15},
        {SLOTS_AT + SLOT_SIZE + 1, 255},
        {SLOTS_AT + SLOT_SIZE + 2, 2},
        {SLOTS_AT + 3 * SLOT_SIZE + 17, 0},
        {SLOTS_AT + 3 * SLOT_SIZE + 17, 4},
        {SLOTS_AT + 3 * SLOT_SIZE + 10, 1},
        {SLOTS_AT + 3 * SLOT_SIZE + 7, 0},
    };
    size_t i;
    int name;
    for (i = 0; i < sizeof damage / sizeof damage[0]; i++) {
        uint8_t *byte = at(TABLE) + damage[i].at, kept = *byte;
        *byte = damage[i].value;
        for (name = ATTACH; name < NAMES; name++) {
            const struct call c = good_call((enum name)name);
            expect_refusal(words("%s, byte %u damaged", call_name[name], damage[i].at), &c, 1);
        }
        *byte = kept;
    }
}

/* Faults that a call can have together; the lowest number is the answer. */
enum { SHORT_TABLE, DAMAGED, BAD_SHARES, SLOT_8, WRONG_STATE, SHORT_RECORD, SHORT_OUTPUT, KIND_3, BAD_INPUT, FAULTS };

#define BIT(fault) (1u << (fault))
#define OF_OPEN (BIT(SHORT_TABLE) | BIT(BAD_SHARES) | BIT(SHORT_RECORD))
#define OF_REMOVE (BIT(SHORT_TABLE) | BIT(DAMAGED) | BIT(SLOT_8) | BIT(WRONG_STATE) | BIT(SHORT_RECORD))
#define OF_COLLECT (OF_REMOVE | BIT(SHORT_OUTPUT))
#define OF_EVENT (OF_COLLECT | BIT(KIND_3))
#define OF_INPUT (OF_COLLECT | BIT(BAD_INPUT))

static const struct {
    enum name name;
    unsigned faults;
    uint64_t wrong_slot;
    const char *bad_input;
    uint64_t bad_input_number;
} faulty[] = {
    {OPEN, OF_OPEN, 0, "", 0},
    {ATTACH, OF_INPUT, 1, "3C", 8},
    {ATTACH, OF_INPUT, 2, "", 9},
    {ATTACH, OF_INPUT, 3, "3B E0 00 00 81 31 20 45 34", 10},
    {ATTACH, OF_INPUT, 4, "3B 00", 11},
    {ATTACH, OF_INPUT, 5, "3B E0 00 01 81 31 20 40 31", 12},
    {COMMAND, OF_INPUT, 3, "00 A4 04", 7},
    {EVENT, OF_EVENT, 2, "", 0},
    {COLLECT, OF_COLLECT, 3, "", 0},
    {REMOVE, OF_REMOVE, 0, "", 0},
};

static struct call faulty_call(size_t row, unsigned faults)
{
    struct call c = good_call(faulty[row].name);
    if (faults & BIT(SHORT_TABLE))
        c.table_len = RACK_TABLE_SIZE - 1;
    if (faults & BIT(WRONG_STATE))
        c.slot = faulty[row].wrong_slot;
    if (faults & BIT(SLOT_8))
        c.slot = 8;
    if (faults & BIT(SHORT_RECORD))
        c.record_len = RACK_RECORD_SIZE - 1;
    if (faults & BIT(SHORT_OUTPUT))
        c.output_len = c.name == COLLECT ? 1 : RACK_OUTPUT_SIZE - 1;
    if (faults & BIT(KIND_3))
        c.kind = 3;
    if (faults & BIT(BAD_INPUT))
        c.input_len = give(faulty[row].bad_input);
    at(SHARES)[0] = (faults & BIT(BAD_SHARES)) != 0 ? 13 : 12;
    at(TABLE)[4] = (faults & BIT(DAMAGED)) != 0 ? 2 : 1;
    return c;
}

/* The faults stand in the order of their numbers, so the lowest bit decides. */
static uint64_t number_of(size_t row, unsigned faults)
{
    static const uint64_t numbers[BAD_INPUT] = {1, 1, 2, 3, 4, 5, 5, 6};
    unsigned fault = 0;
    while ((faults >> fault & 1u) == 0)
        fault++;
    return fault == BAD_INPUT ? faulty[row].bad_input_number : numbers[fault];
}

/* Every set of faults of every call. */
static void lowest_number(void)
{
    size_t row;
    unsigned faults;
    for (row = 0; row < sizeof faulty / sizeof faulty[0]; row++) {
        for (faults = 1; faults < BIT(FAULTS); faults++) {
            struct call c;
            if ((faults & ~faulty[row].faults) != 0)
                continue;
            c = faulty_call(row, faults);
            expect_refusal(words("%s with the faults %03X", call_name[c.name], faults), &c, number_of(row, faults));
        }
    }
    at(SHARES)[0] = 12;
    at(TABLE)[4] = 1;
}

void refusals(void)
{
    PART(open_limits);
    PART(open_writes_all);
    PART(one_slot_in_each_state);
    PART(short_lengths);
    PART(wrong_states);
    PART(wrong_slots);
    PART(wrong_kinds);
    PART(damaged_tables);
    PART(lowest_number);
    PART(all_slots_go_on);
}
