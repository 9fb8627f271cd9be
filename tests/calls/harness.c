/* Lends buffers, makes calls and compares; calls.h says what each function does. */
#include "calls.h"

#include <stdarg.h>
#include <stdlib.h>

static struct {
    unsigned checks, failed, printed;
    int line, bad;
    const char *part, *file, *says;
} report;

void part(const char *name)
{
    report.part = name;
}

void begin(int line, const char *file, const char *says)
{
    report.file = file;
    report.line = line;
    report.says = says;
    report.bad = 0;
}

void finish(void)
{
    report.checks++;
    report.failed += report.bad ? 1u : 0u;
}

/* One line for a difference: where, which check, what was expected, what came. Only the first 40 are printed. */
static void differ(const char *what, unsigned long long expected, unsigned long long came)
{
    report.bad = 1;
    if (report.printed++ < 40)
        printf("%s:%d: in %s: %s: %s: expected %llu (%llX), came %llu (%llX)\n", report.file, report.line, report.part,
               report.says, what, expected, expected, came, came);
}

void same_number(const char *what, uint64_t expected, uint64_t came)
{
    if (expected != came)
        differ(what, expected, came);
}

void same_bytes(const char *what, const uint8_t *expected, const uint8_t *came, size_t len)
{
    char where[80];
    size_t i = 0;
    if (memcmp(expected, came, len) == 0)
        return;
    while (expected[i] == came[i])
        i++;
    snprintf(where, sizeof where, "%s, byte %lu", what, (unsigned long)i);
    differ(where, expected[i], came[i]);
}

const char *words(const char *form, ...)
{
    static char text[160];
    va_list list;
    va_start(list, form);
    vsnprintf(text, sizeof text, form, list);
    va_end(list);
    return text;
}

int summary(void)
{
    printf("calls: %u checks, %u failed\n", report.checks, report.failed);
    return report.failed == 0 ? 0 : 1;
}

#define GUARD 64u
#define BEYOND 512u /* bytes behind the longest lent length that are still the buffer's */

struct lent {
    const char *name;
    uint8_t *now, *was; /* with the guards */
    size_t size;        /* with the guards */
};

#define ROOM(id, len) static uint8_t id##_now[GUARD + (len) + BEYOND + GUARD], id##_was[sizeof id##_now]
ROOM(table, RACK_TABLE_SIZE);
ROOM(input, RACK_OUTPUT_SIZE);
ROOM(shares, RACK_SLOTS);
ROOM(ceilings, RACK_SLOTS);
ROOM(output, RACK_RESPONSE_MAX);
ROOM(record, RACK_RECORD_SIZE);

/* clang-format off */
#define LENT(id) {#id, id##_now, id##_was, sizeof id##_now}
/* clang-format on */
static const struct lent lent[BUFFERS] = {LENT(table),    LENT(input),  LENT(shares),
                                          LENT(ceilings), LENT(output), LENT(record)};

uint8_t *at(int buffer)
{
    return lent[buffer].now + GUARD;
}

static uint8_t *was_at(int buffer)
{
    return lent[buffer].was + GUARD;
}

void fill(int buffer, unsigned seed)
{
    size_t i;
    for (i = 0; i < lent[buffer].size; i++)
        lent[buffer].now[i] = (uint8_t)((i * 167u + seed * 59u + 0x5Bu) & 0xFFu);
}

/* All bytes of a buffer, guards too, are as before the call, but for the first len lent ones. */
static void untouched_but(int buffer, size_t len)
{
    const struct lent *b = &lent[buffer];
    char what[64];
    snprintf(what, sizeof what, "%s before its front stays", b->name);
    same_bytes(what, b->was, b->now, GUARD);
    snprintf(what, sizeof what, "%s from byte %lu on stays", b->name, (unsigned long)len);
    same_bytes(what, was_at(buffer) + len, at(buffer) + len, b->size - GUARD - len);
}

const char *const call_name[NAMES] = {"open", "attach", "command", "event", "collect", "remove"};

struct lengths lend = {RACK_TABLE_SIZE, RACK_OUTPUT_SIZE, RACK_RECORD_SIZE};

struct call a_call(enum name name, uint64_t slot)
{
    struct call c = {name, slot, 0, 0, lend.table, lend.output, lend.record};
    if (name == COLLECT)
        c.output_len = RACK_RESPONSE_MAX;
    return c;
}

static uint64_t make(const struct call *c)
{
    uint8_t *table = at(TABLE), *in = at(INPUT), *out = at(OUTPUT), *rec = at(RECORD);
    switch (c->name) {
    case OPEN:
        return rack_open(table, c->table_len, at(SHARES), at(CEILINGS), rec, c->record_len);
    case ATTACH:
        return rack_attach(table, c->table_len, c->slot, in, c->input_len, out, c->output_len, rec, c->record_len);
    case COMMAND:
        return rack_command(table, c->table_len, c->slot, in, c->input_len, out, c->output_len, rec, c->record_len);
    case EVENT:
        return rack_event(table, c->table_len, c->slot, c->kind, in, c->input_len, out, c->output_len, rec,
                          c->record_len);
    case COLLECT:
        return rack_collect(table, c->table_len, c->slot, out, c->output_len, rec, c->record_len);
    default:
        return rack_remove(table, c->table_len, c->slot, rec, c->record_len);
    }
}

static void put(uint8_t *to, size_t len, uint64_t value)
{
    while (len-- > 0) {
        to[len] = (uint8_t)(value & 0xFFu);
        value >>= 8;
    }
}

/* The whole record, by its offsets. */
static void spell_record(uint8_t to[RACK_RECORD_SIZE], const struct answer *a)
{
    const struct attached *f = a->attached;
    memset(to, 0, RACK_RECORD_SIZE);
    put(to + 0, 1, a->number);
    put(to + 1, 1, a->state);
    put(to + 2, 1, a->ending);
    put(to + 4, 4, a->sent);
    put(to + 8, 4, a->written_len);
    put(to + 12, 4, a->wait);
    if (f == NULL)
        return;
    put(to + 16, 1, f->ifsc);
    put(to + 17, 1, f->d_in_use);
    put(to + 18, 1, f->historical_count);
    put(to + 19, 1, f->d_offered);
    put(to + 20, 2, f->f_offered);
    put(to + 22, 2, f->character_distance);
    put(to + 24, 4, f->cwt);
    put(to + 28, 4, f->bwt);
}

/* The record through the header's readers, field by field, and then all its 64 bytes. */
static void same_record(const struct answer *a)
{
    static const struct attached none;
    const struct attached *f = a->attached != NULL ? a->attached : &none;
    const uint8_t *rec = at(RECORD);
    uint8_t whole[RACK_RECORD_SIZE];
    same_number("number in the record", a->number, rack_record_number(rec));
    same_number("state", a->state, rack_record_state(rec));
    same_number("ending", a->ending, rack_record_ending(rec));
    same_number("blocks sent", a->sent, rack_record_blocks_sent(rec));
    same_number("length written", a->written_len, rack_record_written(rec));
    same_number("wait", a->wait, rack_record_wait(rec));
    same_number("IFSC", f->ifsc, rack_record_ifsc(rec));
    same_number("D in use", f->d_in_use, rack_record_d_in_use(rec));
    same_number("historical count", f->historical_count, rack_record_historical_count(rec));
    same_number("D offered", f->d_offered, rack_record_d_offered(rec));
    same_number("F offered", f->f_offered, rack_record_f_offered(rec));
    same_number("character distance", f->character_distance, rack_record_character_distance(rec));
    same_number("CWT", f->cwt, rack_record_cwt(rec));
    same_number("BWT", f->bwt, rack_record_bwt(rec));
    spell_record(whole, a);
    same_bytes("record", whole, rec, sizeof whole);
}

/* Of an accepted call on a slot: mark and version, unused bytes and all that is another slot's own (docs/LAYOUT.md). */
static void same_elsewhere(uint64_t slot)
{
    uint64_t other;
    same_bytes("mark, version and unused bytes", was_at(TABLE), at(TABLE), POOL_AT);
    for (other = 0; other < RACK_SLOTS; other++)
        if (other != slot)
            same_bytes("another slot's bytes", was_at(TABLE) + SLOTS_AT + other * SLOT_SIZE,
                       at(TABLE) + SLOTS_AT + other * SLOT_SIZE, SLOT_SIZE);
    same_bytes("unused bytes", was_at(TABLE) + UNUSED_AT, at(TABLE) + UNUSED_AT, RACK_TABLE_SIZE - UNUSED_AT);
}

void expect_at(int line, const char *file, const char *says, const struct call *c, const struct answer *a)
{
    static unsigned seed;
    int i;
    uint64_t number;
    begin(line, file, says);
    fill(OUTPUT, ++seed);
    fill(RECORD, seed + 1);
    for (i = 0; i < BUFFERS; i++)
        memcpy(lent[i].was, lent[i].now, lent[i].size);
    number = make(c);
    same_number("returned number", a->number, number);
    if (c->record_len >= RACK_RECORD_SIZE)
        same_record(a);
    untouched_but(RECORD, c->record_len >= RACK_RECORD_SIZE ? RACK_RECORD_SIZE : 0);
    if (a->written_len > 0)
        same_bytes("output", a->written, at(OUTPUT), a->written_len);
    untouched_but(OUTPUT, a->written_len);
    untouched_but(TABLE, a->number == 0 ? RACK_TABLE_SIZE : 0);
    if (a->number == 0 && c->name != OPEN)
        same_elsewhere(c->slot);
    untouched_but(INPUT, 0);
    untouched_but(SHARES, 0);
    untouched_but(CEILINGS, 0);
    finish();
}

void expect_refusal_at(int line, const char *file, const char *says, const struct call *c, uint64_t number)
{
    const struct answer a = {number, 0, 0, 0, 0, NULL, 0, NULL};
    expect_at(line, file, says, c, &a);
}

/* Byte i of the long command: 00 A4 04 00, L as given, data. */
static uint8_t long_command_byte(size_t i, uint8_t data_len)
{
    static const uint8_t head[4] = {0x00, 0xA4, 0x04, 0x00};
    if (i < 4)
        return head[i];
    return i == 4 ? data_len : (uint8_t)((i * 7u + 3u) & 0xFFu);
}

uint8_t exclusive_or(const uint8_t *bytes, size_t from, size_t to)
{
    uint8_t x = 0;
    for (; from < to; from++)
        x = (uint8_t)(x ^ bytes[from]);
    return x;
}

uint8_t long_command_data_len;

size_t spell(uint8_t *to, const char *text)
{
    size_t len = 0;
    unsigned from, count, byte;
    char word[16];
    int used;
    while (sscanf(text, "%15s%n", word, &used) == 1) {
        text += used;
        count = 1;
        if (strcmp(word, "lrc") == 0 || strcmp(word, "tck") == 0) {
            to[len] = exclusive_or(to, word[0] == 't' ? 1 : 0, len);
            len++;
        } else if (sscanf(word, "cmd:%u+%u", &from, &count) == 2) {
            for (; count > 0; count--)
                to[len++] = long_command_byte(from++, long_command_data_len);
        } else if (sscanf(word, "%2x*%u", &byte, &count) >= 1) {
            for (; count > 0; count--)
                to[len++] = (uint8_t)byte;
        } else {
            fprintf(stderr, "calls: no such word: %s\n", word);
            exit(2);
        }
    }
    return len;
}

size_t give(const char *text)
{
    fill(INPUT, 3);
    return spell(at(INPUT), text);
}

void play(const struct step *steps, size_t count)
{
    uint8_t output[RACK_OUTPUT_SIZE];
    struct answer a = {0, 0, 0, 0, 0, output, 0, NULL};
    for (; count > 0; count--, steps++) {
        struct call c = a_call(steps->name, steps->slot);
        c.kind = steps->kind;
        c.input_len = give(steps->input);
        a.number = steps->number;
        a.state = steps->state;
        a.ending = steps->ending;
        a.sent = steps->sent;
        a.wait = steps->wait;
        a.written_len = spell(output, steps->output);
        if (steps->name == COLLECT && steps->number == 0)
            c.output_len = a.written_len + lend.output - RACK_OUTPUT_SIZE; /* just enough, or as much more as others get
                                                                            */
        expect_at(steps->line, steps->file, steps->says, &c, &a);
    }
}

void set_shares(const uint8_t shares[RACK_SLOTS], const uint8_t ceilings[RACK_SLOTS])
{
    memcpy(at(SHARES), shares, RACK_SLOTS);
    memcpy(at(CEILINGS), ceilings, RACK_SLOTS);
}

void open_rack(const uint8_t shares[RACK_SLOTS], const uint8_t ceilings[RACK_SLOTS])
{
    static const struct answer opened = {0, 0, 0, 0, 0, NULL, 0, NULL};
    const struct call c = a_call(OPEN, 0);
    set_shares(shares, ceilings);
    expect("open leaves a rack with empty slots", &c, &opened);
}

void open_even(uint8_t share, uint8_t ceiling)
{
    uint8_t shares[RACK_SLOTS], ceilings[RACK_SLOTS];
    memset(shares, share, sizeof shares);
    memset(ceilings, ceiling, sizeof ceilings);
    open_rack(shares, ceilings);
}

void attach_at(int line, const char *file, const char *says, uint64_t slot, const char *atr,
               const struct attached *fields)
{
    uint8_t block[5];
    const struct answer a = {0, RACK_STATE_GREETING, 0, 1, fields->bwt, block, spell(block, IFS_REQUEST), fields};
    struct call c = a_call(ATTACH, slot);
    c.input_len = give(atr);
    expect_at(line, file, says, &c, &a);
}

void ready_with(uint64_t slot, const char *atr, uint32_t ifsc, uint32_t d)
{
    const struct attached fields = {ifsc, d, 0, d, 372, 12, 43, WAIT};
    const struct step greeted[] = {
        STEP("P7: the answer to the IFS request makes the slot ready", ON_CARD(slot, IFS_RESPONSE), READY(1)),
    };
    attach("P7: attach sends S(IFS request)", slot, atr, &fields);
    PLAY(greeted);
}

void ready(uint64_t slot)
{
    ready_with(slot, P1_ATR, 32, 1);
}

void busy(uint64_t slot)
{
    const struct step commanded[] = {
        STEP("the first I-block after attach is number 0", ON_COMMAND(slot, SELECT), SEND(1, WAIT, SELECT_0)),
    };
    ready(slot);
    PLAY(commanded);
}

void empty(uint64_t slot)
{
    const struct step removed[] = {STEP("remove leaves an empty slot", ON_REMOVE(slot), EMPTY)};
    PLAY(removed);
}
