/* ATRs: P1 to P6, and the rules one by one. */
#include "calls.h"

struct atr {
    int line;
    const char *says, *bytes;
    uint64_t number;
    struct attached fields;
};

/* clang-format off */
#define ACCEPTED(says, bytes, ...) {__LINE__, says, bytes, 0, {__VA_ARGS__}}
#define REFUSED(says, bytes, number) {__LINE__, says, bytes, number, {0, 0, 0, 0, 0, 0, 0, 0}}
/* clang-format on */

static const struct atr accepted_atrs[] = {
    ACCEPTED("P1", P1_ATR, 32, 1, 0, 1, 372, 12, 43, 15371),
    ACCEPTED("P2: TC1 of FF is a distance of 11", "3B E0 00 FF 81 31 20 40 CF", 32, 1, 0, 1, 372, 11, 12, 15371),
    ACCEPTED("P4: TA1 of 13 with TA2 is D 4", P4_ATR, 254, 4, 0, 4, 372, 12, 43, 15371),
    ACCEPTED("TS may be 3F", "3F E0 00 00 81 31 20 45 35", REPORT_OF_P1),
    ACCEPTED("TC1 absent is a distance of 12", "3B 80 81 31 20 45 tck", REPORT_OF_P1),
    ACCEPTED("TA3 absent is an IFSC of 32", "3B 80 81 21 45 tck", REPORT_OF_P1),
    ACCEPTED("TC3 of 00 is accepted", "3B 80 81 71 20 45 00 tck", REPORT_OF_P1),
    ACCEPTED("TA2 alone leaves D at 1", "3B 80 91 01 31 20 45 tck", REPORT_OF_P1),
    ACCEPTED("of TA2 only b5 and the low nibble are read", "3B 80 91 E1 31 20 45 tck", REPORT_OF_P1),
    ACCEPTED("TB1, TB2 and TC2 are not read", "3B A0 AB E1 CD EF 31 20 45 tck", REPORT_OF_P1),
    ACCEPTED("TD3 may name any protocol", "3B 80 81 B1 20 45 0F tck", REPORT_OF_P1),
    ACCEPTED("a fourth group is not read", "3B 80 81 B1 20 45 70 FF FF FF tck", REPORT_OF_P1),
    ACCEPTED("15 historical bytes", "3B 8F 81 31 20 45 AA*15 tck", 32, 1, 15, 1, 372, 12, 43, 15371),
    ACCEPTED("an ATR of 33 bytes", "3B FF 11 AB 00 F1 01 AB AB F1 20 45 00 71 AB AB AB AA*15 tck", 32, 1, 15, 1, 372,
             12, 43, 15371),
};

static const struct atr refused_atrs[] = {
    REFUSED("P3: 2^CWI of 1 is below N + 1", "3B E0 00 01 81 31 20 40 31", 12),
    REFUSED("P5: an empty ATR", "", 9),
    REFUSED("P6: the single byte 3C", "3C", 8),
    REFUSED("a wrong TS comes before a wrong TCK", "3C E0 00 00 81 31 20 45 00", 8),
    REFUSED("TS alone", "3B", 9),
    REFUSED("ends within a group", "3B E0 00 00", 9),
    REFUSED("ends before TB3", "3B E0 00 00 81 31 20", 9),
    REFUSED("TCK is missing", "3B E0 00 00 81 31 20 45", 9),
    REFUSED("one byte too many", "3B E0 00 00 81 31 20 45 35 00", 9),
    REFUSED("a historical byte is missing", "3B 81 81 31 20 45 tck", 9),
    REFUSED("34 bytes", "3B FF 11 AB 00 F1 01 AB AB F1 20 45 00 F1 AB AB AB 01 AA*15 tck", 9),
    REFUSED("T=0 alone has no TCK", "3B 00 00", 9),
    REFUSED("a wrong TCK", "3B E0 00 00 81 31 20 45 34", 10),
    REFUSED("a wrong TCK comes before a wrong protocol", "3B 80 80 31 20 45 00", 10),
    REFUSED("TD1 is absent", "3B 00", 11),
    REFUSED("TD1 names T=0, without TCK", "3B 80 00", 11),
    REFUSED("TD1 names T=0, TD2 T=1", "3B 80 80 31 20 45 tck", 11),
    REFUSED("TD1 names T=15", "3B 80 8F 31 20 45 tck", 11),
    REFUSED("TD2 names T=0", "3B 80 81 30 20 45 tck", 11),
    REFUSED("TD2 names T=15", "3B 80 81 3F 20 45 tck", 11),
    REFUSED("TA2 with b5", "3B 80 91 11 31 20 45 tck", 11),
    REFUSED("TA2 names T=0", "3B 80 91 00 31 20 45 tck", 11),
    REFUSED("a wrong protocol comes before a wrong TA3", "3B 80 80 31 FF 45 tck", 11),
    REFUSED("no third group, so no TB3", "3B 80 01 tck", 12),
    REFUSED("TB3 is absent", "3B 80 81 11 20 tck", 12),
    REFUSED("TC3 of 01", "3B 80 81 71 20 45 01 tck", 12),
    REFUSED("TC3 of FF", "3B 80 81 71 20 45 FF tck", 12),
};

static void refuse_atr(int line, const char *says, const char *bytes, uint64_t number)
{
    struct call c = a_call(ATTACH, 0);
    c.input_len = give(bytes);
    expect_refusal_at(line, __FILE__, says, &c, number);
}

/* Attach to the empty slot 0, accepted (and removed again) or refused. */
static void try_atr(int line, const char *says, const char *bytes, uint64_t number, const struct attached *fields)
{
    if (number != 0) {
        refuse_atr(line, says, bytes, number);
        return;
    }
    attach_at(line, __FILE__, says, 0, bytes, fields);
    empty(0);
}

/* One byte of an ATR through all its values. */
static void every_ta1(void)
{
    static const uint32_t f[16] = {372, 372, 558, 744, 1116, 1488, 1860, 0, 0, 512, 768, 1024, 1536, 2048, 0, 0};
    static const uint32_t d[16] = {0, 1, 2, 4, 8, 16, 32, 64, 12, 20, 0, 0, 0, 0, 0, 0};
    char text[64];
    unsigned ta1;
    for (ta1 = 0; ta1 < 256; ta1++) {
        const int ours = ta1 >= 0x11 && ta1 <= 0x13;
        struct attached fields = {32, 1, 0, d[ta1 & 15u], f[ta1 >> 4], 12, 43, WAIT};
        snprintf(text, sizeof text, "3B 90 %02X 81 31 20 45 tck", ta1);
        try_atr(__LINE__, words("TA1 of %02X offers F and D", ta1), text, 0, &fields);
        fields.d_in_use = fields.d_offered;
        snprintf(text, sizeof text, "3B 90 %02X 91 01 31 20 45 tck", ta1);
        try_atr(__LINE__, words("with TA2, TA1 of %02X", ta1), text, ours ? 0 : 12, &fields);
    }
}

static void every_ta3(void)
{
    char text[64];
    unsigned ta3;
    for (ta3 = 0; ta3 < 256; ta3++) {
        const struct attached fields = {ta3, 1, 0, 1, 372, 12, 43, WAIT};
        snprintf(text, sizeof text, "3B 80 81 31 %02X 45 tck", ta3);
        try_atr(__LINE__, words("TA3 of %02X", ta3), text, ta3 < 0x10 || ta3 == 0xFF ? 12 : 0, &fields);
    }
}

static void every_tb3(void)
{
    char text[64];
    unsigned tb3;
    for (tb3 = 0; tb3 < 256; tb3++) {
        const unsigned bwi = tb3 >> 4, cwi = tb3 & 15u;
        const struct attached fields = {32, 1, 0, 1, 372, 12, (1u << cwi) + 11u, (960u << bwi) + 11u};
        snprintf(text, sizeof text, "3B 80 81 31 20 %02X tck", tb3);
        try_atr(__LINE__, words("TB3 of %02X", tb3), text, bwi > 4 || cwi > 5 ? 12 : 0, &fields);
    }
}

static void every_tc1(void)
{
    char text[64];
    unsigned tc1, cwi;
    for (tc1 = 0; tc1 < 256; tc1++) {
        for (cwi = 0; cwi < 6; cwi++) {
            const unsigned n_plus_1 = tc1 == 255 ? 0 : tc1 + 1;
            const struct attached fields = {32, 1, 0, 1, 372, 11u + n_plus_1, (1u << cwi) + 11u, WAIT};
            snprintf(text, sizeof text, "3B C0 %02X 81 31 20 4%X tck", tc1, cwi);
            try_atr(__LINE__, words("TC1 of %02X with a CWI of %u", tc1, cwi), text, 1u << cwi < n_plus_1 ? 12 : 0,
                    &fields);
        }
    }
}

void atrs(void)
{
    const struct atr *a;
    open_even(12, 96);
    for (a = accepted_atrs; a < accepted_atrs + sizeof accepted_atrs / sizeof *a; a++)
        try_atr(a->line, a->says, a->bytes, 0, &a->fields);
    for (a = refused_atrs; a < refused_atrs + sizeof refused_atrs / sizeof *a; a++)
        try_atr(a->line, a->says, a->bytes, a->number, NULL);
    PART(every_ta1);
    PART(every_ta3);
    PART(every_tb3);
    PART(every_tc1);
}
