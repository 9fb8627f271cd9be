/* Blocks: each is the first event of a busy slot with r = 0 and a standing I-block without more. */
#include "calls.h"

struct block {
    int line;
    const char *says, *bytes, *answer;
};

/* clang-format off */
#define BLOCK(says, bytes, answer) {__LINE__, says, bytes, answer}
/* clang-format on */

static const struct block list[] = {
    BLOCK("no bytes", "", OTHER),
    BLOCK("three bytes", "00 00 00", OTHER),
    BLOCK("shorter than LEN says", "00 00 03 90 00 93", OTHER),
    BLOCK("longer than LEN says", "00 00 01 90 00 91", OTHER),
    BLOCK("a wrong length comes before a wrong LRC", "00 00 03 90 00 00", OTHER),
    BLOCK("LEN of 255", "00 00 FF 11*255 lrc", OTHER),
    BLOCK("LEN of 255 comes before a wrong LRC", "00 00 FF 11*255 00", OTHER),
    BLOCK("a wrong LRC", "00 00 02 90 00 93", EDC),
    BLOCK("a wrong LRC comes before a wrong NAD", "01 00 02 90 00 92", EDC),
    BLOCK("a wrong LRC comes before a wrong PCB", "00 10 02 90 00 92", EDC),
    BLOCK("a wrong LRC comes before an empty I-block", "00 00 00 01", EDC),
    BLOCK("NAD of 01", "01 00 02 90 00 93", OTHER),
    BLOCK("NAD of 80", "80 00 02 90 00 12", OTHER),
    BLOCK("an empty I-block", "00 00 00 00", OTHER),
    BLOCK("an I-block with the other number", "00 40 02 90 00 D2", OTHER),
    BLOCK("an I-block with the other number and more", "00 60 02 90 00 F2", OTHER),
    BLOCK("R(1) fits no row", "00 90 00 90", OTHER),
    BLOCK("R(0) asks for the I-block again", "00 80 00 80", SELECT_0),
    BLOCK("R(0) with nibble 1 too", "00 81 00 81", SELECT_0),
    BLOCK("R(0) with nibble 2 too", "00 82 00 82", SELECT_0),
    BLOCK("R(0) with a byte", "00 80 01 00 81", OTHER),
    BLOCK("IFS request of 0F", "00 C1 01 0F CF", OTHER),
    BLOCK("IFS request of 10", "00 C1 01 10 D0", "00 E1 01 10 F0"),
    BLOCK("IFS request of FE", "00 C1 01 FE 3E", "00 E1 01 FE 1E"),
    BLOCK("IFS request of FF", "00 C1 01 FF 3F", OTHER),
    BLOCK("IFS request without a byte", "00 C1 00 C1", OTHER),
    BLOCK("IFS request with two bytes", "00 C1 02 20 20 C3", OTHER),
    BLOCK("IFS response fits no row", IFS_RESPONSE, OTHER),
    BLOCK("IFS response of 0F", "00 E1 01 0F EF", OTHER),
    BLOCK("abort request with a byte", "00 C2 01 00 C3", OTHER),
    BLOCK("WTX request of 00", "00 C3 01 00 C2", OTHER),
    BLOCK("WTX request of 01", "00 C3 01 01 C3", "00 E3 01 01 E3"),
    BLOCK("WTX request without a byte", "00 C3 00 C3", OTHER),
    BLOCK("WTX request with two bytes", "00 C3 02 01 01 C1", OTHER),
    BLOCK("I-block with 254 bytes and more", "00 20 FE 11*254 lrc", "00 90 00 90"),
};

static void first_events(void)
{
    static const struct step faults[] = {
        STEP("bytes given with a parity fault are not looked at", ON_PARITY(0), SEND(2, WAIT, EDC)),
        STEP("bytes given with silence are not looked at", ON_SILENCE(0), SEND(2, WAIT, OTHER)),
    };
    const struct block *b;
    size_t i;
    for (b = list; b < list + sizeof list / sizeof *b; b++) {
        const struct step step = {b->line, __FILE__, b->says, ON_CARD(0, b->bytes), SEND(2, WAIT, b->answer)};
        busy(0);
        play(&step, 1);
        empty(0);
    }
    for (i = 0; i < 2; i++) {
        struct step step = faults[i];
        step.input = "00 00 02 90 00 92";
        busy(0);
        play(&step, 1);
        empty(0);
    }
}

/* The 242 PCBs that are neither I, R nor S, without and with one INF byte. */
static void other_pcbs(void)
{
    static const uint8_t known[14] = {0x00, 0x20, 0x40, 0x60, 0x80, 0x81, 0x82,
                                      0x90, 0x91, 0x92, 0xC1, 0xE1, 0xC2, 0xC3};
    char bare[32], with_byte[32];
    unsigned pcb, others = 0;
    for (pcb = 0; pcb < 256; pcb++) {
        const struct step steps[] = {
            STEP("no INF", ON_CARD(0, bare), SEND(2, WAIT, OTHER)),
            STEP("one INF byte: R as it was", ON_CARD(0, with_byte), SEND(3, WAIT, OTHER)),
        };
        if (memchr(known, (int)pcb, sizeof known) != NULL)
            continue;
        others++;
        snprintf(bare, sizeof bare, "00 %02X 00 lrc", pcb);
        snprintf(with_byte, sizeof with_byte, "00 %02X 01 20 lrc", pcb);
        busy(0);
        PLAY(steps);
        empty(0);
    }
    begin(__LINE__, __FILE__, "PCBs that are other");
    same_number("how many", 242, others);
    finish();
}

void blocks(void)
{
    open_even(12, 96);
    PART(first_events);
    PART(other_pcbs);
}
