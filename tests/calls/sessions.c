/* Sessions: P7 to P10, and the rows of the table. */
#include "calls.h"

static void first_session(void)
{
    static const struct step steps[] = {
        STEP("P8: the command goes", ON_COMMAND(0, SELECT), SEND(1, WAIT, "00 00 04 00 A4 04 00 A4")),
        STEP("P8: the response is whole", ON_CARD(0, "00 00 02 90 00 92"), DONE(1)),
        STEP("P8: collect delivers 90 00", ON_COLLECT(0), GIVE("90 00")),
        STEP("s runs on: the next I-block is number 1", ON_COMMAND(0, SELECT), SEND(1, WAIT, SELECT_1)),
        STEP("r runs on: a parity fault sends R(1)", ON_PARITY(0), SEND(2, WAIT, "00 91 00 91")),
        STEP("the response numbered 1 is taken", ON_CARD(0, "00 40 02 6A 82 lrc"), DONE(2)),
        STEP("collect delivers 6A 82", ON_COLLECT(0), GIVE("6A 82")),
        STEP("the third command's I-block is number 0", ON_COMMAND(0, "00 B0 00 00 00"),
             SEND(1, WAIT, "00 00 05 00 B0 00 00 00 B5")),
        STEP("P9: a parity fault sends R with nibble 1", ON_PARITY(0), SEND(2, WAIT, "00 81 00 81")),
        STEP("the late answer is taken", ON_CARD(0, "00 00 02 90 00 92"), DONE(2)),
        STEP("a done slot is removed", ON_REMOVE(0), EMPTY),
    };
    ready(0); /* P7 */
    PLAY(steps);
}

static void silence_and_wtx(void)
{
    static const struct step silent[] = {
        STEP("P9: silence sends R with nibble 2", ON_SILENCE(0), SEND(2, WAIT, "00 82 00 82")),
        STEP("a busy slot is removed", ON_REMOVE(0), EMPTY),
    };
    static const struct step wtx[] = {
        STEP("P10: WTX of 3 waits 3 x BWT", ON_CARD(0, "00 C3 01 03 C1"), SEND(2, 3 * WAIT, "00 E3 01 03 E1")),
        STEP("then a fault waits 1 x BWT", ON_SILENCE(0), SEND(3, WAIT, "00 82 00 82")),
        STEP("WTX of 255", ON_CARD(0, "00 C3 01 FF 3D"), SEND(4, 255 * WAIT, "00 E3 01 FF 1D")),
        STEP("the response is whole", ON_CARD(0, "00 00 02 90 00 92"), DONE(4)),
        STEP("a done slot is removed", ON_REMOVE(0), EMPTY),
    };
    busy(0);
    PLAY(silent);
    busy(0);
    PLAY(wtx);
}

static void greeting(void)
{
    static const struct attached p1 = {REPORT_OF_P1};
    static const struct step goes[] = {
        STEP("silence: the IFS request again", ON_SILENCE(0), GREET(2)),
        STEP("a parity fault: go 3", ON_PARITY(0), GREET(3)),
        STEP("go 4 is not sent", ON_SILENCE(0), END(21, 3)),
        STEP("an ended slot is removed", ON_REMOVE(0), EMPTY),
    };
    static const struct step others[] = {
        STEP("an IFS response with another byte is invalid", ON_CARD(0, "00 E1 01 20 C0"), GREET(2)),
        STEP("so is an IFS request", ON_CARD(0, "00 C1 01 FE 3E"), GREET(3)),
        STEP("the right answer at go 3 is in time", ON_CARD(0, IFS_RESPONSE), READY(3)),
        STEP("a command counts from 1 again", ON_COMMAND(0, SELECT), SEND(1, WAIT, SELECT_0)),
        STEP("a busy slot is removed", ON_REMOVE(0), EMPTY),
    };
    static const struct step abort_asked[] = {
        STEP("an abort request ends with 22", ON_CARD(0, "00 C2 00 C2"), END(22, 1)),
        STEP("an ended slot takes no event", ON_CARD(0, IFS_RESPONSE), REFUSE(4)),
        STEP("an ended slot is removed", ON_REMOVE(0), EMPTY),
    };
    attach("attach after remove", 0, P1_ATR, &p1);
    PLAY(goes);
    attach("attach after ending 21", 0, P1_ATR, &p1);
    PLAY(others);
    attach("attach after remove", 0, P1_ATR, &p1);
    PLAY(abort_asked);
}

/* A command of 70 bytes over IFSC 32, with repeats. */
static void chained_command(void)
{
    static const struct step steps[] = {
        STEP("32 bytes and more", ON_COMMAND(0, "cmd:0+70"), SEND(1, WAIT, "00 20 20 cmd:0+32 lrc")),
        STEP("R(0) asks for it again", ON_CARD(0, "00 80 00 80"), SEND(2, WAIT, "00 20 20 cmd:0+32 lrc")),
        STEP("R(1) takes the next", ON_CARD(0, "00 90 00 90"), SEND(3, WAIT, "00 60 20 cmd:32+32 lrc")),
        STEP("R(1) asks again, whatever its nibble", ON_CARD(0, "00 92 00 92"),
             SEND(4, WAIT, "00 60 20 cmd:32+32 lrc")),
        STEP("and once more: go 3", ON_CARD(0, "00 91 00 91"), SEND(5, WAIT, "00 60 20 cmd:32+32 lrc")),
        STEP("R(0) takes the last 6 bytes", ON_CARD(0, "00 82 00 82"), SEND(6, WAIT, "00 00 06 cmd:64+6 lrc")),
        STEP("R(1) now fits no row", ON_CARD(0, "00 90 00 90"), SEND(7, WAIT, "00 82 00 82")),
        STEP("R(0) asks for the last again: go 3", ON_CARD(0, "00 80 00 80"), SEND(8, WAIT, "00 00 06 cmd:64+6 lrc")),
        STEP("the response is whole", ON_CARD(0, "00 00 02 90 00 92"), DONE(8)),
        STEP("collect delivers it", ON_COLLECT(0), GIVE("90 00")),
        STEP("after number 0 comes number 1", ON_COMMAND(0, SELECT), SEND(1, WAIT, SELECT_1)),
        STEP("a busy slot is removed", ON_REMOVE(0), EMPTY),
    };
    static const struct step early[] = {
        STEP("32 bytes and more", ON_COMMAND(0, "cmd:0+70"), SEND(1, WAIT, "00 20 20 cmd:0+32 lrc")),
        STEP("an I-block before the command's end", ON_CARD(0, "00 00 02 90 00 92"), SEND(2, WAIT, "00 82 00 82")),
        STEP("a parity fault: R as it was", ON_PARITY(0), SEND(3, WAIT, "00 82 00 82")),
        STEP("go 4 is not sent", ON_CARD(0, "00 80 00 80"), END(21, 3)),
        STEP("an ended slot is removed", ON_REMOVE(0), EMPTY),
    };
    long_command_data_len = 65;
    ready(0);
    PLAY(steps);
    ready(0);
    PLAY(early);
}

/* The card changes IFSC within a command: a repeat stays as it was, the next cut is the new one. */
static void changed_ifsc(void)
{
    static const struct step steps[] = {
        STEP("32 bytes and more", ON_COMMAND(0, "cmd:0+70"), SEND(1, WAIT, "00 20 20 cmd:0+32 lrc")),
        STEP("IFSC becomes 16", ON_CARD(0, "00 C1 01 10 D0"), SEND(2, WAIT, "00 E1 01 10 F0")),
        STEP("the repeat has its 32 bytes", ON_CARD(0, "00 80 00 80"), SEND(3, WAIT, "00 20 20 cmd:0+32 lrc")),
        STEP("the next has 16", ON_CARD(0, "00 90 00 90"), SEND(4, WAIT, "00 60 10 cmd:32+16 lrc")),
        STEP("IFSC becomes 254", ON_CARD(0, "00 C1 01 FE 3E"), SEND(5, WAIT, "00 E1 01 FE 1E")),
        STEP("the repeat has its 16 bytes", ON_CARD(0, "00 90 00 90"), SEND(6, WAIT, "00 60 10 cmd:32+16 lrc")),
        STEP("IFSC becomes 17", ON_CARD(0, "00 C1 01 11 D1"), SEND(7, WAIT, "00 E1 01 11 F1")),
        STEP("the next has 17", ON_CARD(0, "00 80 00 80"), SEND(8, WAIT, "00 20 11 cmd:48+17 lrc")),
        STEP("the last has 5", ON_CARD(0, "00 90 00 90"), SEND(9, WAIT, "00 40 05 cmd:65+5 lrc")),
        STEP("the response is whole", ON_CARD(0, "00 00 02 90 00 92"), DONE(9)),
        STEP("collect delivers it", ON_COLLECT(0), GIVE("90 00")),
        STEP("IFSC stays 17 for the next command", ON_COMMAND(0, "cmd:0+70"), SEND(1, WAIT, "00 20 11 cmd:0+17 lrc")),
        STEP("a busy slot is removed", ON_REMOVE(0), EMPTY),
    };
    long_command_data_len = 65;
    ready(0);
    PLAY(steps);
}

/* A response of several I-blocks, repeats and faults between. */
static void chained_response(void)
{
    static const struct step steps[] = {
        STEP("more to come: R(1)", ON_CARD(0, "00 20 02 11 22 lrc"), SEND(2, WAIT, "00 90 00 90")),
        STEP("the same I-block again is not stored", ON_CARD(0, "00 20 02 11 22 lrc"), SEND(3, WAIT, "00 90 00 90")),
        STEP("the next: R(0)", ON_CARD(0, "00 60 03 33 44 55 lrc"), SEND(4, WAIT, "00 80 00 80")),
        STEP("a parity fault: R(0) as it was", ON_PARITY(0), SEND(5, WAIT, "00 80 00 80")),
        STEP("silence: R(0) as it was", ON_SILENCE(0), SEND(6, WAIT, "00 80 00 80")),
        STEP("the last", ON_CARD(0, "00 00 01 66 lrc"), DONE(6)),
        STEP("collect delivers each once, in order", ON_COLLECT(0), GIVE("11 22 33 44 55 66")),
        STEP("a ready slot is removed", ON_REMOVE(0), EMPTY),
    };
    static const struct step standing[] = {
        STEP("more to come: R(1)", ON_CARD(0, "00 20 01 90 lrc"), SEND(2, WAIT, "00 90 00 90")),
        STEP("WTX", ON_CARD(0, "00 C3 01 02 C0"), SEND(3, 2 * WAIT, "00 E3 01 02 E0")),
        STEP("R(1) asks for the standing R", ON_CARD(0, "00 91 00 91"), SEND(4, WAIT, "00 90 00 90")),
        STEP("WTX", ON_CARD(0, "00 C3 01 02 C0"), SEND(5, 2 * WAIT, "00 E3 01 02 E0")),
        STEP("R(0) fits no row", ON_CARD(0, "00 80 00 80"), SEND(6, WAIT, "00 92 00 92")),
        STEP("R(1) asks for the standing R, not the last", ON_CARD(0, "00 90 00 90"), SEND(7, WAIT, "00 90 00 90")),
        STEP("one byte more makes two", ON_CARD(0, "00 40 01 00 lrc"), DONE(7)),
        STEP("collect delivers 90 00", ON_COLLECT(0), GIVE("90 00")),
        STEP("a ready slot is removed", ON_REMOVE(0), EMPTY),
    };
    busy(0);
    PLAY(steps);
    busy(0);
    PLAY(standing);
}

static void three_goes(void)
{
    static const struct step renewed[] = {
        STEP("a parity fault: go 2", ON_PARITY(0), SEND(2, WAIT, "00 81 00 81")),
        STEP("silence: R as it was, go 3", ON_SILENCE(0), SEND(3, WAIT, "00 81 00 81")),
        STEP("an S-response is go 1", ON_CARD(0, "00 C3 01 01 C3"), SEND(4, WAIT, "00 E3 01 01 E3")),
        STEP("silence: go 2", ON_SILENCE(0), SEND(5, WAIT, "00 82 00 82")),
        STEP("a parity fault: R as it was, go 3", ON_PARITY(0), SEND(6, WAIT, "00 82 00 82")),
        STEP("an error-free R is go 1", ON_CARD(0, "00 20 01 90 lrc"), SEND(7, WAIT, "00 90 00 90")),
        STEP("go 2", ON_PARITY(0), SEND(8, WAIT, "00 90 00 90")),
        STEP("go 3", ON_PARITY(0), SEND(9, WAIT, "00 90 00 90")),
        STEP("go 4 is not sent: ending 21", ON_PARITY(0), END(21, 9)),
        STEP("an ended slot takes no command", ON_COMMAND(0, SELECT), REFUSE(4)),
        STEP("an ended slot has nothing to collect", ON_COLLECT(0), REFUSE(4)),
        STEP("an ended slot is removed", ON_REMOVE(0), EMPTY),
    };
    static const struct step mixed[] = {
        STEP("R(0) asks again: go 2", ON_CARD(0, "00 80 00 80"), SEND(2, WAIT, SELECT_0)),
        STEP("a parity fault: go 3", ON_PARITY(0), SEND(3, WAIT, "00 81 00 81")),
        STEP("go 4 is not sent: ending 21", ON_CARD(0, "00 82 00 82"), END(21, 3)),
        STEP("an ended slot is removed", ON_REMOVE(0), EMPTY),
    };
    busy(0);
    PLAY(renewed);
    busy(0);
    PLAY(mixed);
}

static void endings(void)
{
    static const struct step aborted[] = {
        STEP("more to come: R(1)", ON_CARD(0, "00 20 02 11 22 lrc"), SEND(2, WAIT, "00 90 00 90")),
        STEP("an abort request ends with 22", ON_CARD(0, "00 C2 00 C2"), END(22, 2)),
        STEP("an ended slot is removed", ON_REMOVE(0), EMPTY),
    };
    static const struct step one_byte[] = {
        STEP("a response of one byte ends with 23", ON_CARD(0, "00 00 01 90 91"), END(23, 1)),
        STEP("an ended slot is removed", ON_REMOVE(0), EMPTY),
    };
    busy(0);
    PLAY(aborted);
    busy(0);
    PLAY(one_byte);
}

/* Two slots in turn: each has its own numbers, IFSC and counts. */
static void two_slots(void)
{
    static const struct step steps[] = {
        STEP("slot 2 sends", ON_COMMAND(2, SELECT), SEND(1, WAIT, SELECT_0)),
        STEP("slot 7 is answered in between", ON_CARD(7, "00 20 02 11 22 lrc"), SEND(2, WAIT, "00 90 00 90")),
        STEP("slot 2: IFSC becomes 16", ON_CARD(2, "00 C1 01 10 D0"), SEND(2, WAIT, "00 E1 01 10 F0")),
        STEP("slot 7: silence", ON_SILENCE(7), SEND(3, WAIT, "00 90 00 90")),
        STEP("slot 2 is done", ON_CARD(2, "00 00 02 6A 82 lrc"), DONE(2)),
        STEP("slot 7 is done", ON_CARD(7, "00 40 02 90 00 lrc"), DONE(3)),
        STEP("slot 2 delivers its own", ON_COLLECT(2), GIVE("6A 82")),
        STEP("slot 7 delivers its own", ON_COLLECT(7), GIVE("11 22 90 00")),
        STEP("slot 2 cuts at 16", ON_COMMAND(2, "cmd:0+70"), SEND(1, WAIT, "00 60 10 cmd:0+16 lrc")),
        STEP("slot 7 cuts at 32", ON_COMMAND(7, "cmd:0+70"), SEND(1, WAIT, "00 60 20 cmd:0+32 lrc")),
        STEP("slot 2 is removed", ON_REMOVE(2), EMPTY),
        STEP("slot 7 goes on", ON_CARD(7, "00 80 00 80"), SEND(2, WAIT, "00 20 20 cmd:32+32 lrc")),
        STEP("slot 7 is removed", ON_REMOVE(7), EMPTY),
    };
    long_command_data_len = 65;
    ready(2);
    busy(7);
    PLAY(steps);
}

void sessions(void)
{
    open_even(12, 96);
    PART(first_session);
    PART(silence_and_wtx);
    PART(greeting);
    PART(chained_command);
    PART(changed_ifsc);
    PART(chained_response);
    PART(three_goes);
    PART(endings);
    PART(two_slots);
}

/* C1 and C3 in turn, count of them, answered. */
static void requests(uint64_t slot, unsigned count)
{
    unsigned i;
    for (i = 1; i <= count; i++) {
        const struct step ifs =
            STEP("an IFS request", ON_CARD(slot, "00 C1 01 20 E0"), SEND(1 + i, WAIT, "00 E1 01 20 C0"));
        const struct step wtx =
            STEP("a WTX request", ON_CARD(slot, "00 C3 01 02 C0"), SEND(1 + i, 2 * WAIT, "00 E3 01 02 E0"));
        play(i % 2 == 1 ? &ifs : &wtx, 1);
    }
}

void too_many_requests(void)
{
    static const struct step again[] = {
        STEP("after 255 requests the response is taken", ON_CARD(0, "00 00 02 90 00 92"), DONE(256)),
        STEP("collect delivers it", ON_COLLECT(0), GIVE("90 00")),
        STEP("the next command", ON_COMMAND(0, SELECT), SEND(1, WAIT, SELECT_1)),
    };
    static const struct step ifs[] = {
        STEP("the 256th, an IFS request, ends with 24", ON_CARD(0, "00 C1 01 20 E0"), END(24, 256)),
        STEP("an ended slot is removed", ON_REMOVE(0), EMPTY),
    };
    static const struct step wtx[] = {
        STEP("a request that does not read well is not counted", ON_CARD(0, "00 C3 01 00 C2"),
             SEND(257, WAIT, "00 82 00 82")),
        STEP("the 256th, a WTX request, ends with 24", ON_CARD(0, "00 C3 01 02 C0"), END(24, 257)),
        STEP("an ended slot is removed", ON_REMOVE(0), EMPTY),
    };
    busy(0);
    requests(0, 255);
    PLAY(again);
    requests(0, 255);
    PLAY(ifs);
    busy(0);
    requests(0, 255);
    PLAY(wtx);
}
