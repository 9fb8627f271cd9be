/* Commands: their forms and their cuts. */
#include "calls.h"

/* A command of len bytes whose fifth is data_len, on a ready slot 0 with IFSC 254: refused with 7, or sent. */
static void command_form(unsigned len, unsigned data_len, int accepted)
{
    char text[32], block[48];
    const unsigned first = len < 254 ? len : 254;
    struct step step = {__LINE__, __FILE__, "", ON_COMMAND(0, text), REFUSE(7)};
    const struct step sent = {__LINE__, __FILE__, "", ON_COMMAND(0, text), SEND(1, WAIT, block)};
    long_command_data_len = (uint8_t)data_len;
    snprintf(text, sizeof text, "cmd:0+%u", len);
    snprintf(block, sizeof block, "00 %02X %02X cmd:0+%u lrc", len > 254 ? 0x20u : 0u, first, first);
    if (accepted)
        step = sent;
    step.says = words("a command of %u bytes, the fifth %u", len, data_len);
    play(&step, 1);
    if (accepted) {
        empty(0);
        ready_with(0, P4_ATR, 254, 4);
    }
}

static void command_forms(void)
{
    static const struct {
        unsigned len, data_len;
        int accepted;
    } forms[] = {
        {0, 0, 0},     {1, 0, 0},     {3, 0, 0},     {4, 0, 1},     {5, 0, 1},     {5, 1, 1},   {5, 255, 1},
        {6, 0, 0},     {6, 1, 1},     {6, 2, 0},     {7, 1, 1},     {7, 2, 1},     {7, 0, 0},   {8, 1, 0},
        {8, 2, 1},     {254, 249, 1}, {254, 248, 1}, {254, 250, 0}, {255, 249, 1}, {256, 0, 0}, {256, 250, 1},
        {259, 254, 1}, {260, 254, 1}, {260, 255, 1}, {261, 255, 1}, {261, 254, 0}, {261, 0, 0}, {262, 255, 0},
        {262, 0, 0},   {263, 1, 0},   {300, 39, 0},  {517, 255, 0},
    };
    size_t i;
    ready_with(0, P4_ATR, 254, 4);
    for (i = 0; i < sizeof forms / sizeof forms[0]; i++)
        command_form(forms[i].len, forms[i].data_len, forms[i].accepted);
    empty(0);
}

/* 261 bytes over IFSC 254: the longest block sent fills an output of 258 bytes. */
static void longest_block(void)
{
    static const struct step steps[] = {
        STEP("254 bytes and more", ON_COMMAND(0, "cmd:0+261"), SEND(1, WAIT, "00 20 FE cmd:0+254 lrc")),
        STEP("the same again", ON_CARD(0, "00 81 00 81"), SEND(2, WAIT, "00 20 FE cmd:0+254 lrc")),
        STEP("the last 7", ON_CARD(0, "00 90 00 90"), SEND(3, WAIT, "00 40 07 cmd:254+7 lrc")),
        STEP("a busy slot is removed", ON_REMOVE(0), EMPTY),
    };
    long_command_data_len = 255;
    ready_with(0, P4_ATR, 254, 4);
    PLAY(steps);
}

void commands(void)
{
    open_even(12, 96);
    PART(command_forms);
    PART(longest_block);
}
