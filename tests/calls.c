/*
 * Runs the six calls of rack.h and compares every answer: the number, the record, the output, and the bytes that have to
 * stay: of a refusal all, of other calls the other slots' own bytes, mark, version and unused bytes of the table, and the
 * rest of output and record. Every buffer is lent with guard bytes before and behind. Expected values were worked out from
 * document 01; none was taken from the library. Where a slot's bytes stand is docs/LAYOUT.md's.
 */
#include "calls/calls.h"

/* Longer table, output and record than needed: the answers are the same, and the bytes beyond stay. */
static void lend_more(void)
{
    lend.table += 300;
    lend.output += 200;
    lend.record += 100;
}

int main(void)
{
    int buffer;
    for (buffer = 0; buffer < BUFFERS; buffer++)
        fill(buffer, (unsigned)buffer);
    PART(atrs);
    PART(sessions);
    PART(too_many_requests);
    PART(blocks);
    PART(commands);
    PART(pool);
    PART(refusals);
    lend_more();
    PART(sessions);
    PART(p11);
    PART(refusals);
    return summary();
}
