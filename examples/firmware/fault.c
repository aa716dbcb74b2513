/* A program with a fault, for the debugger's tour: after some 100,000 cycles a store goes through a pointer that a loop
   has written over. */
#include "rp2040.h"

static struct {
    uint32_t samples[16];
    volatile uint32_t *volatile sink;
} state;

static uint32_t cell;

int main(void)
{
    state.sink = &cell;
    for (uint32_t round = 0; round < 900; round++) {
        /* from round 840 on one sample too many is taken, and it lands on the pointer */
        uint32_t count = round < 840 ? 16 : 17;
        for (uint32_t i = 0; i < count; i++)
            ((volatile uint32_t *)state.samples)[i] = 0x10000000 + 4 * round;
        *state.sink = round;
    }
    return 0;
}
