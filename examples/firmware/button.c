/* Counts how often the button on pin 3 is pressed, by the pin's edge interrupt, and lights pin 25 meanwhile. Run with
   --script examples/button.script. */
#include "rp2040.h"

#define INTR0 WORD(0x400140f0)
#define PROC0_INTE0 WORD(0x40014100)
#define PAD(pin) WORD(0x4001c004 + 4 * (pin))
enum { EDGE_LOW_PIN3 = 1 << 14, EDGE_HIGH_PIN3 = 1 << 15, PULL_UP_AND_INPUT = 0x48 };

static volatile int presses, releases;

static void on_edge(void)
{
    uint32_t edges = INTR0 & (EDGE_LOW_PIN3 | EDGE_HIGH_PIN3);
    INTR0 = edges;
    if (edges & EDGE_LOW_PIN3) {
        presses++;
        GPIO_OUT_SET = 1u << 25;
    }
    if (edges & EDGE_HIGH_PIN3) {
        releases++;
        GPIO_OUT_CLR = 1u << 25;
    }
}

static void (*const vectors[48])(void) __attribute__((aligned(256))) = {[16 + 13] = on_edge};

int main(void)
{
    VTOR = (uint32_t)vectors;
    GPIO_CTRL(25) = FUNCTION_SIO;
    GPIO_OE_SET = 1u << 25;
    PAD(3) = PULL_UP_AND_INPUT;
    PROC0_INTE0 = EDGE_LOW_PIN3 | EDGE_HIGH_PIN3;
    INTR0 = EDGE_LOW_PIN3 | EDGE_HIGH_PIN3;
    NVIC_ISER = 1 << 13;
    while (releases < 2)
        __asm volatile("wfi");
    return presses;
}
