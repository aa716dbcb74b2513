/* Core 0 starts core 1 by its mailbox, sends it numbers and prints each answer on the pins 0 to 7. */
#include "rp2040.h"

static uint32_t stack[64];

static void put(uint32_t word)
{
    while (!(FIFO_ST & FIFO_READY))
        ;
    FIFO_WR = word;
    __asm volatile("sev");
}

static uint32_t get(void)
{
    while (!(FIFO_ST & FIFO_VALID))
        __asm volatile("wfe");
    return FIFO_RD;
}

static void squares(void)
{
    for (;;) {
        uint32_t n = get();
        put(n * n);
    }
}

int main(void)
{
    const uint32_t start[] = {0, 0, 1, 0, (uint32_t)(stack + 64), (uint32_t)squares};
    for (int i = 0; i < 6; i++) {
        FIFO_WR = start[i];
        while (!(FIFO_ST & FIFO_VALID))
            ;
        (void)FIFO_RD;
    }
    for (int pin = 0; pin < 8; pin++)
        GPIO_CTRL(pin) = FUNCTION_SIO;
    GPIO_OE_SET = 0xff;
    for (uint32_t n = 1; n <= 5; n++) {
        put(n);
        uint32_t square = get();
        GPIO_OUT_CLR = 0xff;
        GPIO_OUT_SET = square;
    }
    return 0;
}
