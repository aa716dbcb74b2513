/* A shift register of eight bits, as a 74HC595 with its last output alone, read back: pins 10 and 11 are its clock and its data, and pin 12 is
   its output. Two bytes go in, and while the second does the first comes out. Run with --part 1=10+11+12. It leaves in R0 the byte
   that came out, and ends with a light at pin 25 where it is the one that went in. */
#include "rp2040.h"

#define GPIO_IN WORD(0xd0000004)
enum { CLOCK = 10, DATA = 11, OUT = 12, LED = 25 };

static void wait(void)
{
    for (int i = 0; i < 4; i++)
        __asm volatile("nop");
}

/* sends a byte, from the highest bit, and gives what came out before each shift */
static uint32_t exchange(uint32_t byte)
{
    uint32_t back = 0;
    for (int bit = 7; bit >= 0; bit--) {
        if (byte >> bit & 1)
            GPIO_OUT_SET = 1u << DATA;
        else
            GPIO_OUT_CLR = 1u << DATA;
        wait();
        back = 2 * back + (GPIO_IN >> OUT & 1);
        GPIO_OUT_SET = 1u << CLOCK;
        wait();
        GPIO_OUT_CLR = 1u << CLOCK;
    }
    return back;
}

int main(void)
{
    GPIO_CTRL(CLOCK) = FUNCTION_SIO;
    GPIO_CTRL(DATA) = FUNCTION_SIO;
    GPIO_CTRL(LED) = FUNCTION_SIO;
    GPIO_OE_SET = 1u << CLOCK | 1u << DATA | 1u << LED;
    exchange(0xa5);
    uint32_t back = exchange(0);
    if (back == 0xa5)
        GPIO_OUT_SET = 1u << LED;
    return (int)back;
}
