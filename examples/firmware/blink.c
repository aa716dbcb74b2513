/* Pin 25 goes high and low four times, for a microsecond (125 cycles) or a little more each. */
#include "rp2040.h"

static void wait(int turns)
{
    while (turns-- > 0)
        __asm volatile("nop");
}

int main(void)
{
    GPIO_CTRL(25) = FUNCTION_SIO;
    GPIO_OE_SET = 1u << 25;
    for (int i = 0; i < 8; i++) {
        GPIO_OUT_XOR = 1u << 25;
        wait(30);
    }
    return 0;
}
