/* The timer's alarm 0 interrupts every 2 microseconds; the handler turns pin 2 and asks for the next one. */
#include "rp2040.h"

static volatile int count;

static void on_alarm(void)
{
    TIMER_INTR = 1;
    GPIO_OUT_XOR = 1u << 2;
    ALARM0 = TIMERAWL + 2;
    count++;
}

/* VTOR is 0 at the start, so the table stands in the image and is named before the first exception */
static void (*const vectors[48])(void) __attribute__((aligned(256))) = {[16] = on_alarm};

int main(void)
{
    GPIO_CTRL(2) = FUNCTION_SIO;
    GPIO_OE_SET = 1u << 2;
    VTOR = (uint32_t)vectors;
    TIMER_INTE = 1;
    NVIC_ISER = 1;
    ALARM0 = TIMERAWL + 2;
    while (count < 4)
        __asm volatile("wfi");
    return 0;
}
