/* The LED at pin 25 fades in: at each wrap of its PWM slice the handler makes the next pulse longer. */
#include "rp2040.h"

/* pin 25 has output B of slice 4; a period is 100 cycles */
enum { SLICE = 4, TOP = 99, STEP = 20 };

static volatile uint32_t level;

static void on_wrap(void)
{
    PWM_INTR = 1u << SLICE;
    level += STEP;
    PWM_CC(SLICE) = level << 16; /* it counts from the next wrap on */
}

static void (*const vectors[48])(void) __attribute__((aligned(256))) = {[16 + PWM_IRQ_WRAP] = on_wrap};

int main(void)
{
    GPIO_CTRL(25) = FUNCTION_PWM;
    VTOR = (uint32_t)vectors;
    NVIC_ISER = 1u << PWM_IRQ_WRAP;
    PWM_TOP(SLICE) = TOP;
    PWM_INTE = 1u << SLICE;
    PWM_CSR(SLICE) = CSR_EN;
    while (level <= TOP)
        __asm volatile("wfi");
    return 0;
}
