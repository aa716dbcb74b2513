/* A button on pin 3, looked at each 10 microseconds by the timer's alarm: it counts as pressed once it was low five times in a row, and as
   let go once it was high five times. Pin 25 shows it. The part Button presses it in the second half of each 100,000 cycles: run with
   --part 0=3. It ends when the button was let go for the second time, and leaves in R0 how often it was pressed. */
#include "rp2040.h"

#define GPIO_IN WORD(0xd0000004)
#define PAD(pin) WORD(0x4001c004 + 4 * (pin))
enum { BUTTON = 3, LED = 25, PULL_UP_AND_INPUT = 0x48, PERIOD = 10, ALIKE = 5 };

static volatile int presses, releases;

static void on_alarm(void)
{
    static int is_pressed, others;
    TIMER_INTR = 1;
    ALARM0 = TIMERAWL + PERIOD;
    int is_low = !(GPIO_IN >> BUTTON & 1);
    others = is_low == is_pressed ? 0 : others + 1;
    if (others < ALIKE)
        return;
    others = 0;
    is_pressed = is_low;
    if (is_pressed) {
        presses++;
        GPIO_OUT_SET = 1u << LED;
    } else {
        releases++;
        GPIO_OUT_CLR = 1u << LED;
    }
}

static void (*const vectors[48])(void) __attribute__((aligned(256))) = {[16] = on_alarm};

int main(void)
{
    VTOR = (uint32_t)vectors;
    GPIO_CTRL(LED) = FUNCTION_SIO;
    GPIO_OE_SET = 1u << LED;
    PAD(BUTTON) = PULL_UP_AND_INPUT;
    TIMER_INTE = 1;
    NVIC_ISER = 1;
    ALARM0 = TIMERAWL + PERIOD;
    while (releases < 2)
        __asm volatile("wfi");
    return presses;
}
