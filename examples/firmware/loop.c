/* UART0 hears itself: its output, pin 0, is wired to its input, pin 1, by the part Loop. Run with --part 2=0+1. It leaves in R0 how many
   of the bytes came back as they were sent. */
#include "rp2040.h"

enum { FR_RXFE = 1 << 4 };

int main(void)
{
    static const char text[] = "round and round\n";
    int same = 0;
    GPIO_CTRL(0) = FUNCTION_UART;
    GPIO_CTRL(1) = FUNCTION_UART;
    UART0_IBRD = 1; /* a bit of 16 cycles */
    UART0_FBRD = 0;
    UART0_LCR_H = LCR_8_BITS | LCR_FIFOS;
    UART0_CR = CR_ON;
    for (const char *at = text; *at; at++) {
        UART0_DR = (uint8_t)*at;
        while (UART0_FR & FR_RXFE)
            ;
        same += (UART0_DR & 0xfff) == (uint8_t)*at; /* the byte, and no error beside it */
    }
    return same;
}
