/* Sends a line over UART0 (pin 0) with 1,000,000 baud: 125 cycles a bit, 1,250 a byte. */
#include "rp2040.h"

static void send(const char *text)
{
    for (; *text; text++) {
        while (UART0_FR & FR_TXFF)
            ;
        UART0_DR = (uint8_t)*text;
    }
    while (UART0_FR & FR_BUSY)
        ;
}

int main(void)
{
    GPIO_CTRL(0) = FUNCTION_UART;
    UART0_IBRD = 7; /* 125 MHz / (16 * 1 MHz) = 7 + 52/64 */
    UART0_FBRD = 52;
    UART0_LCR_H = LCR_8_BITS | LCR_FIFOS;
    UART0_CR = CR_ON;
    send("hello\n");
    return 0;
}
