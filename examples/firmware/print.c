/* Prints by newlib's printf over UART0 (pin 0) at a megabaud. It is linked with --specs=nano.specs --specs=nosys.specs. */
#include <stdio.h>
#include "rp2040.h"

/* where newlib writes */
int _write(int file, const char *bytes, int count)
{
    (void)file;
    for (int i = 0; i < count; i++) {
        while (UART0_FR & FR_TXFF)
            ;
        UART0_DR = (uint8_t)bytes[i];
    }
    return count;
}

int main(void)
{
    GPIO_CTRL(0) = FUNCTION_UART;
    UART0_IBRD = 7;
    UART0_FBRD = 52;
    UART0_LCR_H = LCR_8_BITS | LCR_FIFOS;
    UART0_CR = CR_ON;
    for (int i = 1; i <= 3; i++)
        printf("%d / 7 = %d.%03d\n", i, i / 7, i * 1000 / 7 % 1000);
    fflush(stdout);
    while (UART0_FR & FR_BUSY)
        ;
    return 0;
}
