/* Hears bytes on pin 5 through the PIO program examples/uart_rx.pio, takes each in the interrupt of its FIFO, and sends it back over UART0
   in capitals. It ends at the end of a line. Run with --script examples/listen.script --pio 0:0:examples/uart_rx.pio. */
#include "rp2040.h"

#define PIO0_RXF0 WORD(0x50200020)
#define PIO0_IRQ0_INTE WORD(0x5020012c)
enum { RXNEMPTY_0 = 1, IRQ_PIO0_0 = 7, PIN = 5 };

static volatile int heard, is_done;

static void on_byte(void)
{
    uint8_t byte = PIO0_RXF0 >> 24; /* the read lets the interrupt go */
    heard++;
    is_done = byte == '\n';
    UART0_DR = byte >= 'a' && byte <= 'z' ? byte - 32u : byte;
}

static void (*const vectors[48])(void) __attribute__((aligned(256))) = {[16 + IRQ_PIO0_0] = on_byte};

int main(void)
{
    VTOR = (uint32_t)vectors;
    GPIO_CTRL(0) = FUNCTION_UART;
    UART0_IBRD = 7;
    UART0_FBRD = 52;
    UART0_LCR_H = LCR_8_BITS | LCR_FIFOS;
    UART0_CR = CR_ON;
    SM0_CLKDIV = 15u << 16 | 160 << 8;                   /* 15 + 160/256: eight ticks of a bit of 125 cycles */
    SM0_SHIFTCTRL = 8 << 20 | 1 << 18 | 1 << 16;         /* push at eight bits by itself, in from the left */
    SM0_PINCTRL = PIN << 15;                             /* the first pin of IN and WAIT */
    PIO0_IRQ0_INTE = RXNEMPTY_0;
    NVIC_ISER = 1u << IRQ_PIO0_0;
    PIO0_CTRL = 1;
    while (!is_done)
        __asm volatile("wfi");
    while (UART0_FR & FR_BUSY)
        ;
    return heard;
}
