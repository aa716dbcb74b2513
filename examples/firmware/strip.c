/* Two WS2812 lights on pin 0: the program examples/ws2812.pio in PIO block 0 (--pio 0:0:examples/ws2812.pio) sends the
   colours, and a DMA channel feeds it, one word each 256 cycles by the first pacing timer. */
#include "rp2040.h"

static const uint32_t colours[2] = {0xff000000, 0x00ff8000}; /* green, red and blue in the upper 24 bits */

int main(void)
{
    GPIO_CTRL(0) = FUNCTION_PIO0;
    SM0_CLKDIV = 0x00100000;     /* a tick each 16 cycles, 10 ticks a bit: 781 kHz */
    SM0_SHIFTCTRL = 0x30020000;  /* autopull at 24 bits, out to the left */
    SM0_INSTR = 0xe081;          /* set pindirs, 1 */
    PIO0_CTRL = 1;
    DMA_TIMER0 = 0x00010100;     /* 1 / 256 */
    DMA_READ = (uint32_t)colours;
    DMA_WRITE = PIO0_TXF0;
    DMA_COUNT = 2;
    DMA_CTRL_TRIG = 0x001d8019;  /* enabled, words, read address rises, chained to itself, paced by timer 0 */
    for (int i = 0; i < 2000; i++)
        __asm volatile("nop");
    return 0;
}
