/* Much at once: core 1 makes numbers and sends them through the mailbox; core 0 puts them into a buffer that a DMA channel moves into a
   PIO FIFO, whose program shifts each out on pin 4; UART0 sends a line, fed by its interrupt; the timer's alarm turns pin 2; and a
   pin that the script drives raises an edge interrupt, which turns pin 3. Run with
   --script examples/together.script --pio 0:0:examples/shift.pio. */
#include "rp2040.h"

#define UART0_IFLS WORD(0x40034034)
#define UART0_IMSC WORD(0x40034038)
#define UART0_ICR WORD(0x40034044)
#define INTR0 WORD(0x400140f0)
#define PROC0_INTE0 WORD(0x40014100)
#define PAD(pin) WORD(0x4001c004 + 4 * (pin))
#define DMA_INTR WORD(0x50000400)
#define DMA_INTE0 WORD(0x50000404)
#define SM0_EXECCTRL WORD(0x502000cc)
enum { EDGE_LOW_PIN1 = 1 << 6, UART_TX = 1 << 5, IRQ_TIMER0 = 1, IRQ_DMA0 = 1 << 11, IRQ_IO = 1 << 13, IRQ_UART0 = 1 << 20 };

static uint32_t stack[64];
static uint32_t buffer[4];
static volatile int alarms, edges, blocks;
static const char *volatile text = "both cores, DMA, PIO\n";

static void feed(void)
{
    while (*text && !(UART0_FR & FR_TXFF))
        UART0_DR = (uint8_t)*text++;
    if (!*text)
        UART0_IMSC = 0;
}

static void on_uart(void)
{
    UART0_ICR = UART_TX;
    feed();
}

static void on_alarm(void)
{
    TIMER_INTR = 1;
    GPIO_OUT_XOR = 1u << 2;
    ALARM0 = TIMERAWL + 3;
    alarms++;
}

static void on_edge(void)
{
    INTR0 = EDGE_LOW_PIN1;
    GPIO_OUT_XOR = 1u << 3;
    edges++;
}

static void on_dma(void)
{
    DMA_INTR = 1;
    blocks++;
}

static void (*const vectors[48])(void) __attribute__((aligned(256))) = {
    [16] = on_alarm, [16 + 11] = on_dma, [16 + 13] = on_edge, [16 + 20] = on_uart};

static void make_numbers(void)
{
    for (uint32_t x = 0x12345678;; x = (x << 5) + (x >> 27) + 1) {
        while (!(FIFO_ST & FIFO_READY))
            __asm volatile("wfe");
        FIFO_WR = x;
        __asm volatile("sev");
    }
}

static void start_core_1(void)
{
    const uint32_t words[] = {0, 0, 1, 0, (uint32_t)(stack + 64), (uint32_t)make_numbers};
    for (int i = 0; i < 6; i++) {
        FIFO_WR = words[i];
        while (!(FIFO_ST & FIFO_VALID))
            ;
        (void)FIFO_RD;
    }
}

static void send_block(void)
{
    for (int i = 0; i < 4; i++) {
        while (!(FIFO_ST & FIFO_VALID))
            __asm volatile("wfe");
        buffer[i] = FIFO_RD;
        __asm volatile("sev");
    }
    int before = blocks;
    DMA_READ = (uint32_t)buffer;
    DMA_WRITE = PIO0_TXF0;
    DMA_COUNT = 4;
    DMA_CTRL_TRIG = 0x00000019; /* words, paced by the FIFO of machine 0 */
    while (blocks == before)
        __asm volatile("wfi");
}

int main(void)
{
    VTOR = (uint32_t)vectors;
    for (int pin = 2; pin < 4; pin++)
        GPIO_CTRL(pin) = FUNCTION_SIO;
    GPIO_CTRL(0) = FUNCTION_UART;
    GPIO_CTRL(4) = FUNCTION_PIO0;
    GPIO_OE_SET = 3u << 2;
    PAD(1) = 0x48;
    PROC0_INTE0 = EDGE_LOW_PIN1;
    DMA_INTE0 = 1;
    TIMER_INTE = 1;
    SM0_CLKDIV = 0x00020000;
    SM0_SHIFTCTRL = 0x000e0000; /* autopull at 32 bits, to the right */
    SM0_PINCTRL = 0x04100000 | 4 << 5 | 4;
    SM0_INSTR = 0xe081;         /* set pindirs, 1 */
    PIO0_CTRL = 1;
    UART0_IBRD = 4;
    UART0_FBRD = 0;
    UART0_LCR_H = LCR_8_BITS | LCR_FIFOS;
    UART0_IFLS = 0;
    UART0_IMSC = UART_TX;
    UART0_CR = 0x101;
    NVIC_ISER = IRQ_TIMER0 | IRQ_DMA0 | IRQ_IO | IRQ_UART0;
    ALARM0 = TIMERAWL + 3;
    start_core_1();
    feed();
    for (int i = 0; i < 6; i++)
        send_block();
    while (*text || (UART0_FR & FR_BUSY))
        ;
    return alarms + 100 * edges;
}
