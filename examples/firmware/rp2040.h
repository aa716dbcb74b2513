/* The registers that the examples use, by their names in the RP2040 Datasheet. */
#include <stdint.h>

#define WORD(address) (*(volatile uint32_t *)(address))

/* 2.19 GPIO: CTRL of a pin, and its functions */
#define GPIO_CTRL(pin) WORD(0x40014004 + 8 * (pin))
enum { FUNCTION_UART = 2, FUNCTION_PWM = 4, FUNCTION_SIO = 5, FUNCTION_PIO0 = 6 };

/* 2.3.1 SIO */
#define GPIO_OUT_SET WORD(0xd0000014)
#define GPIO_OUT_CLR WORD(0xd0000018)
#define GPIO_OUT_XOR WORD(0xd000001c)
#define GPIO_OE_SET WORD(0xd0000024)
#define FIFO_ST WORD(0xd0000050)
#define FIFO_WR WORD(0xd0000054)
#define FIFO_RD WORD(0xd0000058)
enum { FIFO_VALID = 1, FIFO_READY = 2 };

/* 4.2 UART0 */
#define UART0_DR WORD(0x40034000)
#define UART0_FR WORD(0x40034018)
#define UART0_IBRD WORD(0x40034024)
#define UART0_FBRD WORD(0x40034028)
#define UART0_LCR_H WORD(0x4003402c)
#define UART0_CR WORD(0x40034030)
enum { FR_TXFF = 1 << 5, FR_BUSY = 1 << 3, LCR_8_BITS = 3 << 5, LCR_FIFOS = 1 << 4, CR_ON = 0x301 };

/* 4.5 PWM: CSR, CC and TOP of a slice; the interrupts */
#define PWM_CSR(slice) WORD(0x40050000 + 20 * (slice))
#define PWM_CC(slice) WORD(0x4005000c + 20 * (slice))
#define PWM_TOP(slice) WORD(0x40050010 + 20 * (slice))
#define PWM_INTR WORD(0x400500a4)
#define PWM_INTE WORD(0x400500a8)
enum { CSR_EN = 1, PWM_IRQ_WRAP = 4 };

/* 4.6 Timer */
#define TIMERAWL WORD(0x40054028)
#define ALARM0 WORD(0x40054010)
#define TIMER_INTR WORD(0x40054034)
#define TIMER_INTE WORD(0x40054038)

/* 2.5 DMA channel 0, with CTRL_TRIG */
#define DMA_READ WORD(0x50000000)
#define DMA_WRITE WORD(0x50000004)
#define DMA_COUNT WORD(0x50000008)
#define DMA_CTRL_TRIG WORD(0x5000000c)
#define DMA_TIMER0 WORD(0x50000420)

/* 3.7 PIO block 0, machine 0 */
#define PIO0_CTRL WORD(0x50200000)
#define PIO0_TXF0 0x50200010
#define SM0_CLKDIV WORD(0x502000c8)
#define SM0_SHIFTCTRL WORD(0x502000d0)
#define SM0_INSTR WORD(0x502000d8)
#define SM0_PINCTRL WORD(0x502000dc)

/* ARMv6-M, B3.2: the vector table, and the enabled interrupts */
#define VTOR WORD(0xe000ed08)
#define NVIC_ISER WORD(0xe000e100)
