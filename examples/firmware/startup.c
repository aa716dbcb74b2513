/* A complete start as the Pico SDK does it, by the registers: oscillator, both PLLs, the clocks and the tick, each with its wait until it
   is ready; then a line over UART0 at a megabaud. memset and memcpy are those of the table of routines: linked with
   -Wl,--wrap=memset,--wrap=memcpy, as the SDK does, each call of them is one of the functions below. Run with --table. */
#include <string.h>
#include "rp2040.h"

#define SET 0x2000
#define CLEAR 0x3000
/* 2.14 RESETS */
#define RESETS_SET WORD(0x4000c000 + SET)
#define RESETS_CLEAR WORD(0x4000c000 + CLEAR)
#define RESET_DONE WORD(0x4000c008)
enum { RESET_PLLS = 3 << 12, RESET_IO_AND_PADS = 1 << 5 | 1 << 8, RESET_UART0 = 1 << 22 };
/* 2.16 XOSC */
#define XOSC_CTRL WORD(0x40024000)
#define XOSC_STATUS WORD(0x40024004)
#define XOSC_STARTUP WORD(0x4002400c)
/* 2.18 PLLs */
#define PLL_SYS 0x40028000
#define PLL_USB 0x4002c000
enum { PLL_CS = 0, PLL_PWR = 4, PLL_FBDIV = 8, PLL_PRIM = 12, PWR_PD = 1, PWR_POSTDIVPD = 8, PWR_VCOPD = 32 };
/* 2.15 CLOCKS: CTRL, DIV and SELECTED of a clock */
#define CLOCK(clock) (0x40008000 + 12 * (clock))
#define CLK_RESUS WORD(0x40008078)
enum { CLK_REF = 4, CLK_SYS = 5, CLK_PERI = 6, CLK_USB = 7, CLK_ADC = 8, CLK_RTC = 9, ENABLE = 1 << 11 };
/* 4.7.2 the tick of the watchdog */
#define WATCHDOG_TICK WORD(0x4005802c)

/* the table of routines has the addresses of memset and memcpy */
void *__wrap_memset(void *to, int byte, size_t count)
{
    return (*(void *(**)(void *, int, size_t))0x20040000)(to, byte, count);
}

void *__wrap_memcpy(void *to, const void *from, size_t count)
{
    return (*(void *(**)(void *, const void *, size_t))0x20040004)(to, from, count);
}

static void unreset(uint32_t blocks)
{
    RESETS_CLEAR = blocks;
    while ((RESET_DONE & blocks) != blocks)
        ;
}

static void start_oscillator(void)
{
    XOSC_CTRL = 0xaa0;  /* 1 to 15 MHz */
    XOSC_STARTUP = 47;  /* a millisecond at 12 MHz, in units of 256 */
    WORD(0x40024000 + SET) = 0xfab << 12;
    while (!(XOSC_STATUS >> 31))
        ;
}

/* 12 MHz times so much, and divided twice */
static void start_pll(uint32_t pll, uint32_t times, uint32_t first, uint32_t second)
{
    WORD(pll + PLL_CS) = 1;
    WORD(pll + PLL_FBDIV) = times;
    WORD(pll + PLL_PWR + CLEAR) = PWR_PD | PWR_VCOPD;
    while (!(WORD(pll + PLL_CS) >> 31))
        ;
    WORD(pll + PLL_PRIM) = first << 16 | second << 12;
    WORD(pll + PLL_PWR + CLEAR) = PWR_POSTDIVPD;
}

/* the sources of CLK_REF and CLK_SYS are switched without a glitch, and SELECTED tells when it is done */
static void select(uint32_t clock, uint32_t source)
{
    WORD(CLOCK(clock)) = source;
    while (WORD(CLOCK(clock) + 8) != 1u << source)
        ;
}

static void start_clocks(void)
{
    WATCHDOG_TICK = 12 | 1 << 9; /* a tick each 12 cycles of CLK_REF */
    CLK_RESUS = 0;
    start_oscillator();
    select(CLK_SYS, 0);
    select(CLK_REF, 0);
    RESETS_SET = RESET_PLLS;
    unreset(RESET_PLLS);
    start_pll(PLL_SYS, 125, 6, 2); /* 1500 MHz / 6 / 2 = 125 MHz */
    start_pll(PLL_USB, 100, 5, 5); /* 1200 MHz / 5 / 5 = 48 MHz */
    WORD(CLOCK(CLK_REF) + 4) = 1 << 8;
    select(CLK_REF, 2);            /* the oscillator */
    WORD(CLOCK(CLK_SYS) + 4) = 1 << 8;
    select(CLK_SYS, 1);            /* AUX, which is PLL_SYS */
    for (uint32_t clock = CLK_PERI; clock <= CLK_RTC; clock++) {
        WORD(CLOCK(clock) + 4) = 1 << 8;
        WORD(CLOCK(clock)) = ENABLE;
    }
}

static char line[24];

int main(void)
{
    static const char text[] = "clocks are set up\n";
    start_clocks();
    unreset(RESET_IO_AND_PADS | RESET_UART0);
    memset(line, '.', sizeof line);
    memcpy(line + 3, text, sizeof text - 1);
    GPIO_CTRL(0) = FUNCTION_UART;
    UART0_IBRD = 7;
    UART0_FBRD = 52;
    UART0_LCR_H = LCR_8_BITS | LCR_FIFOS;
    UART0_CR = CR_ON;
    for (const char *at = line; at < line + 3 + sizeof text - 1; at++) {
        while (UART0_FR & FR_TXFF)
            ;
        UART0_DR = (uint8_t)*at;
    }
    while (UART0_FR & FR_BUSY)
        ;
    return 0;
}
