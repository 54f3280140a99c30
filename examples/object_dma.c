/* Object DMA beside two General transfers, driven dot by dot as docs/DRIVING.md says: behind each M-cycle's last dot arbitration, object
 * DMA's byte, the bus call, and then the CPU's write. A row is an M-cycle. While a transfer moves, object DMA's own bytes are passed
 * over, and the bus call deposits one of its bytes in OAM; so it does in the M-cycle behind object DMA's last, too.
 *
 *     sh tools/library
 *     cc -Iinclude examples/object_dma.c target/lib/libcgb_vram_dma.a -o target/object_dma && target/object_dma
 */
#include "cgb_vram_dma.h"

#include <stdio.h>
#include <stdlib.h>
#include <string.h>

enum { EDGES_A_DOT = 2, DOTS_AN_M_CYCLE = 4, NO_DEPOSIT = CGB_OAM_BYTES };

static uint8_t state[CGB_STATE_BYTES];
static uint8_t answer[CGB_ANSWER_BYTES];
static uint8_t cartridge[CGB_CARTRIDGE_BYTES];
static uint8_t wram[CGB_WRAM_BYTES];
static uint8_t vram[CGB_VRAM_BYTES];
static uint8_t oam[CGB_OAM_BYTES];
static const struct cgb_memory memory = {cartridge, sizeof cartridge, wram, sizeof wram, vram, sizeof vram, oam, sizeof oam};

static unsigned dot;               /* the next one, from 0 */
static uint64_t edge;              /* master edges since power-on */
static int shown;                  /* rows are printed */
static char origin[CGB_OAM_BYTES]; /* of each byte of OAM: o its own, d deposited, - as it was */

/* A refusal ends the program: there is none here. */
static void accepted(uint8_t refusal)
{
    if (refusal != CGB_ACCEPTED) {
        fprintf(stderr, "dot %u: refused with %u: %s\n", dot, refusal, cgb_refusal_text(refusal));
        exit(1);
    }
}

/* From 4000h to 8000h; OAM holds EE. */
static void power_on(void)
{
    for (size_t i = 0; i < sizeof cartridge; i++)
        cartridge[i] = (uint8_t)(i * 3 + 1);
    for (size_t i = 0; i < sizeof wram; i++)
        wram[i] = (uint8_t)(i * 5 + 1);
    memset(oam, 0xEE, sizeof oam);
    memset(origin, '-', sizeof origin);
    dot = 0;
    edge = 0;
    cgb_power_on(state, 0);
    accepted(cgb_write(state, answer, 0xFF51, 0x40, 1, wram, sizeof wram));
}

static void start_object_dma(uint64_t start_edge)
{
    accepted(cgb_start_object_dma(state, answer, 0xC0, start_edge, wram, sizeof wram));
}

static void start_transfer(void)
{
    accepted(cgb_write(state, answer, 0xFF55, 0x00, 1, wram, sizeof wram));
}

static int object_dma_runs(void)
{
    accepted(cgb_object_dma(state, answer));
    return cgb_value(answer, CGB_OBJECT_DMA_RUNS) != 0;
}

/* In VBlank, where a program starts object DMA. */
static void fall(void)
{
    uint8_t flags = object_dma_runs() ? CGB_OAM_OWNS_BUS : 0;

    edge += EDGES_A_DOT;
    accepted(cgb_fall(state, answer, 1, flags, edge));
}

static int held(void)
{
    int seized;

    accepted(cgb_seizes_bus(state, answer));
    seized = cgb_value(answer, 0) != 0;
    accepted(cgb_holds_cpu(state, answer));
    return seized || cgb_value(answer, 0) != 0;
}

/* What object DMA does with arbitration's answer, as text. */
static const char *object_dma(uint8_t arbitration)
{
    static char text[32];
    unsigned source;

    accepted(cgb_object_dma_m_cycle(state, answer, arbitration, &memory));
    source = cgb_value(answer, CGB_CYCLE_SOURCE);
    if (cgb_value(answer, CGB_CYCLE_OUTCOME) == CGB_CYCLE_MOVED)
        origin[source % 256] = 'o';
    switch (cgb_value(answer, CGB_CYCLE_OUTCOME)) {
    case CGB_CYCLE_MOVED:
        snprintf(text, sizeof text, "%04X -> %04X: %02X", source, 0xFE00 + source % 256, cgb_cycle_byte(answer));
        break;
    case CGB_CYCLE_PASSED_OVER:
        snprintf(text, sizeof text, "%04X passed over", source);
        break;
    default:
        snprintf(text, sizeof text, "nothing");
    }
    return text;
}

/* The bus call, and where it deposited a byte: no answer says so, OAM does. */
static unsigned bus_call(uint8_t hold)
{
    uint8_t before[CGB_OAM_BYTES];
    unsigned at = 0;

    memcpy(before, oam, sizeof before);
    accepted(cgb_bus_call_from_inside(state, answer, hold, &memory));
    while (at < sizeof before && oam[at] == before[at])
        at++;
    if (at != NO_DEPOSIT)
        origin[at] = 'd';
    return at;
}

static void row(const char *arbitration, const char *moved, unsigned deposit)
{
    unsigned pairs = cgb_value(answer, CGB_BUS_PAIRS);

    if (!shown)
        return;
    printf("%4u  %-11s  %-*s", dot, arbitration, pairs > 0 ? 16 : 0, moved);
    for (unsigned k = 0; k < pairs; k++)
        printf("%s%04X -> %04X", k == 0 ? "  " : ", ", cgb_pair_source(answer, k), cgb_pair_destination(answer, k));
    if (deposit != NO_DEPOSIT)
        printf(", deposit FE%02X: %02X", deposit, oam[deposit]);
    printf("\n");
}

static void end_of_m_cycle(void)
{
    static const char *const names[3] = {"clear", "contended", "stall"};
    uint8_t hold = held() ? CGB_HOLD : 0;
    uint8_t arbitration;
    const char *moved;
    unsigned deposit;

    accepted(cgb_arbitration_from_inside(state, answer, hold));
    arbitration = (uint8_t)cgb_value(answer, 0);
    moved = object_dma(arbitration);
    deposit = bus_call(hold);
    row(names[arbitration], moved, deposit);
}

/* Steps until this dot, the last of an M-cycle, has been stepped. */
static void through(unsigned last)
{
    for (; dot <= last; dot++) {
        fall();
        if (dot % DOTS_AN_M_CYCLE == DOTS_AN_M_CYCLE - 1)
            end_of_m_cycle();
    }
}

static void a_run(void)
{
    puts("Object DMA from C000h: FF46 = C0 behind dot 3. General transfers from 4000h: FF55 = 00 behind dots 15 and 631");
    puts(" dot  arbitration  object DMA        bus call");
    power_on();
    through(3);
    start_object_dma(edge);
    shown = 1;
    through(15);
    start_transfer();
    through(51);
    shown = 0;
    through(623);
    shown = 1;
    through(631);
    start_transfer();
    through(663);
    shown = 0;
}

static void oam_row(unsigned first)
{
    printf("FE%02X ", first);
    for (unsigned k = first; k < first + 16; k++)
        printf(" %02X", oam[k]);
    printf("  %.16s\n", origin + first);
}

/* The first M-cycle of the transfer, with this start edge. */
static void deposit_by(uint64_t start_edge)
{
    power_on();
    start_object_dma(start_edge);
    start_transfer();
    through(3);
    for (unsigned at = 0; at < sizeof oam; at++)
        if (origin[at] == 'd')
            printf("%10u  %s byte, FE%02X: %02X\n", (unsigned)start_edge, at == 0 ? "first" : "second", at, oam[at]);
}

int main(void)
{
    a_run();
    puts("\nOAM behind it: o object DMA's own byte, d deposited, - as it was");
    oam_row(0x00);
    oam_row(0x10);
    oam_row(0x90);
    puts("\nWhich byte of a transfer's first M-cycle is deposited\nstart edge");
    for (uint64_t start_edge = 8; start_edge <= 14; start_edge += 2)
        deposit_by(start_edge);
    return 0;
}
