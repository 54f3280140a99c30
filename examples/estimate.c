/* How long does an upload take? Of some General transfers the estimate, and beside it what a run counts. A run has a fall for each
 * dot and a held bus call behind the last dot of each M-cycle, as docs/DRIVING.md says, but no arbitration, since no OAM DMA runs. So
 * it counts dots too: 4 to an M-cycle at single speed, 2 at double.
 *
 *     sh tools/library
 *     cc -Iinclude examples/estimate.c target/lib/libcgb_vram_dma.a -o target/estimate && target/estimate
 */
#include "cgb_vram_dma.h"

#include <stdio.h>
#include <stdlib.h>

struct upload {
    const char *name;
    uint8_t value; /* for FF55, bit 7 clear */
    uint16_t destination;
    int double_speed;
};

static const struct upload uploads[] = {
    {"a tile", 0x00, 0x8000, 0},
    {"a tile", 0x00, 0x8000, 1},
    {"a tile map", 0x3F, 0x9800, 0},
    {"128 tiles", 0x7F, 0x8800, 0},
    {"128 tiles", 0x7F, 0x8800, 1},
    {"past FFFFh", 0x01, 0xFFF0, 0}, /* 32 bytes asked for, 16 have room */
    {"past FFFFh", 0x01, 0xFFF0, 1},
    {"odd register", 0x00, 0xFFFD, 0}, /* the second bus call moves one byte */
    {"odd register", 0x00, 0xFFFD, 1},
};

static uint8_t state[CGB_STATE_BYTES];
static uint8_t answer[CGB_ANSWER_BYTES];
static uint8_t cartridge[CGB_CARTRIDGE_BYTES];
static uint8_t wram[CGB_WRAM_BYTES];
static uint8_t vram[CGB_VRAM_BYTES];
static uint8_t oam[CGB_OAM_BYTES];
static const struct cgb_memory memory = {cartridge, sizeof cartridge, wram, sizeof wram, vram, sizeof vram, oam, sizeof oam};

/* A refusal ends the program: these transfers have none. */
static void accepted(uint8_t refusal)
{
    if (refusal != CGB_ACCEPTED) {
        fprintf(stderr, "refused with %u: %s\n", refusal, cgb_refusal_text(refusal));
        exit(1);
    }
}

static void set(uint16_t address, uint8_t value)
{
    accepted(cgb_write(state, answer, address, value, 1, wram, sizeof wram));
}

/* In VBlank. */
static void fall(void)
{
    accepted(cgb_fall(state, answer, 1, 0, 0));
}

static uint16_t tally(size_t k)
{
    accepted(cgb_tally(state, answer));
    return cgb_value(answer, k);
}

static uint8_t at_double_speed(void)
{
    accepted(cgb_double_speed(state, answer));
    return (uint8_t)cgb_value(answer, 0);
}

static void switch_speed(void)
{
    set(0xFF4D, 0x01);
    accepted(cgb_speed_switch(state, answer, CGB_NO_PHASE, 0, 0));
    accepted(cgb_blackout_drain(state, answer, UINT32_MAX)); /* all of it */
}

/* FF54 drops the low four bits. Where they are not 0 a transfer brings the register there, a byte at a time, and the next write
 * to FF55 gives it its new length. */
static void bring_register_to(uint16_t destination)
{
    set(0xFF53, (uint8_t)(destination / 256));
    set(0xFF54, (uint8_t)(destination % 256));
    if (destination % 16 == 0)
        return;
    set(0xFF55, 0x00);
    for (unsigned k = 0; k < destination % 16u; k++) {
        fall();
        accepted(cgb_next_pair(state, answer));
    }
}

/* The bytes and M-cycles, by the register and the speed as they stand. A run takes exactly so many where no byte is owed and no
 * set-up cell stands. */
static void estimate(uint8_t value)
{
    uint16_t destination = tally(CGB_TALLY_DESTINATION);

    if (tally(CGB_TALLY_ESCAPE) != 0 || state[CGB_AT_BLOCK_SETUP_CELLS] != 0) {
        fputs("a byte is owed, or a set-up cell stands: the run may take more\n", stderr);
        exit(1);
    }
    printf("  %5u  %8u", cgb_estimate_bytes(value, destination), cgb_estimate(value, destination, at_double_speed()));
}

/* The same, counted: M-cycles until a pair is the last. */
static void count(uint8_t value)
{
    unsigned dots_an_m_cycle = at_double_speed() ? 2 : 4;
    unsigned pairs = 0, bus_calls = 0, dots = 0;
    uint8_t cause = CGB_CAUSE_GOING_ON;

    set(0xFF55, value);
    while (cause == CGB_CAUSE_GOING_ON) {
        for (unsigned k = 0; k < dots_an_m_cycle; k++, dots++)
            fall();
        accepted(cgb_bus_call(state, answer, CGB_HOLD, 0, &memory));
        bus_calls++;
        for (size_t k = 0; k < cgb_value(answer, CGB_BUS_PAIRS); k++, pairs++)
            cause = cgb_pair_cause(answer, k);
    }
    printf("  %5u  %9u  %4u  %s\n", pairs, bus_calls, dots, cgb_cause_text(cause));
}

int main(void)
{
    puts("                                         estimated        counted");
    puts("upload        FF55  destination  speed   bytes  M-cycles  pairs  bus calls  dots  last pair");
    for (size_t k = 0; k < sizeof uploads / sizeof uploads[0]; k++) {
        const struct upload *upload = &uploads[k];

        cgb_power_on(state, 0);
        if (upload->double_speed)
            switch_speed();
        bring_register_to(upload->destination);
        printf("%-12s    %02X         %04X  %s", upload->name, upload->value, upload->destination,
               upload->double_speed ? "double" : "single");
        estimate(upload->value);
        count(upload->value);
    }
    return 0;
}
