/* A frame of 154 lines of 456 dots under an HBlank transfer; then document 01's K6, a transfer that a speed switch cuts; then a
 * line at double speed. Driven as docs/DRIVING.md says, which shows what is printed: where each thing happens, FF55 and the bytes
 * left behind it. Of a block's bytes the first and the last bus call are printed.
 *
 *     sh tools/library
 *     cc -Iinclude examples/frame.c target/lib/libcgb_vram_dma.a -o target/frame && target/frame
 */
#include "cgb_vram_dma.h"

#include <stdio.h>
#include <stdlib.h>
#include <string.h>

enum { LINES = 154, DOTS = 456, EDGES_A_DOT = 2 };

static uint8_t state[CGB_STATE_BYTES];
static uint8_t answer[CGB_ANSWER_BYTES];
static uint8_t cartridge[CGB_CARTRIDGE_BYTES];
static uint8_t wram[CGB_WRAM_BYTES];
static uint8_t vram[CGB_VRAM_BYTES];
static uint8_t oam[CGB_OAM_BYTES];
static const struct cgb_memory memory = {cartridge, sizeof cartridge, wram, sizeof wram, vram, sizeof vram, oam, sizeof oam};

static unsigned line, dot;       /* the place in the frame */
static uint64_t edge;            /* master edges since power-on */
static int stopped;              /* the CPU is, in the blackout */
static int shown;                /* rows are printed */
static int requested, seized;    /* as the last fall left them */
static unsigned block_bytes;     /* moved of the block under way */
static unsigned commits, set_up_cells, pairs;

/* A refusal ends the program: this script has none. */
static void accepted(uint8_t refusal)
{
    if (refusal != 0) {
        fprintf(stderr, "line %u, dot %u: refused with %u: %s\n", line, dot, refusal, cgb_refusal_text(refusal));
        exit(1);
    }
}

static unsigned left(void)
{
    accepted(cgb_tally(state, answer));
    return cgb_value(answer, CGB_TALLY_LEFT);
}

static int escape_owed(void)
{
    accepted(cgb_tally(state, answer));
    return cgb_value(answer, CGB_TALLY_ESCAPE);
}

static void set(uint16_t address, uint8_t value)
{
    accepted(cgb_write(state, answer, address, value, 1, wram, sizeof wram));
}

static unsigned ff55(void)
{
    accepted(cgb_read(state, answer, 0xFF55, wram, sizeof wram));
    return cgb_value(answer, 0);
}

static void row(const char *event)
{
    if (shown)
        printf("%4u  %3u  %-13s  %02X  %4u\n", line, dot, event, ff55(), left());
}

/* Mode 2 for 80 dots, mode 3 for 172, mode 0 to the line's end; mode 1 from line 144 on. */
static uint8_t mode(void)
{
    return line >= 144 ? 1 : dot < 80 ? 2 : dot < 252 ? 3 : 0;
}

static void fall(void)
{
    int was_requested = requested, was_seized = seized, committed;

    accepted(cgb_fall(state, answer, mode(), stopped ? CGB_STOPPED : 0, edge));
    committed = cgb_value(answer, CGB_CLAIM_COMMITTED);
    accepted(cgb_request_standing(state, answer));
    requested = cgb_value(answer, 0);
    accepted(cgb_seizes_bus(state, answer));
    seized = cgb_value(answer, 0);
    if (committed) {
        commits++;
        block_bytes = 0;
        row("commit");
    } else if (requested && !was_requested) {
        row("pend");
    }
    if (seized != was_seized)
        row(seized ? "seized" : "released");
}

static void bytes_moved(unsigned moved, int free_pair)
{
    char event[16];

    pairs += moved;
    block_bytes += moved;
    snprintf(event, sizeof event, "%u moved", block_bytes);
    if (free_pair)
        row("free pair");
    else if (block_bytes == moved || block_bytes == 16)
        row(event);
}

/* Arbitration, then the bus call; no OAM DMA runs. */
static void end_of_m_cycle(void)
{
    int owed = escape_owed();
    uint8_t held;
    unsigned moved;

    accepted(cgb_holds_cpu(state, answer));
    held = seized || cgb_value(answer, 0) ? CGB_HOLD : 0;
    accepted(cgb_arbitration(state, answer, held));
    accepted(cgb_bus_call(state, answer, held, 0, &memory));
    moved = cgb_value(answer, CGB_BUS_PAIRS);
    if (cgb_value(answer, CGB_BUS_SET_UP_CELL)) {
        set_up_cells++;
        row("set-up cell");
    }
    if (moved > 0)
        bytes_moved(moved, owed);
}

/* Four at single speed, two at double. */
static unsigned dots_an_m_cycle(void)
{
    accepted(cgb_cpu_steps_per_dot(state, answer));
    return 4u / cgb_value(answer, 0);
}

static void step(void)
{
    unsigned dots = dots_an_m_cycle();

    edge += EDGES_A_DOT;
    fall();
    if (dot % dots == dots - 1)
        end_of_m_cycle();
}

static void next_dot(void)
{
    if (++dot == DOTS) {
        dot = 0;
        line = (line + 1) % LINES;
    }
}

static void frame(void)
{
    for (unsigned i = 0; i < LINES * DOTS; i++) {
        shown = line == 0 || line == 1 || line == 127;
        step();
        next_dot();
    }
}

/* Steps until this dot of this line has been stepped. */
static void through(unsigned last_line, unsigned last_dot)
{
    step();
    while (line != last_line || dot != last_dot) {
        next_dot();
        step();
    }
}

/* Unheld, as in K6: under hold the switch would be refused with 5. */
static void speed_switch(void)
{
    accepted(cgb_speed_switch(state, answer, (uint8_t)(dot % 4), 0, edge));
    row(cgb_value(answer, 0) == CGB_SWITCH_CUT ? "cut" : "no cut");
}

/* The CPU is stopped and the dot clock runs on. */
static void blackout(void)
{
    stopped = 1;
    do {
        next_dot();
        step();
        accepted(cgb_blackout_drain(state, answer, EDGES_A_DOT));
    } while (!cgb_value(answer, 0));
    stopped = 0;
    row("blackout over");
}

static void title(const char *text)
{
    printf("%s\nline  dot  event        FF55  left\n", text);
}

static void a_frame(void)
{
    title("A frame; FF55 = FF in front of it");
    set(0xFF55, 0xFF);
    frame();
    printf("in the frame: %u commits, %u set-up cells, %u pairs\n\n", commits, set_up_cells, pairs);
    if (memcmp(vram, cartridge, 2048) != 0)
        exit(1);
}

static void a_cut(void)
{
    title("A cut; FF55 = 81 in front of the next frame");
    shown = 1;
    set(0xFF55, 0x81);
    through(0, 259);
    set(0xFF4D, 0x01);
    speed_switch();
    blackout();
}

static void a_line_at_double_speed(void)
{
    shown = 0;
    next_dot();
    through(153, 455);
    next_dot();
    title("\nA line at double speed; FF55 = 81 in front of the frame after that");
    shown = 1;
    set(0xFF55, 0x81);
    through(0, 455);
}

int main(void)
{
    for (unsigned i = 0; i < sizeof cartridge; i++)
        cartridge[i] = (uint8_t)(i * 3 + 1);
    cgb_power_on(state, 0);
    a_frame();
    a_cut();
    a_line_at_double_speed();
    return 0;
}
