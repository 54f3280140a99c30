/* Document 01's cases K1 to K10 by its numbers and what FF55 reads in every mode, object DMA by the sentences of document 02's
 * A1, a pair's cause by A3's, the estimate by A5's, each refusal once, and every other call once, through the functions of
 * include/cgb_vram_dma.h: what the header holds of the layouts must be the library's. C99, and C++17 as it stands;
 * tools/examples builds and runs it both ways. */
#include "cgb_vram_dma.h"

#include <stdio.h>
#include <string.h>

/* What a caller holds. */
struct bench {
    uint8_t state[CGB_STATE_BYTES];
    uint8_t cartridge[CGB_CARTRIDGE_BYTES];
    uint8_t wram[CGB_WRAM_BYTES];
    uint8_t vram[CGB_VRAM_BYTES];
    uint8_t oam[CGB_OAM_BYTES];
};

static struct bench b;
static uint8_t answer[CGB_ANSWER_BYTES];
static unsigned comparisons;
static unsigned failures;

static void equal(unsigned long long got, unsigned long long expected, const char *what, int line)
{
    comparisons++;
    if (got != expected && ++failures <= 20) { /* one fault in FF55 would print a million lines */
        fprintf(stderr, "tests/cases.c:%d: %s is %llu (%llXh), not %llu (%llXh)\n", line, what, got, got, expected, expected);
    }
}
#define EQUAL(got, expected) equal((unsigned long long)(got), (unsigned long long)(expected), #got, __LINE__)
#define ACCEPTED(call) EQUAL(call, CGB_ACCEPTED)

/* ---- The caller's steps ---- */

static void power_on(uint8_t compat)
{
    size_t i;
    for (i = 0; i < sizeof b.cartridge; i++)
        b.cartridge[i] = (uint8_t)(i * 7 + 5);
    for (i = 0; i < sizeof b.wram; i++)
        b.wram[i] = (uint8_t)(i * 5 + 1);
    memset(b.vram, 0, sizeof b.vram);
    memset(b.oam, 0, sizeof b.oam);
    cgb_power_on(b.state, compat);
}

static struct cgb_memory lent(void)
{
    struct cgb_memory memory;
    memory.cartridge = b.cartridge;
    memory.cartridge_bytes = sizeof b.cartridge;
    memory.wram = b.wram;
    memory.wram_bytes = sizeof b.wram;
    memory.vram = b.vram;
    memory.vram_bytes = sizeof b.vram;
    memory.oam = b.oam;
    memory.oam_bytes = sizeof b.oam;
    return memory;
}

static void set(uint16_t address, uint8_t value)
{
    ACCEPTED(cgb_write(b.state, answer, address, value, 1, b.wram, sizeof b.wram));
}

static unsigned byte_at(uint16_t address)
{
    ACCEPTED(cgb_read(b.state, answer, address, b.wram, sizeof b.wram));
    return cgb_value(answer, 0);
}

static void fall(uint8_t mode)
{
    ACCEPTED(cgb_fall(b.state, answer, mode, 0, 0));
}

static void falls_to_a_ready_block(void)
{
    fall(3);
    fall(0);
    fall(0);
    fall(0);
}

/* An upward switch arms the blind of 6: these falls let it run out. */
static void out_of_the_blind(void)
{
    unsigned k;
    for (k = 0; k < 6; k++)
        fall(3);
}

/* The bus call, and how many pairs it moved. */
static unsigned bus(uint8_t flags, uint64_t oam_edge)
{
    const struct cgb_memory memory = lent();
    ACCEPTED(cgb_bus_call(b.state, answer, flags, oam_edge, &memory));
    return cgb_value(answer, CGB_BUS_PAIRS);
}

static unsigned left(void)
{
    ACCEPTED(cgb_tally(b.state, answer));
    return cgb_value(answer, CGB_TALLY_LEFT);
}

static unsigned escape_owed(void)
{
    ACCEPTED(cgb_tally(b.state, answer));
    return cgb_value(answer, CGB_TALLY_ESCAPE);
}

static unsigned transfer(void)
{
    ACCEPTED(cgb_status(b.state, answer));
    return cgb_value(answer, CGB_STATUS_TRANSFER);
}

/* The one value of a query that has one. */
static unsigned said(uint8_t query(uint8_t *, uint8_t *))
{
    ACCEPTED(query(b.state, answer));
    return cgb_value(answer, 0);
}

static unsigned speed_switch(uint8_t phase, uint8_t flags, uint64_t edge)
{
    set(0xFF4D, 0x01);
    ACCEPTED(cgb_speed_switch(b.state, answer, phase, flags, edge));
    return cgb_value(answer, 0);
}

/* The blackout lasts exactly this long; it is over then. */
static void lasts(uint32_t edges)
{
    uint8_t copy[CGB_STATE_BYTES];
    memcpy(copy, b.state, sizeof copy);
    ACCEPTED(cgb_blackout_drain(copy, answer, edges - 1));
    EQUAL(cgb_value(answer, 0), 0);
    EQUAL(said(cgb_switch_in_progress), 1);
    ACCEPTED(cgb_blackout_drain(b.state, answer, edges));
    EQUAL(cgb_value(answer, 0), 1);
    EQUAL(said(cgb_switch_in_progress), 0);
}

/* ---- K1 to K10 ---- */

static void k1_general(void)
{
    unsigned round;
    size_t k;
    power_on(0);
    set(0xFF55, 0x00);
    EQUAL(transfer(), CGB_TRANSFER_GENERAL);
    EQUAL(said(cgb_holds_cpu), 1);
    for (round = 0; round < 8; round++) {
        fall(3);
        EQUAL(bus(0, 0), 0); /* neither held nor suspended: nothing */
        EQUAL(bus(round % 2 == 0 ? CGB_HOLD : CGB_SUSPENDED, 0), 2);
        for (k = 0; k < 2; k++) {
            EQUAL(cgb_pair_source(answer, k), 2 * round + k);
            EQUAL(cgb_pair_destination(answer, k), 0x8000 + 2 * round + k);
            EQUAL(cgb_pair_byte(answer, k), b.cartridge[2 * round + k]);
        }
    }
    EQUAL(byte_at(0xFF55), 0xFF);
    EQUAL(transfer(), CGB_TRANSFER_IDLE);
    EQUAL(said(cgb_holds_cpu), 0);
    EQUAL(memcmp(b.vram, b.cartridge, 16), 0);
    EQUAL(b.vram[16], 0);
}

/* K2's falls and bus calls; the commit is at the third fall. */
static void k2_rounds(void)
{
    fall(3);
    fall(0);
    EQUAL(b.state[CGB_AT_ARB_PEND], 1);
    EQUAL(said(cgb_request_standing), 1);
    ACCEPTED(cgb_fall(b.state, answer, 0, 0, 0x0123456789ABCDEFu));
    EQUAL(cgb_value(answer, CGB_CLAIM_COMMITTED), 1);
    EQUAL(b.state[CGB_AT_BLOCK_REMAINING], 16);
    EQUAL(cgb_number(b.state, CGB_AT_BLOCK_START_EDGE, 8), 0x0123456789ABCDEFu);
    EQUAL(said(cgb_seizes_bus), 0);
    fall(0);
    EQUAL(said(cgb_seizes_bus), 1);
    EQUAL(bus(CGB_HOLD, 0), 0);
    EQUAL(cgb_value(answer, CGB_BUS_SET_UP_CELL), 1);
    fall(0);
    EQUAL(bus(CGB_HOLD, 0), 2);
    EQUAL(cgb_value(answer, CGB_BUS_SET_UP_CELL), 0);
    EQUAL(cgb_pair_destination(answer, 1), 0x8001);
    EQUAL(b.state[CGB_AT_CURSOR_ESCAPE_BYTE], 0);
}

static void k2_hblank(void)
{
    power_on(0);
    set(0xFF55, 0x80);
    ACCEPTED(cgb_status(b.state, answer));
    EQUAL(cgb_value(answer, CGB_STATUS_TRANSFER), CGB_TRANSFER_HBLANK);
    EQUAL(cgb_value(answer, CGB_STATUS_LEFT), 16);
    EQUAL(cgb_value(answer, CGB_STATUS_SOURCE), 0);
    EQUAL(cgb_value(answer, CGB_STATUS_DESTINATION), 0x8000);
    fall(3);
    fall(0);
    EQUAL(byte_at(0xFF55), 0x00);
    fall(0);
    EQUAL(byte_at(0xFF55), 0xFF);
    power_on(0);
    set(0xFF55, 0x80);
    k2_rounds();
}

static void k3_cancel(void)
{
    power_on(0);
    set(0xFF55, 0x83);
    set(0xFF55, 0x00);
    EQUAL(byte_at(0xFF55), 0x80);
}

/* What document 01 says of FF55, from bit 7 down, of every mode, left and granted that passes 7: "visible = left / 16 - granted (not below
 * 0)"; "bit 7 clear exactly if armed and visible > 0"; "low bits (visible - 1) mod 128". */
static void ff55_from_bit_7_down(void)
{
    unsigned mode, bytes, granted;
    power_on(0);
    for (mode = CGB_TRANSFER_IDLE; mode <= CGB_TRANSFER_HBLANK; mode++)
        for (bytes = mode == CGB_TRANSFER_IDLE ? 0 : 1; bytes <= 2048; bytes++)
            for (granted = 0; granted <= 255; granted++) {
                const unsigned visible = bytes / 16 < granted ? 0 : bytes / 16 - granted;
                const unsigned active = mode == CGB_TRANSFER_HBLANK && visible > 0;
                unsigned ff55;
                b.state[CGB_AT_CURSOR_MODE] = (uint8_t)mode;
                b.state[CGB_AT_CURSOR_REMAINING] = (uint8_t)(bytes % 256);
                b.state[CGB_AT_CURSOR_REMAINING + 1] = (uint8_t)(bytes / 256);
                b.state[CGB_AT_ARB_GRANTED_AHEAD] = (uint8_t)granted;
                ff55 = byte_at(0xFF55);
                EQUAL(ff55 / 128, active ? 0 : 1);
                EQUAL(ff55 % 128, visible == 0 ? 127 : visible - 1);
            }
}

/* A General transfer of 32 bytes to this destination: how many pairs, and where the 17th goes, or 0. */
static unsigned pairs_of_32(uint8_t high, uint8_t low, unsigned *seventeenth)
{
    unsigned pairs = 0;
    *seventeenth = 0;
    power_on(0);
    set(0xFF53, high);
    set(0xFF54, low);
    set(0xFF55, 0x01);
    while (transfer() != CGB_TRANSFER_IDLE && pairs < 100) {
        fall(3);
        if (bus(CGB_HOLD, 0) > 0 && pairs == 16)
            *seventeenth = cgb_pair_destination(answer, 0);
        pairs += cgb_value(answer, CGB_BUS_PAIRS);
    }
    return pairs;
}

static void k4_carry_and_k5_wrap(void)
{
    unsigned seventeenth;
    EQUAL(pairs_of_32(0xFF, 0xF0, &seventeenth), 16);
    EQUAL(seventeenth, 0);
    ACCEPTED(cgb_tally(b.state, answer));
    EQUAL(cgb_value(answer, CGB_TALLY_SOURCE), 16);
    EQUAL(cgb_value(answer, CGB_TALLY_DESTINATION), 0);
    EQUAL(cgb_value(answer, CGB_TALLY_LEFT), 0);
    EQUAL(pairs_of_32(0x9F, 0xF0, &seventeenth), 32);
    EQUAL(seventeenth, 0x8000);
    ACCEPTED(cgb_tally(b.state, answer));
    EQUAL(cgb_value(answer, CGB_TALLY_DESTINATION), 0xA010);
}

static void cut(void)
{
    power_on(0);
    set(0xFF55, 0x81);
    k2_rounds();
    EQUAL(speed_switch(CGB_NO_PHASE, 0, 0), CGB_SWITCH_CUT);
    EQUAL(b.state[CGB_AT_CURSOR_MODE], CGB_TRANSFER_IDLE);
    EQUAL(b.state[CGB_AT_BLOCK_REMAINING], 1);
    EQUAL(b.state[CGB_AT_CURSOR_ESCAPE_BYTE], 1);
    EQUAL(left(), 30);
    EQUAL(escape_owed(), 1);
}

static void k6_cut(void)
{
    cut();
    fall(0);
    EQUAL(bus(CGB_HOLD, 0), 1);
    EQUAL(cgb_pair_source(answer, 0), 2);
    EQUAL(left(), 30);
    EQUAL(escape_owed(), 0);
    EQUAL(byte_at(0xFF55), 0x80);
}

static void k7_blackouts(void)
{
    power_on(0);
    EQUAL(said(cgb_cpu_steps_per_dot), 1);
    EQUAL(speed_switch(3, 0, 0xFEDCBA9876543210u), CGB_SWITCH_NONE);
    EQUAL(cgb_number(b.state, CGB_AT_BLACKOUT_ANCHOR, 8), 0xFEDCBA9876543210u);
    EQUAL(cgb_number(b.state, CGB_AT_SPEED_SWITCH_BLACKOUT, 4), 131077);
    EQUAL(b.state[CGB_AT_SWITCH_RELOCK_DEBIT], 1);
    EQUAL(b.state[CGB_AT_ARB_WAKE_PEND_BLIND], 6);
    EQUAL(said(cgb_double_speed), 1);
    EQUAL(b.state[CGB_AT_DOUBLE_SPEED], 1);
    EQUAL(said(cgb_cpu_steps_per_dot), 2);
    EQUAL(said(cgb_divider_active), 1);
    lasts(131077);
    speed_switch(CGB_NO_PHASE, 0, 0);
    EQUAL(said(cgb_double_speed), 0);
    lasts(262144);
    speed_switch(3, 0, 0);
    EQUAL(said(cgb_double_speed), 1);
    lasts(131079);
    /* an interrupt that is ready leaves 5 edges upward and 2 downward, without the divider */
    power_on(0);
    speed_switch(0, CGB_INTERRUPT_READY, 0);
    EQUAL(said(cgb_divider_active), 0);
    lasts(5);
    speed_switch(0, CGB_INTERRUPT_READY, 0);
    lasts(2);
}

/* From WRAM, so that the two bytes differ from what OAM holds. */
static void k8_deposit(uint64_t block_edge, uint64_t oam_edge, unsigned second)
{
    uint8_t copy[CGB_STATE_BYTES];
    power_on(0);
    set(0xFF51, 0xC0);
    set(0xFF55, 0x80);
    fall(3);
    fall(0);
    ACCEPTED(cgb_fall(b.state, answer, 0, 0, block_edge));
    fall(0);
    EQUAL(bus(CGB_HOLD, oam_edge), 0);
    fall(0);
    memcpy(copy, b.state, sizeof copy);
    ACCEPTED(cgb_arbitration(copy, answer, CGB_OAM_TRANSFERS)); /* neither held nor suspended */
    EQUAL(cgb_value(answer, 0), CGB_ARBITRATION_CLEAR);
    EQUAL(copy[CGB_AT_OAM_CONTENDED], 0);
    ACCEPTED(cgb_arbitration(b.state, answer, CGB_HOLD | CGB_OAM_TRANSFERS));
    EQUAL(cgb_value(answer, 0), CGB_ARBITRATION_CONTENDED);
    EQUAL(b.state[CGB_AT_OAM_CONTENDED], 1);
    EQUAL(bus(CGB_HOLD, oam_edge), 2);
    EQUAL(cgb_pair_source(answer, 1), 0xC001);
    EQUAL(b.oam[second], b.wram[second]);
    EQUAL(b.oam[1 - second], 0);
    EQUAL(b.vram[1], b.wram[1]);
}

static void k8_deposits(void)
{
    k8_deposit(100, 98, 1);
    k8_deposit(100, 92, 1);
    k8_deposit(100, 96, 0);
    k8_deposit(100, 94, 0);
    k8_deposit(0, 0, 1);
}

/* The state in front of the fall that gets 14. */
static void k9_granted(void)
{
    static const uint8_t mode[6] = {3, 3, 3, 0, 0, 0};
    static const uint8_t flags[6] = {0, CGB_HALTED, CGB_HALTED, CGB_HALTED, 0, 0};
    unsigned round, k;
    power_on(0);
    set(0xFF55, 0xFF);
    for (round = 1; round <= 256; round++)
        for (k = 0; k < 6; k++) {
            if (round == 256 && k == 4)
                return;
            ACCEPTED(cgb_fall(b.state, answer, mode[k], flags[k], 0));
        }
}

static void k10_compat(void)
{
    power_on(1);
    set(0xFF55, 0x00);
    EQUAL(byte_at(0xFF55), 0xFF);
    EQUAL(transfer(), CGB_TRANSFER_IDLE);
    EQUAL(b.state[CGB_AT_DMG_COMPAT], 1);
}

/* ---- What the cases do not ask ---- */

/* Section 6's records: left and FF55 behind each. */
static void next_pairs(void)
{
    power_on(0);
    set(0xFF55, 0x00);
    fall(3);
    EQUAL(left(), 16);
    EQUAL(byte_at(0xFF55), 0x80);
    ACCEPTED(cgb_next_pair(b.state, answer));
    EQUAL(cgb_handed(answer), 1);
    EQUAL(cgb_handed_source(answer), 0);
    EQUAL(cgb_handed_destination(answer), 0x8000);
    EQUAL(left(), 15);
    EQUAL(byte_at(0xFF55), 0xFF);
    ACCEPTED(cgb_next_pair(b.state, answer));
    EQUAL(cgb_handed_destination(answer), 0x8001);
    EQUAL(left(), 14);
    ACCEPTED(cgb_next_pair(b.state, answer));
    EQUAL(cgb_handed(answer), 0);
    EQUAL(cgb_handed_destination(answer), 0);
    EQUAL(left(), 14);
}

/* Section 4: one pair, and quota 0 then; with no escape owed, nothing. */
static void escape_drain(void)
{
    cut();
    fall(0);
    ACCEPTED(cgb_escape_drain(b.state, answer));
    EQUAL(cgb_handed(answer), 1);
    EQUAL(cgb_handed_source(answer), 2);
    EQUAL(cgb_handed_destination(answer), 0x8002);
    EQUAL(b.state[CGB_AT_CURSOR_QUOTA], 0);
    EQUAL(left(), 30);
    ACCEPTED(cgb_escape_drain(b.state, answer));
    EQUAL(cgb_handed(answer), 0);
}

/* Section 4: without a ready block the switch discards; an escape stalls OAM DMA at double speed. */
static void discard_and_stall(void)
{
    power_on(0);
    set(0xFF55, 0x80);
    fall(3);
    fall(0);
    fall(0);
    EQUAL(speed_switch(0, 0, 0), CGB_SWITCH_DISCARDED);
    EQUAL(b.state[CGB_AT_BLOCK_REMAINING], 0);
    cut();
    fall(0);
    ACCEPTED(cgb_arbitration(b.state, answer, CGB_SUSPENDED));
    EQUAL(cgb_value(answer, 0), CGB_ARBITRATION_CLEAR);
    ACCEPTED(cgb_arbitration(b.state, answer, CGB_SUSPENDED | CGB_OAM_TRANSFERS));
    EQUAL(cgb_value(answer, 0), CGB_ARBITRATION_STALL);
    EQUAL(b.state[CGB_AT_OAM_WAS_TRANSFERRING], 1);
}

/* A copy of the state with a pend takes this fall in mode 0: whether it committed. */
static unsigned commits(uint8_t flags)
{
    uint8_t copy[CGB_STATE_BYTES];
    memcpy(copy, b.state, sizeof copy);
    ACCEPTED(cgb_fall(copy, answer, 0, flags, 0));
    return cgb_value(answer, CGB_CLAIM_COMMITTED);
}

/* Section 2: gated is stopped, or halted without latched IRQ, and a gated fall commits nothing; halted, a pend older than
 * 2 waits; a claim is standing at pend age 4 or more with no bus owned by OAM DMA. */
static void flags_of_a_fall(void)
{
    unsigned k;
    power_on(0);
    set(0xFF55, 0x81);
    fall(3);
    fall(0);
    EQUAL(commits(0), 1);
    EQUAL(cgb_value(answer, CGB_CLAIM_STANDING), 0);
    EQUAL(commits(CGB_HALTED | CGB_IRQ_LATCHED), 1);
    EQUAL(commits(CGB_HALTED), 0);
    EQUAL(commits(CGB_STOPPED), 0);
    EQUAL(commits(CGB_STOPPED | CGB_IRQ_LATCHED), 0);
    for (k = 0; k < 4; k++)
        ACCEPTED(cgb_fall(b.state, answer, 0, CGB_STOPPED, 0));
    EQUAL(b.state[CGB_AT_ARB_PEND_AGE], 4);
    EQUAL(b.state[CGB_AT_ARB_HALTED_FALLS], 0);
    EQUAL(commits(CGB_HALTED | CGB_IRQ_LATCHED), 0);
    EQUAL(commits(CGB_IRQ_LATCHED), 1);
    EQUAL(commits(CGB_OAM_OWNS_BUS), 1);
    EQUAL(cgb_value(answer, CGB_CLAIM_STANDING), 0);
    EQUAL(commits(0), 1);
    EQUAL(cgb_value(answer, CGB_CLAIM_STANDING), 1);
    fall(0);
    ACCEPTED(cgb_claim(b.state, answer));
    EQUAL(cgb_value(answer, CGB_CLAIM_COMMITTED), 1);
    EQUAL(cgb_value(answer, CGB_CLAIM_STANDING), 1);
    EQUAL(b.state[CGB_AT_VRAM_DMA_CLAIM_STANDING], 1);
}

/* The original's `vram_dma_write_conflict_source`: at double speed, from the second seized fall on, where the next byte lands. */
static void write_conflict(void)
{
    power_on(0);
    speed_switch(0, 0, 0);
    lasts(131077);
    out_of_the_blind();
    set(0xFF52, 0x30);
    set(0xFF54, 0x40);
    set(0xFF55, 0x81);
    falls_to_a_ready_block();
    fall(0);
    fall(0);
    ACCEPTED(cgb_write_conflict(b.state, answer, 0x8040));
    EQUAL(cgb_value(answer, CGB_CONFLICT_MET), 1);
    EQUAL(cgb_value(answer, CGB_CONFLICT_SOURCE), 0x0030);
    ACCEPTED(cgb_write_conflict(b.state, answer, 0x8041));
    EQUAL(cgb_value(answer, CGB_CONFLICT_MET), 0);
}

/* Section 1: armed with the LCD off, or the LCD turned off while armed, a block of 16 is latched, ready in 2. */
static void lcd_off(void)
{
    power_on(0);
    ACCEPTED(cgb_write(b.state, answer, 0xFF55, 0x80, 0, b.wram, sizeof b.wram));
    EQUAL(b.state[CGB_AT_BLOCK_REMAINING], 16);
    EQUAL(b.state[CGB_AT_BLOCK_READY_IN], 2);
    power_on(0);
    set(0xFF55, 0x80);
    EQUAL(b.state[CGB_AT_BLOCK_REMAINING], 0);
    ACCEPTED(cgb_lcd_off(b.state, answer));
    EQUAL(b.state[CGB_AT_BLOCK_REMAINING], 16);
    EQUAL(b.state[CGB_AT_BLOCK_READY_IN], 2);
}

/* The original's `wake_intake_ready`, `vram_dma_instruction_retired`, and FF70, where 0 means 1. */
static void wake_park_and_bank(void)
{
    power_on(0);
    ACCEPTED(cgb_wake_intake(b.state, answer, CGB_BOUNDARY));
    EQUAL(cgb_value(answer, 0), 0);
    ACCEPTED(cgb_wake_intake(b.state, answer, 0));
    EQUAL(cgb_value(answer, 0), 0);
    EQUAL(b.state[CGB_AT_SPEED_SWITCH_WAKE_LATENCY_TAG], 1);
    EQUAL(b.state[CGB_AT_SPEED_SWITCH_WAKE_LATENCY_VALUE], 1);
    ACCEPTED(cgb_wake_intake(b.state, answer, CGB_BOUNDARY));
    EQUAL(cgb_value(answer, 0), 1);
    EQUAL(b.state[CGB_AT_SPEED_SWITCH_WAKE_LATENCY_TAG], 1);
    EQUAL(b.state[CGB_AT_SPEED_SWITCH_WAKE_LATENCY_VALUE], 0);
    b.state[CGB_AT_ARB_PARK_WAITS_FOR_FETCH] = 1;
    EQUAL(said(cgb_park_waits_for_fetch), 1);
    ACCEPTED(cgb_instruction_retired(b.state, answer));
    EQUAL(said(cgb_park_waits_for_fetch), 0);
    EQUAL(said(cgb_wram_bank), 1);
    set(0xFF70, 0x00);
    EQUAL(said(cgb_wram_bank), 1);
    EQUAL(said(cgb_svbk_register), 0);
    set(0xFF70, 0x05);
    EQUAL(said(cgb_wram_bank), 5);
    EQUAL(said(cgb_svbk_register), 5);
    set(0xD123, 0x77);
    EQUAL(byte_at(0xD123), 0x77);
    EQUAL(b.wram[5 * 4096 + 0x123], 0x77);
}

/* What sections 1 and 2 say of registers and marks, where the header says that they are. */
static void fields(void)
{
    power_on(0);
    set(0xFF51, 0x12);
    set(0xFF52, 0x34);
    set(0xFF53, 0x9A);
    set(0xFF54, 0xBC);
    set(0xFF55, 0x83);
    set(0xFF4D, 0x01);
    set(0xFF4F, 0x01);
    set(0xFF70, 0x03);
    set(0xFF72, 0x72);
    set(0xFF73, 0x73);
    set(0xFF74, 0x74);
    set(0xFF75, 0x70);
    set(0xFEA0, 0xA0);
    EQUAL(cgb_number(b.state, CGB_AT_CURSOR_SOURCE, 2), 0x1230);
    EQUAL(cgb_number(b.state, CGB_AT_CURSOR_DEST, 2), 0x9AB0);
    EQUAL(cgb_number(b.state, CGB_AT_CURSOR_REMAINING, 2), 64);
    EQUAL(b.state[CGB_AT_CURSOR_MODE], CGB_TRANSFER_HBLANK);
    EQUAL(b.state[CGB_AT_KEY1_ARMED], 1);
    EQUAL(b.state[CGB_AT_VRAM_SELECTED], 1);
    EQUAL(b.state[CGB_AT_SVBK], 3);
    EQUAL(b.state[CGB_AT_FF72], 0x72);
    EQUAL(b.state[CGB_AT_FF73], 0x73);
    EQUAL(b.state[CGB_AT_FF74], 0x74);
    EQUAL(b.state[CGB_AT_FF75], 0x70);
    EQUAL(b.state[CGB_AT_EXTRA_OAM], 0xA0);
    fall(0);
    EQUAL(b.state[CGB_AT_ARB_PREV_VIEW_HBLANK], 1);
    fall(0);
    EQUAL(b.state[CGB_AT_ARB_GRANTED_AHEAD], 1);
    EQUAL(b.state[CGB_AT_VRAM_DMA_CLAIM_COMMITTED], 1);
    fall(0);
    fall(0);
    EQUAL(b.state[CGB_AT_CURSOR_QUOTA], 2);
    EQUAL(CGB_AT_SPARE, 102);
    EQUAL(CGB_SUSPENDED, 2); /* no call tells it from both bits */
    k9_granted();
    EQUAL(b.state[CGB_AT_ARB_GRANTED_AHEAD], 255);
}

/* ---- Object DMA: document 02's A1 ---- */

/* What OAM holds in front of these. */
enum { BEFORE = 0xEE };

/* Neither a bank nor a page has the bytes of another. */
static void fill(uint8_t *bytes, size_t size, size_t first)
{
    size_t i;
    for (i = 0; i < size; i++)
        bytes[i] = (uint8_t)(i * 7 + i / 256 * 3 + first);
}

static void power_on_filled(uint8_t compat)
{
    power_on(compat);
    fill(b.cartridge, sizeof b.cartridge, 5);
    fill(b.wram, sizeof b.wram, 90);
    fill(b.vram, sizeof b.vram, 170);
    memset(b.oam, BEFORE, sizeof b.oam);
}

static void start(uint8_t page, uint64_t edge)
{
    ACCEPTED(cgb_start_object_dma(b.state, answer, page, edge, b.wram, sizeof b.wram));
}

/* What the query says. */
static void object_dma_is(unsigned runs, unsigned counted, unsigned page, int line)
{
    equal(cgb_object_dma(b.state, answer), CGB_ACCEPTED, "the query", line);
    equal(cgb_value(answer, CGB_OBJECT_DMA_RUNS), runs, "runs", line);
    equal(cgb_value(answer, CGB_OBJECT_DMA_COUNTED), counted, "counted", line);
    equal(cgb_value(answer, CGB_OBJECT_DMA_PAGE), page, "the page", line);
}
#define OBJECT_DMA_IS(runs, counted, page) object_dma_is(runs, counted, page, __LINE__)

/* The M-cycle call, and its outcome. */
static unsigned m_cycle(uint8_t arbitration)
{
    const struct cgb_memory memory = lent();
    ACCEPTED(cgb_object_dma_m_cycle(b.state, answer, arbitration, &memory));
    return cgb_value(answer, CGB_CYCLE_OUTCOME);
}

static unsigned arbitration_inside(uint8_t flags)
{
    ACCEPTED(cgb_arbitration_from_inside(b.state, answer, flags));
    return cgb_value(answer, 0);
}

static unsigned bus_inside(uint8_t flags)
{
    const struct cgb_memory memory = lent();
    ACCEPTED(cgb_bus_call_from_inside(b.state, answer, flags, &memory));
    return cgb_value(answer, CGB_BUS_PAIRS);
}

/* "The write carries the start edge .. and a new write starts over"; "0 at power-on, where object DMA rests". Document 01 does not list
 * FF46 among what compat locks. */
static void object_dma_write(uint8_t compat)
{
    power_on_filled(compat);
    EQUAL(cgb_number(b.state, CGB_AT_OBJECT_DMA_START_EDGE, 8), 0);
    OBJECT_DMA_IS(0, 0, 0);
    start(0xC1, 0x0123456789ABCDEFu);
    EQUAL(b.state[CGB_AT_OBJECT_DMA_RUNNING], 1);
    EQUAL(b.state[CGB_AT_OBJECT_DMA_PAGE], 0xC1);
    EQUAL(b.state[CGB_AT_OBJECT_DMA_COUNTED], 0);
    EQUAL(cgb_number(b.state, CGB_AT_OBJECT_DMA_START_EDGE, 8), 0x0123456789ABCDEFu);
    OBJECT_DMA_IS(1, 0, 0xC1);
    m_cycle(CGB_ARBITRATION_CLEAR);
    m_cycle(CGB_ARBITRATION_CLEAR);
    OBJECT_DMA_IS(1, 2, 0xC1);
    start(0xDF, 5); /* page DFh is the last */
    OBJECT_DMA_IS(1, 0, 0xDF);
    EQUAL(cgb_number(b.state, CGB_AT_OBJECT_DMA_START_EDGE, 8), 5);
    EQUAL(m_cycle(CGB_ARBITRATION_CLEAR), CGB_CYCLE_MOVED);
    EQUAL(cgb_value(answer, CGB_CYCLE_SOURCE), 0xDF00);
    set(0xFF46, 0x12); /* the other write has start edge 0 */
    EQUAL(cgb_number(b.state, CGB_AT_OBJECT_DMA_START_EDGE, 8), 0);
    OBJECT_DMA_IS(1, 0, 0x12);
}

/* "moves 160 bytes from p x 256 up to FE00h-FE9Fh, one byte each M-cycle call": these, and none after them. */
static void whole_run(uint8_t page, const uint8_t *from)
{
    unsigned k;
    memset(b.oam, BEFORE, sizeof b.oam);
    start(page, 0x8000000000000001u);
    for (k = 0; k < 160; k++) {
        OBJECT_DMA_IS(1, k, page);
        EQUAL(m_cycle(CGB_ARBITRATION_CLEAR), CGB_CYCLE_MOVED);
        EQUAL(cgb_value(answer, CGB_CYCLE_SOURCE), page * 256u + k);
        EQUAL(cgb_cycle_byte(answer), from[k]);
        EQUAL(b.oam[k], from[k]);
        EQUAL(k == 159 || b.oam[k + 1] == BEFORE, 1);
    }
    EQUAL(memcmp(b.oam, from, sizeof b.oam), 0);
    OBJECT_DMA_IS(0, 160, page);
    EQUAL(b.state[CGB_AT_OBJECT_DMA_RUNNING], 0);
    EQUAL(cgb_number(b.state, CGB_AT_OBJECT_DMA_START_EDGE, 8), 0x8000000000000001u);
    memset(b.oam, BEFORE, sizeof b.oam);
    EQUAL(m_cycle(CGB_ARBITRATION_CLEAR), CGB_CYCLE_NOTHING);
    EQUAL(cgb_value(answer, CGB_CYCLE_SOURCE), 0);
    OBJECT_DMA_IS(0, 160, page);
    EQUAL(b.oam[0], BEFORE);
}

/* "through the same read rules and stand-ins, except that 8000h-9FFFh reads VRAM in the bank of FF4F": index = address below 8000h,
 * address - 2000h from A000h to BFFFh; D000h up in bank FF70, where 0 means 1. */
static void whole_runs(void)
{
    power_on_filled(0);
    whole_run(0x00, b.cartridge);
    whole_run(0x7F, b.cartridge + 0x7F00);
    whole_run(0x80, b.vram);
    whole_run(0x9F, b.vram + 0x1F00);
    set(0xFF4F, 0x01);
    whole_run(0x80, b.vram + 8192);
    whole_run(0x9F, b.vram + 8192 + 0x1F00);
    whole_run(0xA0, b.cartridge + 0x8000);
    whole_run(0xBF, b.cartridge + 0x9F00);
    whole_run(0xC0, b.wram);
    whole_run(0xCF, b.wram + 0x0F00);
    set(0xFF70, 0x00);
    whole_run(0xD0, b.wram + 4096);
    set(0xFF70, 0x05);
    whole_run(0xC0, b.wram);
    whole_run(0xD0, b.wram + 5 * 4096);
    whole_run(0xDF, b.wram + 5 * 4096 + 0x0F00);
}

/* The bank is that of the call. */
static void bank_in_the_run(void)
{
    power_on_filled(0);
    start(0xD0, 0);
    set(0xFF70, 0x02);
    m_cycle(CGB_ARBITRATION_CLEAR);
    set(0xFF70, 0x03);
    m_cycle(CGB_ARBITRATION_CLEAR);
    EQUAL(b.oam[0], b.wram[2 * 4096]);
    EQUAL(b.oam[1], b.wram[3 * 4096 + 1]);
    start(0x80, 0);
    m_cycle(CGB_ARBITRATION_CLEAR);
    set(0xFF4F, 0x01);
    m_cycle(CGB_ARBITRATION_CLEAR);
    EQUAL(b.oam[0], b.vram[0]);
    EQUAL(b.oam[1], b.vram[8192 + 1]);
}

/* "contended, its own byte is passed over but counted; stalled, it waits"; "at rest this call changes nothing". */
static void answers_of_arbitration(void)
{
    uint8_t copy[CGB_STATE_BYTES];
    uint8_t any;
    unsigned k;
    power_on_filled(0);
    memcpy(copy, b.state, sizeof copy);
    for (any = CGB_ARBITRATION_CLEAR; any <= CGB_ARBITRATION_STALL; any++) {
        EQUAL(m_cycle(any), CGB_CYCLE_NOTHING);
        EQUAL(memcmp(copy, b.state, sizeof copy), 0);
    }
    start(0xC0, 0);
    EQUAL(m_cycle(CGB_ARBITRATION_CONTENDED), CGB_CYCLE_PASSED_OVER);
    EQUAL(cgb_value(answer, CGB_CYCLE_SOURCE), 0xC000);
    EQUAL(cgb_cycle_byte(answer), 0);
    OBJECT_DMA_IS(1, 1, 0xC0);
    EQUAL(m_cycle(CGB_ARBITRATION_STALL), CGB_CYCLE_NOTHING);
    EQUAL(cgb_value(answer, CGB_CYCLE_SOURCE), 0);
    OBJECT_DMA_IS(1, 1, 0xC0);
    EQUAL(b.oam[0], BEFORE);
    EQUAL(b.oam[1], BEFORE);
    EQUAL(m_cycle(CGB_ARBITRATION_CLEAR), CGB_CYCLE_MOVED);
    EQUAL(cgb_value(answer, CGB_CYCLE_SOURCE), 0xC001);
    EQUAL(b.oam[0], BEFORE);
    EQUAL(b.oam[1], b.wram[1]);
    for (k = 2; k < 159; k++)
        m_cycle(CGB_ARBITRATION_CONTENDED);
    OBJECT_DMA_IS(1, 159, 0xC0);
    EQUAL(m_cycle(CGB_ARBITRATION_STALL), CGB_CYCLE_NOTHING);
    OBJECT_DMA_IS(1, 159, 0xC0);
    EQUAL(m_cycle(CGB_ARBITRATION_CONTENDED), CGB_CYCLE_PASSED_OVER);
    OBJECT_DMA_IS(0, 160, 0xC0);
    EQUAL(b.oam[159], BEFORE);
}

/* "Object DMA runs, to arbitration too, from the write until 160 are counted". Arbitration keeps that it transferred, so the M-cycle after
 * the 160th is contended too: its bus call deposits, by K8 the second byte where both edges are 0. */
static void arbitration_to_its_end(void)
{
    uint8_t copy[CGB_STATE_BYTES];
    unsigned k;
    power_on_filled(0);
    set(0xFF55, 0x00);
    fall(3);
    EQUAL(arbitration_inside(CGB_HOLD), CGB_ARBITRATION_CLEAR);
    start(0xC0, 0);
    memcpy(copy, b.state, sizeof copy);
    EQUAL(arbitration_inside(0), CGB_ARBITRATION_CLEAR);
    EQUAL(b.state[CGB_AT_OAM_WAS_TRANSFERRING], 1);
    memcpy(b.state, copy, sizeof copy);
    EQUAL(arbitration_inside(CGB_SUSPENDED), CGB_ARBITRATION_CONTENDED);
    memcpy(b.state, copy, sizeof copy);
    for (k = 0; k < 159; k++)
        m_cycle(CGB_ARBITRATION_CLEAR);
    EQUAL(arbitration_inside(CGB_HOLD), CGB_ARBITRATION_CONTENDED);
    EQUAL(m_cycle(CGB_ARBITRATION_CONTENDED), CGB_CYCLE_PASSED_OVER);
    EQUAL(bus_inside(0), 0); /* neither held nor suspended */
    EQUAL(bus_inside(CGB_HOLD), 2);
    EQUAL(cgb_pair_source(answer, 1), 1);
    EQUAL(cgb_pair_byte(answer, 1), b.cartridge[1]);
    OBJECT_DMA_IS(0, 160, 0xC0);
    fall(3);
    EQUAL(arbitration_inside(CGB_HOLD), CGB_ARBITRATION_CONTENDED);
    EQUAL(m_cycle(CGB_ARBITRATION_CONTENDED), CGB_CYCLE_NOTHING);
    EQUAL(bus_inside(CGB_SUSPENDED), 2);
    fall(3);
    EQUAL(arbitration_inside(CGB_HOLD), CGB_ARBITRATION_CLEAR);
    EQUAL(bus_inside(CGB_HOLD), 2);
    for (k = 0; k < 159; k++)
        EQUAL(b.oam[k], k == 1 || k == 3 ? b.cartridge[k] : b.wram[k]);
    EQUAL(b.oam[159], BEFORE);
}

/* K8, the start edge from inside, of a run that goes on (cycles 1) or has ended (160). A write between arbitration and bus call starts
 * over and leaves that the two met. */
static void start_edge(uint64_t block_edge, uint64_t edge, unsigned second, unsigned cycles)
{
    uint8_t copy[CGB_STATE_BYTES];
    unsigned k;
    power_on_filled(0);
    set(0xFF51, 0xC0);
    set(0xFF55, 0x80);
    fall(3);
    fall(0);
    ACCEPTED(cgb_fall(b.state, answer, 0, 0, block_edge));
    fall(0);
    EQUAL(bus_inside(CGB_HOLD), 0);
    EQUAL(cgb_value(answer, CGB_BUS_SET_UP_CELL), 1);
    fall(0);
    start(0xC0, ~edge);
    EQUAL(arbitration_inside(CGB_HOLD), CGB_ARBITRATION_CONTENDED);
    memcpy(copy, b.state, sizeof copy);
    start(0xD0, edge);
    EQUAL(memcmp(copy, b.state, CGB_AT_OBJECT_DMA_RUNNING), 0);
    for (k = 0; k < cycles; k++)
        EQUAL(m_cycle(CGB_ARBITRATION_CONTENDED), CGB_CYCLE_PASSED_OVER);
    OBJECT_DMA_IS(cycles < 160, cycles, 0xD0);
    EQUAL(bus_inside(CGB_HOLD), 2);
    EQUAL(b.oam[second], b.wram[second]);
    EQUAL(b.oam[1 - second], BEFORE);
}

/* K6's escape byte at double speed stalls object DMA; its byte comes an M-cycle later. */
static void stall(void)
{
    cut();
    start(0xC0, 0);
    fall(0);
    EQUAL(arbitration_inside(CGB_HOLD), CGB_ARBITRATION_STALL);
    EQUAL(m_cycle(CGB_ARBITRATION_STALL), CGB_CYCLE_NOTHING);
    EQUAL(bus_inside(CGB_HOLD), 1);
    EQUAL(cgb_pair_source(answer, 0), 2);
    fall(0);
    EQUAL(arbitration_inside(CGB_HOLD), CGB_ARBITRATION_CLEAR);
    EQUAL(m_cycle(CGB_ARBITRATION_CLEAR), CGB_CYCLE_MOVED);
    EQUAL(cgb_value(answer, CGB_CYCLE_SOURCE), 0xC000);
    EQUAL(said(cgb_switch_in_progress), 1); /* which it does not look at */
}

static void object_dma(void)
{
    unsigned cycles;
    object_dma_write(0);
    object_dma_write(1);
    whole_runs();
    bank_in_the_run();
    answers_of_arbitration();
    arbitration_to_its_end();
    for (cycles = 1; cycles <= 160; cycles += 159) {
        start_edge(100, 98, 1, cycles);
        start_edge(100, 92, 1, cycles);
        start_edge(100, 96, 0, cycles);
        start_edge(100, 94, 0, cycles);
        start_edge(0, 0, 1, cycles);
    }
    stall();
}

/* ---- The refusals ---- */

/* The call was refused with this number: the answer is that and zeros, over whatever stood there, and all else is as before. */
static void refused(uint8_t result, uint8_t number, const struct bench *before, int line)
{
    size_t k;
    equal(result, number, "the refusal", line);
    equal(answer[CGB_ANSWER_REFUSAL], number, "the answer's refusal", line);
    for (k = 1; k < CGB_ANSWER_BYTES; k++)
        equal(answer[k], 0, "a byte of a refused call's answer", line);
    equal(memcmp(&b, before, sizeof b) == 0, 1, "state and memory as before", line);
    equal(strcmp(cgb_refusal_text(number), cgb_refusal_text(255)) != 0, 1, "a text of its own", line);
    memset(answer, 0xFF, sizeof answer);
}
static struct bench before;
#define REFUSED(call, number) (before = b, refused(call, number, &before, __LINE__))

/* A call that is lent four slices, with one of another length. */
static uint8_t call_with(uint8_t kind, unsigned slice, size_t bytes)
{
    struct cgb_memory memory = lent();
    size_t *lengths[4];
    lengths[0] = &memory.cartridge_bytes;
    lengths[1] = &memory.wram_bytes;
    lengths[2] = &memory.vram_bytes;
    lengths[3] = &memory.oam_bytes;
    *lengths[slice] = bytes;
    return kind == CGB_KIND_BUS_CALL               ? cgb_bus_call(b.state, answer, CGB_HOLD, 0, &memory)
           : kind == CGB_KIND_BUS_CALL_FROM_INSIDE ? cgb_bus_call_from_inside(b.state, answer, CGB_HOLD, &memory)
                                                   : cgb_object_dma_m_cycle(b.state, answer, CGB_ARBITRATION_CLEAR, &memory);
}

static void refused_lengths(void)
{
    static const size_t lengths[4] = {CGB_CARTRIDGE_BYTES, CGB_WRAM_BYTES, CGB_VRAM_BYTES, CGB_OAM_BYTES};
    static const uint8_t kinds[3] = {CGB_KIND_BUS_CALL, CGB_KIND_BUS_CALL_FROM_INSIDE, CGB_KIND_OBJECT_DMA_M_CYCLE};
    unsigned kind, slice;
    REFUSED(cgb_read(b.state, answer, 0xFF55, b.wram, CGB_WRAM_BYTES - 1), CGB_REFUSED_LENGTH);
    REFUSED(cgb_write(b.state, answer, 0xFF55, 0, 1, b.wram, CGB_WRAM_BYTES + 1), CGB_REFUSED_LENGTH);
    for (kind = 0; kind < 3; kind++)
        for (slice = 0; slice < 4; slice++) {
            REFUSED(call_with(kinds[kind], slice, lengths[slice] - 1), CGB_REFUSED_LENGTH);
            REFUSED(call_with(kinds[kind], slice, lengths[slice] + 1), CGB_REFUSED_LENGTH);
            REFUSED(call_with(kinds[kind], slice, 0), CGB_REFUSED_LENGTH);
        }
}

static uint8_t perform_kind(uint8_t kind)
{
    uint8_t call[CGB_CALL_BYTES];
    cgb_record(call, kind, 0, 0, 0, 0);
    return cgb_perform(b.state, call, answer, NULL, 0, NULL, 0, NULL, 0, NULL, 0);
}

/* A1: "A write to FF46 no longer gets 4, a read still does"; "21, page above DFh, tested after 4, nothing changed", so what runs goes on;
 * the write's 2 comes in front of it. An M-cycle call with an answer that arbitration never gives is no call: 6. */
static void refused_object_dma(uint8_t compat)
{
    const struct cgb_memory memory = lent();
    unsigned page, other;
    power_on_filled(compat);
    start(0xDF, 3);
    m_cycle(CGB_ARBITRATION_CLEAR);
    for (page = 0xE0; page <= 0xFF; page++) {
        REFUSED(cgb_start_object_dma(b.state, answer, (uint8_t)page, 9, b.wram, sizeof b.wram), 21);
        REFUSED(cgb_write(b.state, answer, 0xFF46, (uint8_t)page, 1, b.wram, sizeof b.wram), CGB_REFUSED_PAGE);
    }
    REFUSED(cgb_start_object_dma(b.state, answer, 0xE0, 9, b.wram, CGB_WRAM_BYTES - 1), 2);
    REFUSED(cgb_start_object_dma(b.state, answer, 0xC0, 9, b.wram, CGB_WRAM_BYTES + 1), 2);
    REFUSED(cgb_read(b.state, answer, 0xFF46, b.wram, sizeof b.wram), 4);
    REFUSED(cgb_write(b.state, answer, 0xFF45, 0xC0, 1, b.wram, sizeof b.wram), 4);
    REFUSED(cgb_write(b.state, answer, 0xFF47, 0xC0, 1, b.wram, sizeof b.wram), 4);
    for (other = CGB_ARBITRATION_STALL + 1; other <= 0xFF; other++)
        REFUSED(cgb_object_dma_m_cycle(b.state, answer, (uint8_t)other, &memory), CGB_REFUSED_RECORD);
    EQUAL(m_cycle(CGB_ARBITRATION_CLEAR), CGB_CYCLE_MOVED);
    EQUAL(cgb_value(answer, CGB_CYCLE_SOURCE), 0xDF01);
}

/* "7 gains more than 160 moved bytes and a page above DFh", whether it runs or rests. */
static void object_dma_of_no_run(uint8_t running)
{
    const struct cgb_memory memory = lent();
    power_on(0);
    set(0xFF55, 0x00);
    fall(3);
    b.state[CGB_AT_OBJECT_DMA_RUNNING] = running;
    b.state[CGB_AT_OBJECT_DMA_PAGE] = 0xDF;
    b.state[CGB_AT_OBJECT_DMA_COUNTED] = 160;
    OBJECT_DMA_IS(0, 160, 0xDF); /* no run leaves it with the mark set, but it passes, and rests */
    EQUAL(m_cycle(CGB_ARBITRATION_CLEAR), CGB_CYCLE_NOTHING);
    EQUAL(arbitration_inside(CGB_HOLD), CGB_ARBITRATION_CLEAR);
    OBJECT_DMA_IS(0, 160, 0xDF);
    b.state[CGB_AT_OBJECT_DMA_COUNTED] = 161;
    REFUSED(cgb_object_dma(b.state, answer), 7);
    REFUSED(cgb_fall(b.state, answer, 0, 0, 0), 7);
    REFUSED(cgb_start_object_dma(b.state, answer, 0xC0, 0, b.wram, 0), 7);
    REFUSED(cgb_object_dma_m_cycle(b.state, answer, CGB_ARBITRATION_CLEAR, &memory), 7);
    b.state[CGB_AT_OBJECT_DMA_COUNTED] = 0;
    b.state[CGB_AT_OBJECT_DMA_PAGE] = 0xE0;
    REFUSED(cgb_object_dma(b.state, answer), 7);
    REFUSED(cgb_tally(b.state, answer), 7);
    REFUSED(cgb_arbitration_from_inside(b.state, answer, CGB_HOLD), 7);
    REFUSED(cgb_bus_call_from_inside(b.state, answer, CGB_HOLD, &memory), 7);
}

/* A number of document 01 for each, and the neighbour that is accepted. */
static void refusals(void)
{
    power_on(0);
    set(0xFF55, 0x83);
    fall(3);
    REFUSED(cgb_fall(b.state, answer, 4, 0, 0), 1);
    refused_lengths();
    REFUSED(cgb_speed_switch(b.state, answer, 5, 0, 0), 3);
    REFUSED(cgb_read(b.state, answer, 0xFF68, b.wram, sizeof b.wram), 4);
    REFUSED(cgb_read(b.state, answer, 0xFE9F, b.wram, sizeof b.wram), 4);
    EQUAL(byte_at(0xFEA0), 0);
    REFUSED(cgb_speed_switch(b.state, answer, 4, CGB_HOLD, 0), 5);
    REFUSED(perform_kind(0), 6);
    REFUSED(perform_kind(CGB_KIND_LAST + 1), 6);
    REFUSED(perform_kind(255), 6);
    ACCEPTED(perform_kind(CGB_KIND_LAST));
    REFUSED(cgb_speed_switch(b.state, answer, 4, 0, 0), 12);
    speed_switch(4, 0, 0);
    REFUSED(cgb_speed_switch(b.state, answer, 4, 0, 0), 11);
    lasts(131077);
    out_of_the_blind();
    falls_to_a_ready_block();
    fall(0);
    set(0xFF4D, 0x01);
    REFUSED(cgb_speed_switch(b.state, answer, 4, 0, 0), 13);
    k9_granted();
    REFUSED(cgb_fall(b.state, answer, 0, 0, 0), 14);
    /* no state's bytes: a flag of 2, a spare byte; then states that no run leaves */
    power_on(0);
    b.state[CGB_AT_ARB_PEND] = 2;
    REFUSED(cgb_tally(b.state, answer), 7);
    REFUSED(perform_kind(0), 7);
    power_on(0);
    b.state[CGB_AT_SPARE] = 1;
    REFUSED(cgb_tally(b.state, answer), 7);
    power_on(0);
    b.state[CGB_AT_CURSOR_QUOTA] = 3;
    REFUSED(cgb_tally(b.state, answer), 7);
    power_on(0);
    b.state[CGB_AT_SVBK] = 8;
    REFUSED(cgb_tally(b.state, answer), 7);
    power_on(0);
    b.state[CGB_AT_VRAM_SELECTED] = 2;
    REFUSED(cgb_fall(b.state, answer, 0, 0, 0), 7);
    power_on(0);
    b.state[CGB_AT_OBJECT_DMA_RUNNING] = 2;
    REFUSED(cgb_object_dma(b.state, answer), 7);
    refused_object_dma(0);
    refused_object_dma(1);
    object_dma_of_no_run(0);
    object_dma_of_no_run(1);
}

/* ---- A pair's cause: document 02's A3 ---- */

/* "Bus call, escape drain and replay pass it on": the ways to a pair. A drain brings a free pair alone. */
enum { BY_NEXT_PAIR, BY_BUS, BY_BUS_INSIDE, BY_DRAIN, WAYS };

/* An accepted call's answer has 0 where no value, pair, byte or cause stands. */
static void rest_is_zero(size_t values, size_t pairs, int line)
{
    size_t k;
    for (k = 1; k < CGB_ANSWER_BYTES; k++) {
        if (k >= CGB_ANSWER_VALUES && k < CGB_ANSWER_VALUES + 2 * values)
            continue;
        if (k >= CGB_ANSWER_PAIRS && k < CGB_ANSWER_PAIRS + 4 * pairs)
            continue;
        if (k >= CGB_ANSWER_PAIR_BYTES && k < CGB_ANSWER_PAIR_BYTES + pairs)
            continue;
        if (k >= CGB_ANSWER_PAIR_CAUSES && k < CGB_ANSWER_PAIR_CAUSES + pairs)
            continue;
        equal(answer[k], 0, "a byte of the answer that nothing stands in", line);
    }
}

/* A next pair or a drain: whether a pair came, and its cause. */
static unsigned handed(unsigned way, unsigned *cause, int line)
{
    memset(answer, 0xFF, sizeof answer);
    equal(way == BY_DRAIN ? cgb_escape_drain(b.state, answer) : cgb_next_pair(b.state, answer), CGB_ACCEPTED, "the call", line);
    *cause = cgb_handed_cause(answer);
    equal(cgb_value(answer, 3), *cause, "the fourth value", line);
    rest_is_zero(cgb_handed(answer) ? 4 : 0, 0, line);
    return cgb_handed(answer);
}

/* What comes of the last fall's quota: so many pairs, the first and the second of this cause. */
static void come(unsigned way, unsigned pairs, unsigned first, unsigned second, int line)
{
    unsigned cause = 0;
    memset(answer, 0xFF, sizeof answer);
    if (way == BY_BUS || way == BY_BUS_INSIDE) {
        equal(way == BY_BUS ? bus(CGB_HOLD, 0) : bus_inside(CGB_HOLD), pairs, "the pairs", line);
        equal(cgb_pair_cause(answer, 0), first, "the first pair's cause", line);
        equal(cgb_pair_cause(answer, 1), second, "the second pair's cause", line);
        equal(answer[20], first, "byte 20", line);
        equal(answer[21], second, "byte 21", line);
        rest_is_zero(2, pairs, line);
        return;
    }
    equal(handed(way, &cause, line), pairs > 0, "a first pair", line);
    equal(cause, first, "the first pair's cause", line);
    if (pairs == 0)
        return;
    equal(handed(way, &cause, line), pairs > 1, "a second pair", line);
    equal(cause, second, "the second pair's cause", line);
}
#define COME(way, pairs, first, second) come(way, pairs, first, second, __LINE__)

/* FF53 and FF54, then FF55. */
static void to(uint16_t destination, uint8_t ff55)
{
    power_on(0);
    set(0xFF53, (uint8_t)(destination / 256));
    set(0xFF54, (uint8_t)(destination % 256));
    set(0xFF55, ff55);
}

/* So many falls with one next pair each, all going on. */
static void one_by_one(uint8_t mode, unsigned pairs)
{
    unsigned cause = 0;
    for (; pairs > 0; pairs--) {
        fall(mode);
        EQUAL(handed(BY_NEXT_PAIR, &cause, __LINE__), 1);
        EQUAL(cause, CGB_CAUSE_GOING_ON);
    }
}

/* So many rounds of two pairs, of which the last one has this cause; then none comes. */
static void rounds_to(unsigned way, unsigned rounds, unsigned last)
{
    unsigned round;
    for (round = 1; round <= rounds; round++) {
        fall(3);
        COME(way, 2, CGB_CAUSE_GOING_ON, round < rounds ? (unsigned)CGB_CAUSE_GOING_ON : last);
    }
    EQUAL(left(), 0);
    fall(3);
    COME(way, 0, 0, 0);
}

/* K6: the cut behind so many pairs of the first block, and a fall. */
static void cut_behind(unsigned pairs)
{
    falls_to_a_ready_block();
    EQUAL(bus_inside(CGB_HOLD), 0);
    EQUAL(cgb_value(answer, CGB_BUS_SET_UP_CELL), 1);
    rest_is_zero(2, 0, __LINE__);
    one_by_one(0, pairs);
    EQUAL(speed_switch(CGB_NO_PHASE, 0, 0), CGB_SWITCH_CUT);
    fall(0);
}

static unsigned destination_register(void)
{
    ACCEPTED(cgb_tally(b.state, answer));
    return cgb_value(answer, CGB_TALLY_DESTINATION);
}

/* "one of going on, counted out (left fell to 0), or carried (past FFFFh), this also where left would have reached 0 anyway". */
static void causes_of_a_run(unsigned way)
{
    to(0, 0x00); /* K1: 16 pairs */
    rounds_to(way, 8, CGB_CAUSE_COUNTED_OUT);
    to(0x9FF0, 0x01); /* K5: 32 pairs, the 17th to 8000h: no carry */
    rounds_to(way, 16, CGB_CAUSE_COUNTED_OUT);
    to(0xFFF0, 0x01); /* K4: 16 pairs, cut off 16 */
    rounds_to(way, 8, CGB_CAUSE_CARRIED);
    to(0xFFF0, 0x01);
    one_by_one(3, 15);
    EQUAL(left(), 17);
    EQUAL(destination_register(), 0xFFFF);
    fall(3);
    COME(way, 1, CGB_CAUSE_CARRIED, 0);
    EQUAL(left(), 0);
    EQUAL(destination_register(), 0);
    to(0xFFF0, 0x00); /* both: left 1 at FFFFh */
    rounds_to(way, 8, CGB_CAUSE_CARRIED);
    to(0xFFF0, 0x00);
    one_by_one(3, 15);
    EQUAL(left(), 1);
    fall(3);
    COME(way, 1, CGB_CAUSE_CARRIED, 0);
    to(0, 0x00); /* left 1 under a quota of 2 */
    one_by_one(3, 15);
    fall(3);
    EQUAL(b.state[CGB_AT_CURSOR_QUOTA], 2);
    COME(way, 1, CGB_CAUSE_COUNTED_OUT, 0);
}

/* A pair of a call at double speed. */
static void causes_at_double_speed(unsigned way, uint16_t destination, unsigned last)
{
    unsigned k;
    to(destination, 0x00);
    EQUAL(speed_switch(CGB_NO_PHASE, 0, 0), CGB_SWITCH_NONE);
    for (k = 1; k <= 16; k++) {
        fall(3);
        COME(way, 1, k < 16 ? (unsigned)CGB_CAUSE_GOING_ON : last, 0);
    }
}

/* K2 with 81: a block's last pair is not the run's. */
static void causes_of_blocks(unsigned way)
{
    to(0, 0x81);
    falls_to_a_ready_block();
    EQUAL(bus(CGB_HOLD, 0), 0);
    rest_is_zero(2, 0, __LINE__);
    one_by_one(0, 14);
    fall(0);
    COME(way, 2, CGB_CAUSE_GOING_ON, CGB_CAUSE_GOING_ON);
    EQUAL(b.state[CGB_AT_BLOCK_REMAINING], 0);
    EQUAL(left(), 16);
    falls_to_a_ready_block();
    EQUAL(bus(CGB_HOLD, 0), 0);
    one_by_one(0, 14);
    fall(0);
    COME(way, 2, CGB_CAUSE_GOING_ON, CGB_CAUSE_COUNTED_OUT);
    fall(0);
    COME(way, 0, 0, 0);
}

/* A free pair takes nothing from left: it goes on, K6's and at left 1 too, unless it carries. */
static void causes_of_free_pairs(unsigned way)
{
    to(0, 0x81);
    cut_behind(2);
    COME(way, 1, CGB_CAUSE_GOING_ON, 0);
    EQUAL(left(), 30);
    to(0, 0x80);
    cut_behind(15);
    EQUAL(left(), 1);
    COME(way, 1, CGB_CAUSE_GOING_ON, 0);
    EQUAL(left(), 1);
    to(0xFFF0, 0x81);
    cut_behind(15);
    EQUAL(left(), 17);
    COME(way, 1, CGB_CAUSE_CARRIED, 0);
    EQUAL(left(), 0);
    to(0xFFF0, 0x80);
    cut_behind(15);
    EQUAL(left(), 1);
    COME(way, 1, CGB_CAUSE_CARRIED, 0);
    EQUAL(left(), 0);
}

/* Behind an answer that has causes: no pair without quota, hold or an escape; and a refused call's is the number and zeros. */
static void no_cause(void)
{
    uint8_t last_two[CGB_STATE_BYTES];
    to(0xFFF0, 0x00);
    COME(BY_NEXT_PAIR, 0, 0, 0);
    COME(BY_DRAIN, 0, 0, 0);
    one_by_one(3, 14);
    fall(3);
    EQUAL(bus(0, 0), 0);
    rest_is_zero(0, 0, __LINE__);
    EQUAL(bus_inside(0), 0);
    rest_is_zero(0, 0, __LINE__);
    memcpy(last_two, b.state, sizeof last_two);
    COME(BY_BUS, 2, CGB_CAUSE_GOING_ON, CGB_CAUSE_CARRIED);
    REFUSED(call_with(CGB_KIND_BUS_CALL, 3, CGB_OAM_BYTES - 1), 2);
    memcpy(b.state, last_two, sizeof last_two);
    REFUSED(call_with(CGB_KIND_BUS_CALL, 0, 0), 2);
    REFUSED(call_with(CGB_KIND_BUS_CALL_FROM_INSIDE, 2, CGB_VRAM_BYTES + 1), 2);
    b.state[CGB_AT_CURSOR_QUOTA] = 3;
    REFUSED(cgb_next_pair(b.state, answer), 7);
    REFUSED(cgb_escape_drain(b.state, answer), 7);
    memcpy(b.state, last_two, sizeof last_two);
    COME(BY_NEXT_PAIR, 2, CGB_CAUSE_GOING_ON, CGB_CAUSE_CARRIED);
}

static void causes(void)
{
    unsigned way;
    EQUAL(CGB_CAUSE_GOING_ON, 0);
    EQUAL(CGB_CAUSE_COUNTED_OUT, 1);
    EQUAL(CGB_CAUSE_CARRIED, 2);
    for (way = 0; way < WAYS; way++) {
        causes_of_free_pairs(way);
        if (way == BY_DRAIN)
            continue;
        causes_of_a_run(way);
        causes_at_double_speed(way, 0, CGB_CAUSE_COUNTED_OUT);
        causes_at_double_speed(way, 0xFFF0, CGB_CAUSE_CARRIED);
        causes_of_blocks(way);
    }
    no_cause();
}

/* ---- The estimate: document 02's A5 ---- */

/* The bytes, and the M-cycles at single speed and at double. Bit 7 of the value is not looked at. */
static void estimated(uint8_t value, uint16_t destination, unsigned bytes, unsigned single, unsigned doubled, int line)
{
    unsigned bit_7;
    for (bit_7 = 0; bit_7 <= 0x80; bit_7 += 0x80) {
        const uint8_t v = (uint8_t)(value + bit_7);
        equal(cgb_estimate_bytes(v, destination), bytes, "the bytes", line);
        equal(cgb_estimate(v, destination, 0), single, "the M-cycles at single speed", line);
        equal(cgb_estimate(v, destination, 1), doubled, "the M-cycles at double speed", line);
        equal(cgb_estimate(v, destination, 0x80), doubled, "the M-cycles at double speed, if not 0", line);
    }
}

/* The destination register, from power-on. FF54 drops the low four bits: where they are not 0, rounds of fall and next pair
 * bring the register there. */
static void register_at(uint16_t destination)
{
    power_on(0);
    set(0xFF53, (uint8_t)(destination / 256));
    set(0xFF54, (uint8_t)(destination % 256));
    if (destination % 16 != 0) {
        set(0xFF55, 0x00);
        one_by_one(3, destination % 16);
    }
    EQUAL(destination_register(), destination);
}

/* A round: an accepted fall and an accepted bus call that holds the bus; how many pairs came. They come in order, from this
 * source and this destination register on. */
static unsigned round_from(unsigned source, unsigned destination, unsigned way, uint8_t flags, int line)
{
    unsigned pairs, k;
    fall(3);
    pairs = way == BY_BUS ? bus(flags, 0) : bus_inside(flags);
    for (k = 0; k < pairs; k++) {
        equal(cgb_pair_source(answer, k), source + k, "the source", line);
        equal(cgb_pair_destination(answer, k), 0x8000 + (destination + k) % 0x2000, "the destination", line);
        equal(cgb_pair_byte(answer, k), b.cartridge[source + k], "the byte", line);
    }
    return pairs;
}

/* FF55, then rounds until nothing is left: there are so many, and so many pairs. */
static void rounds_are(uint8_t value, unsigned way, unsigned rounds, unsigned pairs, int line)
{
    unsigned source, destination, moved = 0, round = 0;
    ACCEPTED(cgb_tally(b.state, answer));
    source = cgb_value(answer, CGB_TALLY_SOURCE);
    destination = cgb_value(answer, CGB_TALLY_DESTINATION);
    set(0xFF55, value);
    for (; left() > 0 && round <= rounds; round++) {
        EQUAL(transfer(), CGB_TRANSFER_GENERAL);
        moved += round_from(source + moved, destination + moved, way, round % 2 == 0 ? CGB_HOLD : CGB_SUSPENDED, line);
    }
    EQUAL(transfer(), CGB_TRANSFER_IDLE);
    equal(round, rounds, "the bus calls", line);
    equal(moved, pairs, "the pairs", line);
}

/* "that transfer takes exactly so many accepted bus calls that hold the bus, each directly after an accepted fall". */
static void estimated_and_counted(uint8_t value, uint16_t destination, unsigned bytes, unsigned single, unsigned doubled,
                                  int line)
{
    unsigned way;
    estimated(value, destination, bytes, single, doubled, line);
    for (way = BY_BUS; way <= BY_BUS_INSIDE; way++) {
        register_at(destination);
        rounds_are(value, way, single, bytes, line);
        register_at(destination);
        EQUAL(speed_switch(CGB_NO_PHASE, 0, 0), CGB_SWITCH_NONE);
        EQUAL(escape_owed(), 0);
        rounds_are(value, way, doubled, bytes, line);
    }
}
#define ESTIMATED(value, destination, bytes, single, doubled) \
    estimated_and_counted(value, destination, bytes, single, doubled, __LINE__)

/* What the conditions are for: a set-up cell takes one bus call more, and an escape is one byte more, here at double speed. */
static void not_as_estimated(void)
{
    power_on(0);
    set(0xFF55, 0x80);
    falls_to_a_ready_block();
    set(0xFF55, 0x00); /* a cancel */
    rounds_are(0x00, BY_BUS, 8 + 1, 16, __LINE__);
    power_on(0);
    set(0xFF55, 0x81);
    falls_to_a_ready_block();
    EQUAL(bus(CGB_HOLD, 0), 0); /* the set-up cell */
    EQUAL(speed_switch(CGB_NO_PHASE, 0, 0), CGB_SWITCH_CUT);
    rounds_are(0x00, BY_BUS, 16 + 1, 16 + 1, __LINE__);
}

static void estimates(void)
{
    unsigned value;
    ESTIMATED(0x00, 0x0000, 16, 8, 16);  /* K1 */
    ESTIMATED(0x01, 0xFFF0, 16, 8, 16);  /* K4: "was quoted at 16 M-cycles and ran 8" */
    ESTIMATED(0x01, 0x9FF0, 32, 16, 32); /* K5: VRAM's end is no carry */
    ESTIMATED(0x00, 0xFFF0, 16, 8, 16);  /* both are 16 */
    ESTIMATED(0x00, 0xFFEF, 16, 8, 16);  /* 17 have room */
    ESTIMATED(0x00, 0xFFF1, 15, 8, 15);
    ESTIMATED(0x00, 0xFFFD, 3, 2, 3); /* "half of that, rounded up" */
    ESTIMATED(0x00, 0xFFFE, 2, 1, 2);
    ESTIMATED(0x00, 0xFFFF, 1, 1, 1);
    ESTIMATED(0x7F, 0x0000, 2048, 1024, 2048);
    ESTIMATED(0x7F, 0xF800, 2048, 1024, 2048);
    ESTIMATED(0x7F, 0xF801, 2047, 1024, 2047);
    for (value = 0x00; value <= 0x7F; value++)
        estimated((uint8_t)value, 0xFFFF, 1, 1, 1, __LINE__);
    not_as_estimated();
}

static void texts(void)
{
    EQUAL(strcmp(cgb_cause_text(CGB_CAUSE_GOING_ON), "going on"), 0);
    EQUAL(strcmp(cgb_cause_text(CGB_CAUSE_COUNTED_OUT), "counted out"), 0);
    EQUAL(strcmp(cgb_cause_text(CGB_CAUSE_CARRIED), "carried"), 0);
    EQUAL(strcmp(cgb_cause_text(3), "no cause of this library"), 0);
    EQUAL(strcmp(cgb_refusal_text(CGB_ACCEPTED), "accepted"), 0);
    EQUAL(strcmp(cgb_refusal_text(8), "no refusal of this library"), 0);
    EQUAL(strcmp(cgb_refusal_text(CGB_REFUSED_BLACKOUT), "a switch while the blackout runs"), 0);
    EQUAL(strcmp(cgb_refusal_text(CGB_REFUSED_PAGE), "the page is above DFh"), 0);
}

/* NULL with length 0, and one pointer for all four slices of length 0. */
static void empty_slices(void)
{
    uint8_t call[CGB_CALL_BYTES];
    uint8_t none = 0xA5;
    struct cgb_memory memory;
    memset(&memory, 0, sizeof memory);
    memory.cartridge = NULL;
    memory.wram = NULL;
    memory.vram = NULL;
    memory.oam = NULL;
    power_on(0);
    set(0xFF55, 0x00);
    fall(3);
    REFUSED(cgb_bus_call(b.state, answer, CGB_HOLD, 0, &memory), CGB_REFUSED_LENGTH);
    REFUSED(cgb_read(b.state, answer, 0xC000, NULL, 0), CGB_REFUSED_LENGTH);
    REFUSED(cgb_write(b.state, answer, 0xC000, 1, 1, NULL, 0), CGB_REFUSED_LENGTH);
    REFUSED(cgb_start_object_dma(b.state, answer, 0xC0, 0, NULL, 0), CGB_REFUSED_LENGTH);
    REFUSED(cgb_object_dma_m_cycle(b.state, answer, CGB_ARBITRATION_CLEAR, &memory), CGB_REFUSED_LENGTH);
    REFUSED(cgb_bus_call_from_inside(b.state, answer, CGB_HOLD, &memory), CGB_REFUSED_LENGTH);
    cgb_record(call, CGB_KIND_FALL, 0, 3, 0, 0);
    ACCEPTED(cgb_perform(b.state, call, answer, &none, 0, &none, 0, &none, 0, &none, 0));
    cgb_record(call, CGB_KIND_BUS_CALL, 0, 0, CGB_HOLD, 0);
    REFUSED(cgb_perform(b.state, call, answer, &none, 0, &none, 0, &none, 0, &none, 0), CGB_REFUSED_LENGTH);
    EQUAL(none, 0xA5);
}

int main(void)
{
    k1_general();
    k2_hblank();
    k3_cancel();
    ff55_from_bit_7_down();
    k4_carry_and_k5_wrap();
    k6_cut();
    k7_blackouts();
    k8_deposits();
    k9_granted();
    k10_compat();
    next_pairs();
    escape_drain();
    discard_and_stall();
    flags_of_a_fall();
    write_conflict();
    lcd_off();
    wake_park_and_bank();
    fields();
    object_dma();
    refusals();
    causes();
    estimates();
    texts();
    empty_slices();
    if (failures != 0) {
        fprintf(stderr, "tests/cases.c: %u of %u comparisons failed\n", failures, comparisons);
        return 1;
    }
    printf("K1 to K10, every reading of FF55, object DMA, causes, the estimate, every call and every refusal: %u comparisons\n",
           comparisons);
    return 0;
}
