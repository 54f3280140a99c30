/* A General transfer of 16 bytes, from the cartridge to VRAM, printed as it moves. The cause of its last pair says that it was the last.
 *
 *     sh tools/library
 *     cc -Iinclude examples/transfer.c target/lib/libcgb_vram_dma.a -o target/transfer && target/transfer
 */
#include "cgb_vram_dma.h"

#include <stdio.h>
#include <stdlib.h>

static uint8_t state[CGB_STATE_BYTES];
static uint8_t answer[CGB_ANSWER_BYTES];
static uint8_t cartridge[CGB_CARTRIDGE_BYTES];
static uint8_t wram[CGB_WRAM_BYTES];
static uint8_t vram[CGB_VRAM_BYTES];
static uint8_t oam[CGB_OAM_BYTES];
static const struct cgb_memory memory = {
    cartridge, sizeof cartridge, wram, sizeof wram, vram, sizeof vram, oam, sizeof oam,
};

/* A refusal ends the program: this transfer has none. */
static void accepted(uint8_t refusal)
{
    if (refusal != CGB_ACCEPTED) {
        fprintf(stderr, "refused with %u: %s\n", refusal, cgb_refusal_text(refusal));
        exit(1);
    }
}

int main(void)
{
    uint8_t cause = CGB_CAUSE_GOING_ON;
    size_t pairs;

    for (size_t i = 0; i < sizeof cartridge; i++)
        cartridge[i] = (uint8_t)(i * 3 + 1);
    cgb_power_on(state, 0);
    accepted(cgb_write(state, answer, 0xFF55, 0x00, 1, wram, sizeof wram)); /* LCD on */
    do {
        accepted(cgb_fall(state, answer, 3, 0, 0)); /* mode 3, running */
        accepted(cgb_bus_call(state, answer, CGB_HOLD, 0, &memory));
        pairs = cgb_value(answer, CGB_BUS_PAIRS);
        for (size_t k = 0; k < pairs; k++) {
            printf("%04X -> %04X: %02X\n", cgb_pair_source(answer, k), cgb_pair_destination(answer, k), cgb_pair_byte(answer, k));
            cause = cgb_pair_cause(answer, k);
        }
    } while (pairs > 0 && cause == CGB_CAUSE_GOING_ON);
    if (cause != CGB_CAUSE_COUNTED_OUT) { /* carried, past FFFFh, would have cut some of the 16 off */
        fprintf(stderr, "the last pair: %s\n", cgb_cause_text(cause));
        return 1;
    }
    for (size_t i = 0; i < 16; i++)
        if (vram[i] != cartridge[i])
            return 1;
    puts("16 bytes moved");
    return 0;
}
