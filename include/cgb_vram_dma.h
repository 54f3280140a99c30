/* VRAM DMA, object DMA and the speed switch of the Game Boy Color: a proved model, as a static library for x86-64.
 *
 *     sh tools/library          (proves it and writes target/lib/libcgb_vram_dma.a)
 *     cc -Iinclude PROGRAM.c target/lib/libcgb_vram_dma.a
 *
 * The library is four functions; they are what is proved. cgb_power_on and cgb_perform work on the state, cgb_estimate_bytes and
 * cgb_estimate take numbers alone. All else is in this file alone: names for the bytes that the first two take and leave, and for
 * each call a function of one line that writes its 16 bytes and performs them. Every layout is a definition that the library is
 * proved to meet: crates/c_api/specs, crates/record/specs, crates/codec/specs. Numbers of several bytes are little-endian. C99
 * and later, C++11 and later. docs/LIBRARY.md leads through it, docs/DRIVING.md says who calls what when. */
#ifndef CGB_VRAM_DMA_H
#define CGB_VRAM_DMA_H

#include <stddef.h>
#include <stdint.h>

/* 10000 times the first number, 100 times the second, and the third. The first grows where a name goes, or where a signature or a
 * layout becomes another, here or in the Rust wrapper; until then a program that compiled still compiles and links, and its states
 * are still taken. Otherwise the second grows with each landing (docs/LANDINGS.md: base 8 is 1.8, A1 1.9, A2 1.10, A3 2.0, A4 2.1,
 * A5 2.2), which may add names and accept what was refused: docs/LIBRARY.md says what to look at. The third grows with a
 * correction between two. 2.0 is the wrapper's, where a struct has a field more: here every name, signature and place of 1.10 is
 * as it was. */
#define CGB_VRAM_DMA_VERSION 20200
#define CGB_VRAM_DMA_VERSION_TEXT "2.2.0"

#ifdef __cplusplus
extern "C" {
#endif

/* ---- The library ---- */

/* The state: 248 bytes, canonical. A copy of the bytes is a copy of the state. */
#define CGB_STATE_BYTES 248
#define CGB_CALL_BYTES 16
#define CGB_ANSWER_BYTES 24

/* The lengths of lent memory. A bus call, from inside too, and an object DMA M-cycle want all four, the calls read and write WRAM's
 * alone; another length gets 2. */
#define CGB_CARTRIDGE_BYTES 40960 /* addresses below 8000h, then A000h to BFFFh from 8000h on */
#define CGB_WRAM_BYTES 32768      /* eight banks of 4096 */
#define CGB_VRAM_BYTES 16384      /* two banks of 8192 */
#define CGB_OAM_BYTES 160

/* The state at power-on; compat if not 0. */
void cgb_power_on(uint8_t state[CGB_STATE_BYTES], uint8_t compat);

/* Performs a call and gives its refusal, or 0: 7 where the bytes are no state's, then 6, then what the call gives. The answer is
 * written whole by every call, and its byte 0 is the result. A refused call changes neither state nor memory, and its answer is
 * the number and zeros.
 *
 * Pointers: state, call and answer are never NULL. A slice of length 0 may be NULL, and several such may be one pointer: nothing
 * is read or written through it. No other two of the seven may overlap. No alignment is asked.
 * Threads: reentrant. There is no static data, no pointer is kept, nothing is allocated, no other library is called. A query
 * may write the state's bytes too, with what stands there: so two threads share no state without a lock. */
uint8_t cgb_perform(uint8_t state[CGB_STATE_BYTES], const uint8_t call[CGB_CALL_BYTES], uint8_t answer[CGB_ANSWER_BYTES],
                    const uint8_t *cartridge, size_t cartridge_bytes, uint8_t *wram, size_t wram_bytes, uint8_t *vram,
                    size_t vram_bytes, uint8_t *oam, size_t oam_bytes);

/* How long a General transfer takes. The two take no state, so they are no calls: they have no kind and no record, and refuse
 * nothing.
 *
 * The bytes that it moves: 16 a block, (value mod 128) + 1 blocks, but no more than 65536 - destination, since the byte that goes
 * past FFFFh is the last. The value is the one for FF55; its bit 7, which arms HBlank, is not looked at. The destination is the
 * register of FF53 and FF54 with its 16 bits, as it stands in front of that write (CGB_TALLY_DESTINATION), not the address in
 * VRAM. */
uint16_t cgb_estimate_bytes(uint8_t value, uint16_t destination);

/* The M-cycles that they take: half as many, rounded up, at single speed, and as many at double (double_speed not 0). An M-cycle here is an
 * accepted bus call that holds the bus (CGB_HOLD or CGB_SUSPENDED), directly behind an accepted fall. From the write to FF55 that
 * starts the transfer until nothing is left there are exactly so many, if no escape is owed (CGB_TALLY_ESCAPE), no set-up cell
 * stands at the first (CGB_AT_BLOCK_SETUP_CELLS) and nothing comes between two of them but accepted falls, one or more. */
uint16_t cgb_estimate(uint8_t value, uint16_t destination, uint8_t double_speed);

/* ---- A call's 16 bytes ---- */

enum {
    CGB_CALL_KIND = 0,
    CGB_CALL_ADDRESS = 2, /* two bytes */
    CGB_CALL_VALUE = 4,   /* a write's value, a fall's mode, a switch's dot phase, arbitration's answer for an object DMA M-cycle */
    CGB_CALL_FLAGS = 5,
    CGB_CALL_EDGE = 8     /* eight bytes; a write's is read at FF46 alone; a blackout drain's elapsed edges are the first four */
};

/* Bits of byte 5, each group for the calls named above it. A write has "LCD on if not 0" there. */
enum {
    /* fall */
    CGB_HALTED = 1,
    CGB_IRQ_LATCHED = 2,
    CGB_STOPPED = 4,
    CGB_OAM_OWNS_BUS = 8,
    /* speed switch; bus call and arbitration, from inside too */
    CGB_HOLD = 1,
    /* speed switch */
    CGB_INTERRUPT_READY = 2,
    /* bus call and arbitration, from inside too */
    CGB_SUSPENDED = 2,
    /* arbitration; from inside the state says it */
    CGB_OAM_TRANSFERS = 4,
    /* wake intake */
    CGB_BOUNDARY = 1
};

/* A switch's dot phase is 0 to 3, or this. */
enum { CGB_NO_PHASE = 4 };

enum {
    /* calls.txt: begin kinds; written by tools/calls */
    CGB_KIND_WRITE = 1,
    CGB_KIND_FALL = 2,
    CGB_KIND_NEXT_PAIR = 3,
    CGB_KIND_SPEED_SWITCH = 4,
    CGB_KIND_LCD_OFF = 5,
    CGB_KIND_ESCAPE_DRAIN = 6,
    CGB_KIND_BLACKOUT_DRAIN = 7,
    CGB_KIND_READ = 8,
    CGB_KIND_BUS_CALL = 9,
    CGB_KIND_ARBITRATION = 10,
    CGB_KIND_WRITE_CONFLICT = 11,
    CGB_KIND_WAKE_INTAKE = 12,
    CGB_KIND_INSTRUCTION_RETIRED = 13,
    CGB_KIND_TALLY = 14,
    CGB_KIND_STATUS = 15,
    CGB_KIND_CLAIM = 16,
    CGB_KIND_PARK_WAITS_FOR_FETCH = 17,
    CGB_KIND_REQUEST_STANDING = 18,
    CGB_KIND_HOLDS_CPU = 19,
    CGB_KIND_SEIZES_BUS = 20,
    CGB_KIND_SWITCH_IN_PROGRESS = 21,
    CGB_KIND_DIVIDER_ACTIVE = 22,
    CGB_KIND_DOUBLE_SPEED = 23,
    CGB_KIND_CPU_STEPS_PER_DOT = 24,
    CGB_KIND_WRAM_BANK = 25,
    CGB_KIND_SVBK_REGISTER = 26,
    CGB_KIND_OBJECT_DMA_M_CYCLE = 27,
    CGB_KIND_ARBITRATION_FROM_INSIDE = 28,
    CGB_KIND_BUS_CALL_FROM_INSIDE = 29,
    CGB_KIND_OBJECT_DMA = 30,
    CGB_KIND_LAST = 30
    /* calls.txt: end */
};

/* The bytes of each kind, and behind -> the values of its answer; other bytes and bits are ignored.
 * (calls.txt: begin table; written by tools/calls)
 *   1 write                    2-3 address, 4 value, 5 LCD on if not 0, 8-15 the master edge at which object DMA
 *                              starts (read at FF46 alone)
 *                              -> none
 *   2 fall                     4 mode 0-3 (0 is HBlank); 5 bits 0-3 halted, IRQ latched, stopped, OAM DMA owns a bus;
 *                              8-15 master edge
 *                              -> committed, standing
 *   3 next pair                -> 1, source, destination, cause: 0 going on, 1 counted out, 2 carried; or 0 for none
 *   4 speed switch             4 dot phase 0-3, or 4 for none; 5 bits 0-1 hold, interrupt ready; 8-15 master edge
 *                              -> 0 none, 1 discarded, 2 cut
 *   5 LCD off                  -> none
 *   6 escape drain             -> 1, source, destination, cause: 0 going on, 1 counted out, 2 carried; or 0 for none
 *   7 blackout drain           8-11 elapsed edges
 *                              -> a flag
 *   8 read                     2-3 address
 *                              -> a byte
 *   9 bus call                 5 bits 0-1 hold, suspended; 8-15 OAM DMA's start edge
 *                              -> how many pairs, set-up cell used; the pairs' causes in bytes 20 and 21
 *  10 arbitration              5 bits 0-2 hold, suspended, OAM DMA transfers
 *                              -> 0 clear, 1 contended, 2 stall
 *  11 write conflict           2-3 address: does a CPU read of it meet the byte that the engine is writing there?
 *                              -> 1, the source of the byte that the read meets; or 0 for none
 *  12 wake intake              5 bit 0 M-cycle boundary
 *                              -> a flag
 *  13 instruction retired      -> none
 *  14 tally                    -> source, destination register, left, escape owed
 *  15 status                   -> 0 Idle; 1 General, left; 2 HBlank, left, source, where the next byte lands
 *  16 claim                    -> committed, standing
 *  17 park waits for fetch     -> a flag
 *  18 request standing         -> a flag
 *  19 holds CPU                -> a flag
 *  20 seizes bus               -> a flag
 *  21 switch in progress       -> a flag
 *  22 divider active           -> a flag
 *  23 double speed             -> a flag
 *  24 CPU steps per dot        -> a byte
 *  25 WRAM bank                -> a byte
 *  26 SVBK register            -> a byte
 *  27 object DMA M-cycle       4 arbitration's answer: 0 clear, 1 contended, 2 stall; above 2 the record is no call's
 *                              -> 0 nothing; 1 moved, its source; 2 passed over, its source; the byte that moved as a
 *                              bus call's first
 *  28 arbitration from inside  5 bits 0-1 hold, suspended
 *                              -> 0 clear, 1 contended, 2 stall
 *  29 bus call from inside     5 bits 0-1 hold, suspended
 *                              -> how many pairs, set-up cell used; the pairs' causes in bytes 20 and 21
 *  30 object DMA               -> runs, bytes counted, page
 * (calls.txt: end)
 */

/* ---- An answer's 24 bytes; values and pairs that a call lacks are 0, and so are bytes 1, 22 and 23 ---- */

enum {
    CGB_ANSWER_REFUSAL = 0,
    CGB_ANSWER_VALUES = 2,       /* four of two bytes */
    CGB_ANSWER_PAIRS = 10,       /* a bus call's: source and destination of two bytes each, of the first pair, then of the second */
    CGB_ANSWER_PAIR_BYTES = 18,  /* a bus call's: the byte of each pair; an object DMA M-cycle's: the byte that it moved */
    CGB_ANSWER_PAIR_CAUSES = 20  /* a bus call's: the cause of each pair, a byte each, CGB_CAUSE_GOING_ON, _COUNTED_OUT or _CARRIED */
};

/* A refused call's number. */
enum {
    CGB_ACCEPTED = 0,
    /* calls.txt: begin refusals; written by tools/calls */
    CGB_REFUSED_MODE       = 1, /* the mode is above 3 */
    CGB_REFUSED_LENGTH     = 2, /* a slice has another length than the call wants */
    CGB_REFUSED_PHASE      = 3, /* the dot phase is neither 0 to 3 nor none */
    CGB_REFUSED_ADDRESS    = 4, /* the address is not in the call's map */
    CGB_REFUSED_HELD       = 5, /* a switch under hold */
    CGB_REFUSED_RECORD     = 6, /* the record is no call's */
    CGB_REFUSED_STATE      = 7, /* the bytes are no state's, or no run leaves this state */
    CGB_REFUSED_BLACKOUT   = 11, /* a switch while the blackout runs */
    CGB_REFUSED_UNARMED    = 12, /* a switch while KEY1 is not armed */
    CGB_REFUSED_DEFERRED   = 13, /* a switch downward with a ready block */
    CGB_REFUSED_GRANTED    = 14, /* a commit not already counted would raise granted from 255 */
    CGB_REFUSED_PAGE       = 21  /* the page is above DFh */
    /* calls.txt: end */
};

static inline const char *cgb_refusal_text(uint8_t refusal)
{
    switch (refusal) {
    case CGB_ACCEPTED: return "accepted";
    /* calls.txt: begin texts; written by tools/calls */
    case CGB_REFUSED_MODE: return "the mode is above 3";
    case CGB_REFUSED_LENGTH: return "a slice has another length than the call wants";
    case CGB_REFUSED_PHASE: return "the dot phase is neither 0 to 3 nor none";
    case CGB_REFUSED_ADDRESS: return "the address is not in the call's map";
    case CGB_REFUSED_HELD: return "a switch under hold";
    case CGB_REFUSED_RECORD: return "the record is no call's";
    case CGB_REFUSED_STATE: return "the bytes are no state's, or no run leaves this state";
    case CGB_REFUSED_BLACKOUT: return "a switch while the blackout runs";
    case CGB_REFUSED_UNARMED: return "a switch while KEY1 is not armed";
    case CGB_REFUSED_DEFERRED: return "a switch downward with a ready block";
    case CGB_REFUSED_GRANTED: return "a commit not already counted would raise granted from 255";
    case CGB_REFUSED_PAGE: return "the page is above DFh";
    /* calls.txt: end */
    default: return "no refusal of this library";
    }
}

/* Which value of the answer is what, for cgb_value. A call that is not here has one value, 0, or none; a next pair and an escape drain
 * have functions, cgb_handed and so on. */
enum {
    /* fall, claim */
    CGB_CLAIM_COMMITTED = 0,
    CGB_CLAIM_STANDING = 1,
    /* bus call */
    CGB_BUS_PAIRS = 0,
    CGB_BUS_SET_UP_CELL = 1,
    /* write conflict: whether the read meets a byte, and its source */
    CGB_CONFLICT_MET = 0,
    CGB_CONFLICT_SOURCE = 1,
    /* object DMA M-cycle: CGB_CYCLE_NOTHING, _MOVED or _PASSED_OVER, and the address of the byte moved or passed over */
    CGB_CYCLE_OUTCOME = 0,
    CGB_CYCLE_SOURCE = 1,
    /* object DMA: whether it runs; bytes counted since the last accepted write to FF46, those passed over too; its page */
    CGB_OBJECT_DMA_RUNS = 0,
    CGB_OBJECT_DMA_COUNTED = 1,
    CGB_OBJECT_DMA_PAGE = 2,
    /* tally: the destination is the register, with all its 16 bits */
    CGB_TALLY_SOURCE = 0,
    CGB_TALLY_DESTINATION = 1,
    CGB_TALLY_LEFT = 2,
    CGB_TALLY_ESCAPE = 3,
    /* status: the destination is the address where the next byte lands, 8000h to 9FFFh */
    CGB_STATUS_TRANSFER = 0,
    CGB_STATUS_LEFT = 1,
    CGB_STATUS_SOURCE = 2,
    CGB_STATUS_DESTINATION = 3
};

/* What a value says: a status, and the state's mode; a speed switch; an arbitration; an object DMA M-cycle. */
enum { CGB_TRANSFER_IDLE = 0, CGB_TRANSFER_GENERAL = 1, CGB_TRANSFER_HBLANK = 2 };
enum { CGB_SWITCH_NONE = 0, CGB_SWITCH_DISCARDED = 1, CGB_SWITCH_CUT = 2 };
enum { CGB_ARBITRATION_CLEAR = 0, CGB_ARBITRATION_CONTENDED = 1, CGB_ARBITRATION_STALL = 2 };
enum { CGB_CYCLE_NOTHING = 0, CGB_CYCLE_MOVED = 1, CGB_CYCLE_PASSED_OVER = 2 };

/* A pair's cause: how the run goes on behind it. Next pair and escape drain answer with their pair's, a bus call with each pair's own; it
 * is 0 also where no pair came. It is above 0 exactly where no byte is left behind the pair: that pair was the last. One that pays an
 * escape takes nothing from left, so it is going on, unless it carries: an escape drain never answers counted out. Of the two pairs of
 * a bus call the first is going on. The state does not keep it. */
enum {
    CGB_CAUSE_GOING_ON = 0,    /* bytes are left */
    CGB_CAUSE_COUNTED_OUT = 1, /* left fell to 0 */
    CGB_CAUSE_CARRIED = 2      /* the destination register went past FFFFh, and what was left is cut off; also where left would be 0 anyway */
};

static inline const char *cgb_cause_text(uint8_t cause)
{
    switch (cause) {
    case CGB_CAUSE_GOING_ON: return "going on";
    case CGB_CAUSE_COUNTED_OUT: return "counted out";
    case CGB_CAUSE_CARRIED: return "carried";
    default: return "no cause of this library";
    }
}

/* A number of that many bytes, of any record here. */
static inline uint64_t cgb_number(const uint8_t *bytes, size_t at, size_t size)
{
    uint64_t number = 0;
    while (size-- > 0)
        number = number * 256 + bytes[at + size];
    return number;
}

/* The answer's value k, 0 to 3. */
static inline uint16_t cgb_value(const uint8_t answer[CGB_ANSWER_BYTES], size_t k)
{
    return (uint16_t)cgb_number(answer, CGB_ANSWER_VALUES + 2 * k, 2);
}

/* Of the pairs that a bus call moved, the first (0) or the second (1): there are cgb_value(answer, CGB_BUS_PAIRS). */
static inline uint16_t cgb_pair_source(const uint8_t answer[CGB_ANSWER_BYTES], size_t k)
{
    return (uint16_t)cgb_number(answer, CGB_ANSWER_PAIRS + 4 * k, 2);
}
static inline uint16_t cgb_pair_destination(const uint8_t answer[CGB_ANSWER_BYTES], size_t k)
{
    return (uint16_t)cgb_number(answer, CGB_ANSWER_PAIRS + 4 * k + 2, 2);
}
static inline uint8_t cgb_pair_byte(const uint8_t answer[CGB_ANSWER_BYTES], size_t k)
{
    return answer[CGB_ANSWER_PAIR_BYTES + k];
}
static inline uint8_t cgb_pair_cause(const uint8_t answer[CGB_ANSWER_BYTES], size_t k)
{
    return answer[CGB_ANSWER_PAIR_CAUSES + k];
}

/* The byte that an object DMA M-cycle moved; 0 where it moved none. */
static inline uint8_t cgb_cycle_byte(const uint8_t answer[CGB_ANSWER_BYTES])
{
    return answer[CGB_ANSWER_PAIR_BYTES];
}

/* Of a next pair or an escape drain: whether it hands out a pair, that pair, and its cause; no byte is moved. */
static inline uint16_t cgb_handed(const uint8_t answer[CGB_ANSWER_BYTES])
{
    return cgb_value(answer, 0);
}
static inline uint16_t cgb_handed_source(const uint8_t answer[CGB_ANSWER_BYTES])
{
    return cgb_value(answer, 1);
}
static inline uint16_t cgb_handed_destination(const uint8_t answer[CGB_ANSWER_BYTES])
{
    return cgb_value(answer, 2);
}
static inline uint8_t cgb_handed_cause(const uint8_t answer[CGB_ANSWER_BYTES])
{
    return (uint8_t)cgb_value(answer, 3);
}

/* ---- The state's 248 bytes: where each field begins (docs/STATE-LAYOUT.md says its size, its values and what it is for) ---- */

enum {
    /* crates/codec/specs: begin offsets; written by tools/calls */
    CGB_AT_CURSOR_SOURCE = 0, /* 2 bytes */
    CGB_AT_CURSOR_DEST = 2, /* 2 bytes */
    CGB_AT_CURSOR_MODE = 4,
    CGB_AT_CURSOR_REMAINING = 5, /* 2 bytes */
    CGB_AT_CURSOR_QUOTA = 7,
    CGB_AT_CURSOR_ESCAPE_BYTE = 8,
    CGB_AT_BLOCK_REMAINING = 9,
    CGB_AT_BLOCK_START_EDGE = 10, /* 8 bytes */
    CGB_AT_BLOCK_TAKEN = 18,
    CGB_AT_BLOCK_SETUP_CELLS = 19,
    CGB_AT_BLOCK_READY_IN = 20,
    CGB_AT_BLOCK_SEIZE_FALLS = 21,
    CGB_AT_BLOCK_FROM_ARM = 22,
    CGB_AT_BLOCK_ARM_READY_PROBATION = 23,
    CGB_AT_ARB_PEND = 24,
    CGB_AT_ARB_PEND_FROM_ARM = 25,
    CGB_AT_ARB_ARMED_THIS_FALL = 26,
    CGB_AT_ARB_HALTED_FALLS = 27,
    CGB_AT_ARB_PREV_VIEW_HBLANK = 28,
    CGB_AT_ARB_PEND_AGE = 29,
    CGB_AT_ARB_PEND_GRANTED = 30,
    CGB_AT_ARB_WAKE_TENURE = 31,
    CGB_AT_ARB_PARK_WAITS_FOR_FETCH = 32,
    CGB_AT_ARB_IDLE_CLAIM = 33,
    CGB_AT_ARB_HALT_WAKE_BLIND = 34,
    CGB_AT_ARB_PREV_CPU_HALTED = 35,
    CGB_AT_ARB_GRANT_COUNTED = 36,
    CGB_AT_ARB_WAKE_PEND_BLIND = 37,
    CGB_AT_ARB_GRANTED_AHEAD = 38,
    CGB_AT_OAM_WAS_TRANSFERRING = 39,
    CGB_AT_OAM_CONTENDED = 40,
    CGB_AT_SVBK = 41,
    CGB_AT_KEY1_ARMED = 42,
    CGB_AT_DOUBLE_SPEED = 43,
    CGB_AT_DMG_COMPAT = 44,
    CGB_AT_SPEED_SWITCH_BLACKOUT = 45, /* 4 bytes */
    CGB_AT_SPEED_SWITCH_WAKE_LATENCY_TAG = 49,
    CGB_AT_SPEED_SWITCH_WAKE_LATENCY_VALUE = 50,
    CGB_AT_SWITCH_RELOCK_DEBIT = 51,
    CGB_AT_FF72 = 52,
    CGB_AT_FF73 = 53,
    CGB_AT_FF74 = 54,
    CGB_AT_FF75 = 55,
    CGB_AT_EXTRA_OAM = 56, /* 24 bytes */
    CGB_AT_VRAM_SELECTED = 80,
    CGB_AT_BLACKOUT_ANCHOR = 81, /* 8 bytes */
    CGB_AT_VRAM_DMA_CLAIM_COMMITTED = 89,
    CGB_AT_VRAM_DMA_CLAIM_STANDING = 90,
    CGB_AT_OBJECT_DMA_RUNNING = 91,
    CGB_AT_OBJECT_DMA_PAGE = 92,
    CGB_AT_OBJECT_DMA_COUNTED = 93,
    CGB_AT_OBJECT_DMA_START_EDGE = 94, /* 8 bytes */
    CGB_AT_SPARE = 102 /* zeros, to the end */
    /* crates/codec/specs: end */
};

/* ---- The calls: each gives the refusal, or 0 (CGB_ACCEPTED); the values are in the answer ---- */

/* What a bus call and an object DMA M-cycle are lent. */
struct cgb_memory {
    const uint8_t *cartridge;
    size_t cartridge_bytes;
    uint8_t *wram;
    size_t wram_bytes;
    uint8_t *vram;
    size_t vram_bytes;
    uint8_t *oam;
    size_t oam_bytes;
};

/* Writes a call's bytes; inputs that the kind lacks are 0. */
static inline void cgb_record(uint8_t call[CGB_CALL_BYTES], uint8_t kind, uint16_t address, uint8_t value, uint8_t flags,
                              uint64_t edge)
{
    size_t k;
    for (k = 0; k < CGB_CALL_BYTES; k++)
        call[k] = 0;
    call[CGB_CALL_KIND] = kind;
    call[CGB_CALL_ADDRESS] = (uint8_t)(address % 256);
    call[CGB_CALL_ADDRESS + 1] = (uint8_t)(address / 256);
    call[CGB_CALL_VALUE] = value;
    call[CGB_CALL_FLAGS] = flags;
    for (k = 0; k < 8; k++)
        call[CGB_CALL_EDGE + k] = (uint8_t)(edge >> (8 * k));
}

/* A call that is lent WRAM. */
static inline uint8_t cgb_with_wram(uint8_t state[CGB_STATE_BYTES], uint8_t answer[CGB_ANSWER_BYTES], uint8_t kind,
                                    uint16_t address, uint8_t value, uint8_t flags, uint8_t *wram, size_t wram_bytes)
{
    uint8_t call[CGB_CALL_BYTES];
    cgb_record(call, kind, address, value, flags, 0);
    return cgb_perform(state, call, answer, NULL, 0, wram, wram_bytes, NULL, 0, NULL, 0);
}

/* A call that is lent all four slices. */
static inline uint8_t cgb_with_memory(uint8_t state[CGB_STATE_BYTES], uint8_t answer[CGB_ANSWER_BYTES], uint8_t kind,
                                      uint8_t value, uint8_t flags, uint64_t edge, const struct cgb_memory *memory)
{
    uint8_t call[CGB_CALL_BYTES];
    cgb_record(call, kind, 0, value, flags, edge);
    return cgb_perform(state, call, answer, memory->cartridge, memory->cartridge_bytes, memory->wram, memory->wram_bytes,
                       memory->vram, memory->vram_bytes, memory->oam, memory->oam_bytes);
}

/* A call that is lent nothing. */
static inline uint8_t cgb_alone(uint8_t state[CGB_STATE_BYTES], uint8_t answer[CGB_ANSWER_BYTES], uint8_t kind,
                                uint16_t address, uint8_t value, uint8_t flags, uint64_t edge)
{
    uint8_t call[CGB_CALL_BYTES];
    cgb_record(call, kind, address, value, flags, edge);
    return cgb_perform(state, call, answer, NULL, 0, NULL, 0, NULL, 0, NULL, 0);
}

/* A CPU write to a register or to WRAM; the LCD is on if lcd_on is not 0. At FF46 its start edge is 0: cgb_start_object_dma
 * takes another. */
static inline uint8_t cgb_write(uint8_t state[CGB_STATE_BYTES], uint8_t answer[CGB_ANSWER_BYTES], uint16_t address, uint8_t value,
                                uint8_t lcd_on, uint8_t *wram, size_t wram_bytes)
{
    return cgb_with_wram(state, answer, CGB_KIND_WRITE, address, value, lcd_on, wram, wram_bytes);
}

/* A CPU write of the page to FF46: object DMA starts, or starts over, with page * 256 as its first address. The start edge is the
 * master edge at which it starts: a bus call from inside looks at it. A page above DFh gets 21, and what runs goes on. */
static inline uint8_t cgb_start_object_dma(uint8_t state[CGB_STATE_BYTES], uint8_t answer[CGB_ANSWER_BYTES], uint8_t page,
                                           uint64_t start_edge, uint8_t *wram, size_t wram_bytes)
{
    uint8_t call[CGB_CALL_BYTES];
    cgb_record(call, CGB_KIND_WRITE, 0xFF46, page, 0, start_edge);
    return cgb_perform(state, call, answer, NULL, 0, wram, wram_bytes, NULL, 0, NULL, 0);
}

/* A CPU read; the byte is value 0. WRAM is left as it is. A read of FF46 gets 4. */
static inline uint8_t cgb_read(uint8_t state[CGB_STATE_BYTES], uint8_t answer[CGB_ANSWER_BYTES], uint16_t address, uint8_t *wram,
                               size_t wram_bytes)
{
    return cgb_with_wram(state, answer, CGB_KIND_READ, address, 0, 0, wram, wram_bytes);
}

/* A falling edge of the dot clock, at either speed, in mode 0 to 3 (0 is HBlank). */
static inline uint8_t cgb_fall(uint8_t state[CGB_STATE_BYTES], uint8_t answer[CGB_ANSWER_BYTES], uint8_t mode, uint8_t flags,
                               uint64_t edge)
{
    return cgb_alone(state, answer, CGB_KIND_FALL, 0, mode, flags, edge);
}

/* The bus call: moves what is left of the last fall's quota, or uses up a set-up cell, if held or suspended. */
static inline uint8_t cgb_bus_call(uint8_t state[CGB_STATE_BYTES], uint8_t answer[CGB_ANSWER_BYTES], uint8_t flags,
                                   uint64_t oam_edge, const struct cgb_memory *memory)
{
    return cgb_with_memory(state, answer, CGB_KIND_BUS_CALL, 0, flags, oam_edge, memory);
}

/* The bus call with the start edge of the last accepted write to FF46, 0 if there was none; flags are CGB_HOLD, CGB_SUSPENDED. */
static inline uint8_t cgb_bus_call_from_inside(uint8_t state[CGB_STATE_BYTES], uint8_t answer[CGB_ANSWER_BYTES], uint8_t flags,
                                               const struct cgb_memory *memory)
{
    return cgb_with_memory(state, answer, CGB_KIND_BUS_CALL_FROM_INSIDE, 0, flags, 0, memory);
}

/* Arbitration with OAM DMA; value 0 is CGB_ARBITRATION_CLEAR, _CONTENDED or _STALL. */
static inline uint8_t cgb_arbitration(uint8_t state[CGB_STATE_BYTES], uint8_t answer[CGB_ANSWER_BYTES], uint8_t flags)
{
    return cgb_alone(state, answer, CGB_KIND_ARBITRATION, 0, 0, flags, 0);
}

/* Arbitration with the object DMA of the state, which transfers exactly while it runs; flags are CGB_HOLD, CGB_SUSPENDED. */
static inline uint8_t cgb_arbitration_from_inside(uint8_t state[CGB_STATE_BYTES], uint8_t answer[CGB_ANSWER_BYTES], uint8_t flags)
{
    return cgb_alone(state, answer, CGB_KIND_ARBITRATION_FROM_INSIDE, 0, 0, flags, 0);
}

/* Object DMA's part of an M-cycle, given what arbitration answered in it: CGB_ARBITRATION_CLEAR moves a byte to OAM, _CONTENDED
 * passes it over but counts it, _STALL leaves it for the next M-cycle; at rest nothing happens; any other number gets 6. The values
 * are CGB_CYCLE_OUTCOME and _SOURCE, the byte is cgb_cycle_byte(answer). */
static inline uint8_t cgb_object_dma_m_cycle(uint8_t state[CGB_STATE_BYTES], uint8_t answer[CGB_ANSWER_BYTES],
                                             uint8_t arbitration, const struct cgb_memory *memory)
{
    return cgb_with_memory(state, answer, CGB_KIND_OBJECT_DMA_M_CYCLE, arbitration, 0, 0, memory);
}

/* Whether a CPU read of the address meets the byte that the engine is writing there, and that byte's source. */
static inline uint8_t cgb_write_conflict(uint8_t state[CGB_STATE_BYTES], uint8_t answer[CGB_ANSWER_BYTES], uint16_t address)
{
    return cgb_alone(state, answer, CGB_KIND_WRITE_CONFLICT, address, 0, 0, 0);
}

/* An attempt to switch the speed, by FF4D; value 0 is CGB_SWITCH_NONE, _DISCARDED or _CUT. */
static inline uint8_t cgb_speed_switch(uint8_t state[CGB_STATE_BYTES], uint8_t answer[CGB_ANSWER_BYTES], uint8_t phase,
                                       uint8_t flags, uint64_t edge)
{
    return cgb_alone(state, answer, CGB_KIND_SPEED_SWITCH, 0, phase, flags, edge);
}

/* Takes the elapsed master edges from the blackout; value 0 says whether none are left. */
static inline uint8_t cgb_blackout_drain(uint8_t state[CGB_STATE_BYTES], uint8_t answer[CGB_ANSWER_BYTES], uint32_t elapsed)
{
    return cgb_alone(state, answer, CGB_KIND_BLACKOUT_DRAIN, 0, 0, 0, elapsed);
}

/* Value 0 says whether the wake's latency is over; flags are CGB_BOUNDARY or 0. */
static inline uint8_t cgb_wake_intake(uint8_t state[CGB_STATE_BYTES], uint8_t answer[CGB_ANSWER_BYTES], uint8_t flags)
{
    return cgb_alone(state, answer, CGB_KIND_WAKE_INTAKE, 0, 0, flags, 0);
}

/* The calls without inputs, the queries among them; behind -> the values of the answer. */

/* calls.txt: begin calls; written by tools/calls */
/* next pair -> 1, source, destination, cause: 0 going on, 1 counted out, 2 carried; or 0 for none */
static inline uint8_t cgb_next_pair(uint8_t state[CGB_STATE_BYTES], uint8_t answer[CGB_ANSWER_BYTES])
{
    return cgb_alone(state, answer, CGB_KIND_NEXT_PAIR, 0, 0, 0, 0);
}
/* LCD off -> none */
static inline uint8_t cgb_lcd_off(uint8_t state[CGB_STATE_BYTES], uint8_t answer[CGB_ANSWER_BYTES])
{
    return cgb_alone(state, answer, CGB_KIND_LCD_OFF, 0, 0, 0, 0);
}
/* escape drain -> 1, source, destination, cause: 0 going on, 1 counted out, 2 carried; or 0 for none */
static inline uint8_t cgb_escape_drain(uint8_t state[CGB_STATE_BYTES], uint8_t answer[CGB_ANSWER_BYTES])
{
    return cgb_alone(state, answer, CGB_KIND_ESCAPE_DRAIN, 0, 0, 0, 0);
}
/* instruction retired -> none */
static inline uint8_t cgb_instruction_retired(uint8_t state[CGB_STATE_BYTES], uint8_t answer[CGB_ANSWER_BYTES])
{
    return cgb_alone(state, answer, CGB_KIND_INSTRUCTION_RETIRED, 0, 0, 0, 0);
}
/* tally -> source, destination register, left, escape owed. The engine's registers as they run, what is left, and
 * whether a cut owes a byte. */
static inline uint8_t cgb_tally(uint8_t state[CGB_STATE_BYTES], uint8_t answer[CGB_ANSWER_BYTES])
{
    return cgb_alone(state, answer, CGB_KIND_TALLY, 0, 0, 0, 0);
}
/* status -> 0 Idle; 1 General, left; 2 HBlank, left, source, where the next byte lands. The transfer's mode, with
 * what belongs to it. */
static inline uint8_t cgb_status(uint8_t state[CGB_STATE_BYTES], uint8_t answer[CGB_ANSWER_BYTES])
{
    return cgb_alone(state, answer, CGB_KIND_STATUS, 0, 0, 0, 0);
}
/* claim -> committed, standing. The claim of the last fall that committed a block; both flags are false before the
 * first. */
static inline uint8_t cgb_claim(uint8_t state[CGB_STATE_BYTES], uint8_t answer[CGB_ANSWER_BYTES])
{
    return cgb_alone(state, answer, CGB_KIND_CLAIM, 0, 0, 0, 0);
}
/* park waits for fetch -> a flag. Whether the park mark stands: a commit sets it where the CPU runs, and ran at the
 * fall before, and the pend is no arm strobe's, else clears it; an instruction that retires and the last pair of a
 * block clear it. */
static inline uint8_t cgb_park_waits_for_fetch(uint8_t state[CGB_STATE_BYTES], uint8_t answer[CGB_ANSWER_BYTES])
{
    return cgb_alone(state, answer, CGB_KIND_PARK_WAITS_FOR_FETCH, 0, 0, 0, 0);
}
/* request standing -> a flag. Whether a pend stands, or bytes are left in a latched block and in the transfer. */
static inline uint8_t cgb_request_standing(uint8_t state[CGB_STATE_BYTES], uint8_t answer[CGB_ANSWER_BYTES])
{
    return cgb_alone(state, answer, CGB_KIND_REQUEST_STANDING, 0, 0, 0, 0);
}
/* holds CPU -> a flag. Whether a General transfer has bytes left. */
static inline uint8_t cgb_holds_cpu(uint8_t state[CGB_STATE_BYTES], uint8_t answer[CGB_ANSWER_BYTES])
{
    return cgb_alone(state, answer, CGB_KIND_HOLDS_CPU, 0, 0, 0, 0);
}
/* seizes bus -> a flag. Whether the engine seizes the bus: no block waits to become ready, and a set-up cell stands
 * or bytes are left in a latched block and in the transfer. */
static inline uint8_t cgb_seizes_bus(uint8_t state[CGB_STATE_BYTES], uint8_t answer[CGB_ANSWER_BYTES])
{
    return cgb_alone(state, answer, CGB_KIND_SEIZES_BUS, 0, 0, 0, 0);
}
/* switch in progress -> a flag. Whether the blackout of a speed switch runs. */
static inline uint8_t cgb_switch_in_progress(uint8_t state[CGB_STATE_BYTES], uint8_t answer[CGB_ANSWER_BYTES])
{
    return cgb_alone(state, answer, CGB_KIND_SWITCH_IN_PROGRESS, 0, 0, 0, 0);
}
/* divider active -> a flag. Whether the divider runs in a blackout: more than 5 edges of it are left at double speed,
 * more than 2 at single. */
static inline uint8_t cgb_divider_active(uint8_t state[CGB_STATE_BYTES], uint8_t answer[CGB_ANSWER_BYTES])
{
    return cgb_alone(state, answer, CGB_KIND_DIVIDER_ACTIVE, 0, 0, 0, 0);
}
/* double speed -> a flag. The speed bit, FF4D bit 7: a speed switch changes it at once, before its blackout. */
static inline uint8_t cgb_double_speed(uint8_t state[CGB_STATE_BYTES], uint8_t answer[CGB_ANSWER_BYTES])
{
    return cgb_alone(state, answer, CGB_KIND_DOUBLE_SPEED, 0, 0, 0, 0);
}
/* CPU steps per dot -> a byte. The CPU's steps in a dot: 2 at double speed, 1 at single. */
static inline uint8_t cgb_cpu_steps_per_dot(uint8_t state[CGB_STATE_BYTES], uint8_t answer[CGB_ANSWER_BYTES])
{
    return cgb_alone(state, answer, CGB_KIND_CPU_STEPS_PER_DOT, 0, 0, 0, 0);
}
/* WRAM bank -> a byte. The bank of WRAM at D000h: FF70's, and 1 where that is 0. */
static inline uint8_t cgb_wram_bank(uint8_t state[CGB_STATE_BYTES], uint8_t answer[CGB_ANSWER_BYTES])
{
    return cgb_alone(state, answer, CGB_KIND_WRAM_BANK, 0, 0, 0, 0);
}
/* SVBK register -> a byte. FF70 bits 0 to 2 as written. */
static inline uint8_t cgb_svbk_register(uint8_t state[CGB_STATE_BYTES], uint8_t answer[CGB_ANSWER_BYTES])
{
    return cgb_alone(state, answer, CGB_KIND_SVBK_REGISTER, 0, 0, 0, 0);
}
/* object DMA -> runs, bytes counted, page. Object DMA: whether it runs, the bytes counted since the write to FF46,
 * the page written. */
static inline uint8_t cgb_object_dma(uint8_t state[CGB_STATE_BYTES], uint8_t answer[CGB_ANSWER_BYTES])
{
    return cgb_alone(state, answer, CGB_KIND_OBJECT_DMA, 0, 0, 0, 0);
}
/* calls.txt: end */

#ifdef __cplusplus
}
#endif

#endif
