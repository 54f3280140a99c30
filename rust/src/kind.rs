//! The kinds of call: byte 0 of a record. Of each, the bytes of the record that hold its inputs, and the values of its
//! answer. Written by tools/calls from calls.txt.

/// Write (`write`). Inputs by byte: 2-3 address, 4 value, 5 LCD on if not 0, 8-15 the master edge at which object DMA
/// starts (read at FF46 alone). Values: none.
pub const WRITE: u8 = 1;

/// Fall (`vram_dma_fall_edge`). Inputs by byte: 4 mode 0-3 (0 is HBlank); 5 bits 0-3 halted, IRQ latched, stopped,
/// OAM DMA owns a bus; 8-15 master edge. Values: committed, standing.
pub const FALL: u8 = 2;

/// Next pair (`next_byte`). No inputs. Values: 1, source, destination, cause: 0 going on, 1 counted out, 2 carried;
/// or 0 for none.
pub const NEXT_PAIR: u8 = 3;

/// Speed switch (`attempt_speed_switch`). Inputs by byte: 4 dot phase 0-3, or 4 for none; 5 bits 0-1 hold, interrupt
/// ready; 8-15 master edge. Values: 0 none, 1 discarded, 2 cut.
pub const SPEED_SWITCH: u8 = 4;

/// LCD off (`vram_dma_lcd_disabled`). No inputs. Values: none.
pub const LCD_OFF: u8 = 5;

/// Escape drain (`vram_dma_drain_escape`). No inputs. Values: 1, source, destination, cause: 0 going on, 1 counted
/// out, 2 carried; or 0 for none.
pub const ESCAPE_DRAIN: u8 = 6;

/// Blackout drain (`drain_speed_switch_blackout`). Inputs by byte: 8-11 elapsed edges. Values: a flag.
pub const BLACKOUT_DRAIN: u8 = 7;

/// Read (`read`). Inputs by byte: 2-3 address. Values: a byte.
pub const READ: u8 = 8;

/// Bus call (`vram_dma_commit_bytes`). Inputs by byte: 5 bits 0-1 hold, suspended; 8-15 OAM DMA's start edge. Values:
/// how many pairs, set-up cell used; the pairs' causes in bytes 20 and 21.
pub const BUS_CALL: u8 = 9;

/// Arbitration (`vram_dma_arbitrate_oam`). Inputs by byte: 5 bits 0-2 hold, suspended, OAM DMA transfers. Values: 0
/// clear, 1 contended, 2 stall.
pub const ARBITRATION: u8 = 10;

/// Write conflict (`vram_dma_conflict_source`). Inputs by byte: 2-3 address: does a CPU read of it meet the byte that
/// the engine is writing there? Values: 1, the source of the byte that the read meets; or 0 for none.
pub const WRITE_CONFLICT: u8 = 11;

/// Wake intake (`speed_switch_wake_ready`). Inputs by byte: 5 bit 0 M-cycle boundary. Values: a flag.
pub const WAKE_INTAKE: u8 = 12;

/// Instruction retired (`vram_dma_instruction_retired`). No inputs. Values: none.
pub const INSTRUCTION_RETIRED: u8 = 13;

/// Tally (`tally`). No inputs. Values: source, destination register, left, escape owed.
pub const TALLY: u8 = 14;

/// Status (`vram_dma_status`). No inputs. Values: 0 Idle; 1 General, left; 2 HBlank, left, source, where the next
/// byte lands.
pub const STATUS: u8 = 15;

/// Claim (`vram_dma_claim`). No inputs. Values: committed, standing.
pub const CLAIM: u8 = 16;

/// Park waits for fetch (`vram_dma_park_waits_for_fetch`). No inputs. Values: a flag.
pub const PARK_WAITS_FOR_FETCH: u8 = 17;

/// Request standing (`vram_dma_request_standing`). No inputs. Values: a flag.
pub const REQUEST_STANDING: u8 = 18;

/// Holds CPU (`vram_dma_holds_cpu`). No inputs. Values: a flag.
pub const HOLDS_CPU: u8 = 19;

/// Seizes bus (`vram_dma_seizes_bus`). No inputs. Values: a flag.
pub const SEIZES_BUS: u8 = 20;

/// Switch in progress (`speed_switch_in_progress`). No inputs. Values: a flag.
pub const SWITCH_IN_PROGRESS: u8 = 21;

/// Divider active (`speed_switch_divider_active`). No inputs. Values: a flag.
pub const DIVIDER_ACTIVE: u8 = 22;

/// Double speed (`double_speed`). No inputs. Values: a flag.
pub const DOUBLE_SPEED: u8 = 23;

/// CPU steps per dot (`cpu_steps_per_dot`). No inputs. Values: a byte.
pub const CPU_STEPS_PER_DOT: u8 = 24;

/// WRAM bank (`wram_bank`). No inputs. Values: a byte.
pub const WRAM_BANK: u8 = 25;

/// SVBK register (`svbk_register`). No inputs. Values: a byte.
pub const SVBK_REGISTER: u8 = 26;

/// Object DMA M-cycle (`object_dma_m_cycle`). Inputs by byte: 4 arbitration's answer: 0 clear, 1 contended, 2 stall;
/// above 2 the record is no call's. Values: 0 nothing; 1 moved, its source; 2 passed over, its source; the byte that
/// moved as a bus call's first.
pub const OBJECT_DMA_M_CYCLE: u8 = 27;

/// Arbitration from inside (`vram_dma_arbitrate_inside`). Inputs by byte: 5 bits 0-1 hold, suspended. Values: 0
/// clear, 1 contended, 2 stall.
pub const ARBITRATION_FROM_INSIDE: u8 = 28;

/// Bus call from inside (`vram_dma_commit_bytes_inside`). Inputs by byte: 5 bits 0-1 hold, suspended. Values: how
/// many pairs, set-up cell used; the pairs' causes in bytes 20 and 21.
pub const BUS_CALL_FROM_INSIDE: u8 = 29;

/// Object DMA (`object_dma`). No inputs. Values: runs, bytes counted, page.
pub const OBJECT_DMA: u8 = 30;

/// The last kind: those above it are of no call.
pub const LAST: u8 = 30;
