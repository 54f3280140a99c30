//! The queries: each leaves the state as it is, and 7 alone refuses it. Written by tools/calls from calls.txt.
use crate::record::Record;
use crate::{Cgb, Claim, ObjectDma, Refusal, Status, Tally, kind};

impl Cgb {
    /// The engine's registers as they run, what is left, and whether a cut owes a byte.
    pub fn tally(&self) -> Result<Tally, Refusal> {
        Ok(self.ask(Record::of(kind::TALLY))?.tally())
    }

    /// The transfer's mode, with what belongs to it.
    pub fn vram_dma_status(&self) -> Result<Status, Refusal> {
        Ok(self.ask(Record::of(kind::STATUS))?.status())
    }

    /// The claim of the last fall that committed a block; both flags are false before the first.
    pub fn vram_dma_claim(&self) -> Result<Claim, Refusal> {
        Ok(self.ask(Record::of(kind::CLAIM))?.claim())
    }

    /// Whether the park mark stands: a commit sets it where the CPU runs, and ran at the fall before, and the pend is
    /// no arm strobe's, else clears it; an instruction that retires and the last pair of a block clear it.
    pub fn vram_dma_park_waits_for_fetch(&self) -> Result<bool, Refusal> {
        self.ask_flag(kind::PARK_WAITS_FOR_FETCH)
    }

    /// Whether a pend stands, or bytes are left in a latched block and in the transfer.
    pub fn vram_dma_request_standing(&self) -> Result<bool, Refusal> {
        self.ask_flag(kind::REQUEST_STANDING)
    }

    /// Whether a General transfer has bytes left.
    pub fn vram_dma_holds_cpu(&self) -> Result<bool, Refusal> {
        self.ask_flag(kind::HOLDS_CPU)
    }

    /// Whether the engine seizes the bus: no block waits to become ready, and a set-up cell stands or bytes are left
    /// in a latched block and in the transfer.
    pub fn vram_dma_seizes_bus(&self) -> Result<bool, Refusal> {
        self.ask_flag(kind::SEIZES_BUS)
    }

    /// Whether the blackout of a speed switch runs.
    pub fn speed_switch_in_progress(&self) -> Result<bool, Refusal> {
        self.ask_flag(kind::SWITCH_IN_PROGRESS)
    }

    /// Whether the divider runs in a blackout: more than 5 edges of it are left at double speed, more than 2 at
    /// single.
    pub fn speed_switch_divider_active(&self) -> Result<bool, Refusal> {
        self.ask_flag(kind::DIVIDER_ACTIVE)
    }

    /// The speed bit, FF4D bit 7: a speed switch changes it at once, before its blackout.
    pub fn double_speed(&self) -> Result<bool, Refusal> {
        self.ask_flag(kind::DOUBLE_SPEED)
    }

    /// The CPU's steps in a dot: 2 at double speed, 1 at single.
    pub fn cpu_steps_per_dot(&self) -> Result<u8, Refusal> {
        self.ask_byte(kind::CPU_STEPS_PER_DOT)
    }

    /// The bank of WRAM at D000h: FF70's, and 1 where that is 0.
    pub fn wram_bank(&self) -> Result<u8, Refusal> {
        self.ask_byte(kind::WRAM_BANK)
    }

    /// FF70 bits 0 to 2 as written.
    pub fn svbk_register(&self) -> Result<u8, Refusal> {
        self.ask_byte(kind::SVBK_REGISTER)
    }

    /// Object DMA: whether it runs, the bytes counted since the write to FF46, the page written.
    pub fn object_dma(&self) -> Result<ObjectDma, Refusal> {
        Ok(self.ask(Record::of(kind::OBJECT_DMA))?.object_dma())
    }
}
