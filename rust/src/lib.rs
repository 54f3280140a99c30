//! The proved model of the Game Boy Color's VRAM DMA engine (FF51 to FF55), object DMA (FF46) and speed switch (FF4D),
//! behind safe calls.
//!
//! [`Cgb`] is the state. Each method is one call of the library: it gives the call's answer, or the [`Refusal`], and
//! then neither the state nor lent memory has changed. Every call is refused with 7 where the bytes are no state's or
//! the state fails one of eight tests ([`Refusal::NoState`]); what else refuses it is said at the method, in the order of
//! the tests. A query takes `&self`, and 7 alone refuses it. No call panics, and none keeps what it was lent.
//! Who calls what when (a fall for each dot; arbitration, object DMA and the bus call at the end of each M-cycle) is
//! docs/DRIVING.md of the repository. [`estimate()`] takes no state, and says how long a General transfer takes.
//!
//! A General transfer of 16 bytes from the cartridge into VRAM, in document 01's rounds of a fall and a held bus call
//! (K1):
//!
//! ```
//! use cgb_vram_dma::{CARTRIDGE_BYTES, Cgb, Fall, Memory, OAM_BYTES, Refusal, Status, VRAM_BYTES, WRAM_BYTES};
//!
//! # fn main() -> Result<(), Refusal> {
//! let cartridge: Vec<u8> = (0..CARTRIDGE_BYTES).map(|i| (i * 3 + 1) as u8).collect();
//! let (mut wram, mut vram, mut oam) = (vec![0; WRAM_BYTES], vec![0; VRAM_BYTES], vec![0; OAM_BYTES]);
//!
//! let mut cgb = Cgb::power_on(false);
//! cgb.write(&mut wram, 0xFF55, 0x00, true)?;
//! assert_eq!(cgb.vram_dma_status()?, Status::General { left: 16 });
//! while cgb.vram_dma_status()? != Status::Idle {
//!     cgb.vram_dma_fall_edge(Fall { mode: 3, ..Fall::default() })?;
//!     let memory = Memory { cartridge: &cartridge, wram: &mut wram, vram: &mut vram, oam: &mut oam };
//!     cgb.vram_dma_commit_bytes(memory, true, false, 0)?;
//! }
//! assert_eq!(vram[..16], cartridge[..16]);
//! assert_eq!(cgb.read(&mut wram, 0xFF55)?, 0xFF);
//!
//! // The fields of the state, and a refusal: the mode of a fall is 0 to 3.
//! assert_eq!(cgb.state().vram_dma.cursor.source, 16);
//! let refused = cgb.vram_dma_fall_edge(Fall { mode: 4, ..Fall::default() });
//! assert_eq!(refused, Err(Refusal::ModeAbove3));
//! assert_eq!(Refusal::ModeAbove3.to_string(), "refused with 1: the mode is above 3");
//! # Ok(())
//! # }
//! ```
//!
//! A method has the original's name, where the original has the method. docs/LIBRARY.md has a table of all calls,
//! docs/STATE-LAYOUT.md the state's bytes; include/cgb_vram_dma.h has the records that [`entry`] takes and gives.
#![no_std]
#![deny(missing_docs)]

mod answers;
pub mod entry;
mod estimate;
mod inputs;
pub mod kind;
mod print;
mod query;
mod record;
mod refusal;
pub mod state;

pub use answers::{Arbitration, Cause, Claim, CutOutcome, Cycle, Moved, ObjectDma, Pair, Status, Tally};
pub use entry::{CARTRIDGE_BYTES, Memory, OAM_BYTES, VRAM_BYTES, WRAM_BYTES};
pub use estimate::{Estimate, estimate};
pub use inputs::{Fall, SwitchInputs};
pub use print::Changes;
pub use refusal::Refusal;
pub use state::State;

use entry::{ANSWER_BYTES, STATE_BYTES};
use record::{Answer, Record};

fn perform(state: &mut [u8; STATE_BYTES], call: Record, memory: Memory) -> Result<Answer, Refusal> {
    let mut answer = [0; ANSWER_BYTES];
    match Refusal::of(entry::perform(state, call.bytes(), &mut answer, memory)) {
        None => Ok(Answer::new(answer)),
        Some(refusal) => Err(refusal),
    }
}

/// The state: 248 bytes (docs/STATE-LAYOUT.md). A copy of the bytes is a copy of the state, and two states are equal
/// exactly if their bytes are. `{:?}` prints its fields by name.
#[derive(Clone, PartialEq, Eq, Hash)]
pub struct Cgb([u8; Cgb::BYTES]);

impl Cgb {
    /// How many bytes a state has.
    pub const BYTES: usize = STATE_BYTES;

    /// The state at power-on. `compat`: a DMG cartridge in compatibility mode; writes to FF4D, FF51 to FF55, FF70 and
    /// FF74 then do nothing.
    #[must_use]
    pub fn power_on(compat: bool) -> Self {
        Self(entry::power_on(compat))
    }

    /// Bytes that no state has are taken too: every call on them gets refusal 7.
    #[must_use]
    pub const fn from_bytes(bytes: [u8; Cgb::BYTES]) -> Self {
        Self(bytes)
    }

    /// Its bytes.
    #[must_use]
    pub const fn bytes(&self) -> &[u8; Cgb::BYTES] {
        &self.0
    }

    /// Its fields. Bytes that no state has are read too: a flag is whether its byte is 1, a mode other than 0 and 1 is
    /// HBlank, and a latency whose tag is not 0 is some.
    #[must_use]
    pub fn state(&self) -> State {
        State::read(&self.0)
    }

    /// What has changed since another state, to be printed: a line for each field, as `vram_dma.arb.pend: false -> true`;
    /// nothing where the two are equal.
    ///
    /// ```
    /// # use cgb_vram_dma::{Cgb, Refusal, WRAM_BYTES};
    /// # fn main() -> Result<(), Refusal> {
    /// let mut cgb = Cgb::power_on(false);
    /// let before = cgb.clone();
    /// cgb.write(&mut [0; WRAM_BYTES], 0xFF51, 0x40, true)?;
    /// assert_eq!(cgb.changes_since(&before).to_string(), "vram_dma.cursor.source: 0 -> 16384\n");
    /// # Ok(())
    /// # }
    /// ```
    #[must_use]
    pub const fn changes_since<'a>(&'a self, before: &'a Self) -> Changes<'a> {
        Changes { before, after: self }
    }

    /// A call that takes no memory.
    fn alone(&mut self, record: Record) -> Result<Answer, Refusal> {
        perform(&mut self.0, record, Memory { cartridge: &[], wram: &mut [], vram: &mut [], oam: &mut [] })
    }

    /// A question leaves the state as it is.
    fn ask(&self, record: Record) -> Result<Answer, Refusal> {
        self.clone().alone(record)
    }

    fn ask_flag(&self, kind: u8) -> Result<bool, Refusal> {
        Ok(self.ask(Record::of(kind))?.flag(0))
    }

    fn ask_byte(&self, kind: u8) -> Result<u8, Refusal> {
        Ok(self.ask(Record::of(kind))?.byte(0))
    }

    /// Writes a byte: to WRAM (C000h to FDFFh, E000h up repeating C000h up), to FEA0h to FEFFh, or to a register (FF46,
    /// FF4C, FF4D, FF4F, FF51 to FF55, FF70, FF72 to FF75). `lcd_on` is looked at where FF55 arms HBlank: with the LCD
    /// off that latches a block at once. At FF46 object DMA starts with start edge 0;
    /// [`start_object_dma`](Self::start_object_dma) takes another.
    ///
    /// Refusals: 2 for WRAM's length, whatever the address; 4 for any other address; 21 for a page above DFh at FF46.
    pub fn write(&mut self, wram: &mut [u8], address: u16, value: u8, lcd_on: bool) -> Result<(), Refusal> {
        let record = Record::of(kind::WRITE).address(address).small(value).bits(&[lcd_on]);
        perform(&mut self.0, record, Memory { cartridge: &[], wram, vram: &mut [], oam: &mut [] }).map(|_| ())
    }

    /// Writes the page to FF46, under compat too: object DMA starts, or starts over, and will move 160 bytes from
    /// `page` × 256 up to FE00h to FE9Fh, one in each [`object_dma_m_cycle`](Self::object_dma_m_cycle). `start_edge` is
    /// the master edge at which it starts; the state keeps it for
    /// [`vram_dma_commit_bytes_inside`](Self::vram_dma_commit_bytes_inside) until the next accepted write. No byte of
    /// WRAM is looked at: its length is, as in every write.
    ///
    /// Refusals: 2 for WRAM's length; 21 for a page above DFh, and then what runs goes on.
    pub fn start_object_dma(&mut self, wram: &mut [u8], page: u8, start_edge: u64) -> Result<(), Refusal> {
        let record = Record::of(kind::WRITE).address(0xFF46).small(page).edge(start_edge);
        perform(&mut self.0, record, Memory { cartridge: &[], wram, vram: &mut [], oam: &mut [] }).map(|_| ())
    }

    /// Reads a byte, at the addresses that a write has, but not at FF46. The slice is lent for writing because the
    /// library takes it so; a read leaves it as it is.
    ///
    /// Refusals: 2 for WRAM's length, whatever the address; 4 for any other address.
    pub fn read(&self, wram: &mut [u8], address: u16) -> Result<u8, Refusal> {
        let record = Record::of(kind::READ).address(address);
        let memory = Memory { cartridge: &[], wram, vram: &mut [], oam: &mut [] };
        Ok(perform(&mut self.0.clone(), record, memory)?.byte(0))
    }

    /// A fall: one falling edge of the *dot* clock, at either speed (the CPU's clock has two to a dot at double speed).
    /// It judges whether a block is asked for or committed, and fills up the quota: 0 where the engine does not move,
    /// else 2, and 1 at double speed. The claim is this fall's own.
    ///
    /// Refusals: 1 for a mode above 3; 14 where 255 blocks are granted and a commit would make it one more.
    pub fn vram_dma_fall_edge(&mut self, fall: Fall) -> Result<Claim, Refusal> {
        let bits = [fall.halted, fall.interrupt_latched, fall.stopped, fall.oam_dma];
        Ok(self.alone(Record::of(kind::FALL).small(fall.mode).bits(&bits).edge(fall.edge))?.claim())
    }

    /// The next pair, if quota is left and the engine moves: a General transfer, or a latched block that is ready, with
    /// bytes left in the transfer. Else none, and nothing changes. The byte itself is the caller's to move; the bus
    /// call moves it in lent memory. A set-up cell is neither looked at nor taken: only a held bus call takes it. The
    /// pair's [`Cause`] says whether it was the run's last.
    pub fn next_byte(&mut self) -> Result<Option<Pair>, Refusal> {
        Ok(self.alone(Record::of(kind::NEXT_PAIR))?.handed())
    }

    /// The speed switch that KEY1 (FF4D bit 0) has armed: the speed changes, KEY1's bit is cleared and a blackout
    /// begins: 131,077 master edges to double speed, 262,146 to single, the relock debit changing either by 2; or 5 and
    /// 2 alone, if an interrupt is ready. The answer is what the switch made of a latched block.
    ///
    /// Refusals: 3 for a dot phase that is none of 0 to 3; 5 under hold; 11 in a blackout; 12 where KEY1 is not armed;
    /// 13 to single speed with a latched block that is ready.
    pub fn attempt_speed_switch(&mut self, inputs: SwitchInputs) -> Result<CutOutcome, Refusal> {
        let bits = [inputs.hold, inputs.interrupt_ready];
        let record = Record::of(kind::SPEED_SWITCH).dot_phase(inputs.dot_phase).bits(&bits).edge(inputs.edge);
        Ok(self.alone(record)?.cut())
    }

    /// The LCD is turned off. A transfer that is armed, with bytes left, no block latched and
    /// [`taken`](state::HblankBlock::taken) clear, latches a block of 16 bytes, ready after two falls. The idle claim
    /// and the relock debit are dropped in any case.
    pub fn vram_dma_lcd_disabled(&mut self) -> Result<(), Refusal> {
        self.alone(Record::of(kind::LCD_OFF)).map(|_| ())
    }

    /// The byte that a cut owes: one pair, if an escape is owed and the engine moves, whatever quota stood; no quota is
    /// left after it. Else none, and nothing changes. The byte itself is the caller's to move. A set-up cell is neither
    /// looked at nor taken. Its cause is going on, unless it carries: nothing is taken from what is left.
    pub fn vram_dma_drain_escape(&mut self) -> Result<Option<Pair>, Refusal> {
        Ok(self.alone(Record::of(kind::ESCAPE_DRAIN))?.handed())
    }

    /// Takes the elapsed master edges from the blackout, not below 0, and says whether none is left. If so, a wake in
    /// flight is forgotten.
    pub fn drain_speed_switch_blackout(&mut self, elapsed: u32) -> Result<bool, Refusal> {
        Ok(self.alone(Record::of(kind::BLACKOUT_DRAIN).edge(elapsed.into()))?.flag(0))
    }

    /// The bus call. With neither `hold` (the CPU is held) nor `suspended` (the bus is suspended) it does nothing. Else
    /// a set-up cell, if one stands, uses up the call; or pairs are moved until none comes, at most what is left of the
    /// last fall's quota: two bytes where that fall was at single speed, one at double; each pair has its own [`Cause`].
    /// Where the last arbitration answered [`Arbitration::Contended`], one of the bytes goes to OAM as well, at FE00h +
    /// the low byte of its source, up to FE9Fh; `oam_edge`, the master edge at which OAM DMA started, decides which, and
    /// counts for nothing else.
    ///
    /// Refusal: 2 for any of the four lengths, held or not.
    pub fn vram_dma_commit_bytes(
        &mut self,
        memory: Memory,
        hold: bool,
        suspended: bool,
        oam_edge: u64,
    ) -> Result<Moved, Refusal> {
        Ok(perform(&mut self.0, Record::of(kind::BUS_CALL).bits(&[hold, suspended]).edge(oam_edge), memory)?.moved())
    }

    /// Who has the bus that OAM DMA and VRAM DMA share. `oam_transfers`: OAM DMA moves a byte now; the state keeps it
    /// for the next arbitration. Clear, unless the CPU is held or the bus suspended and the engine is about to move a
    /// byte (it moves, has quota, and no set-up cell stands). Then it is contended at single speed if OAM DMA moves a
    /// byte now or did at the last arbitration, and a stall at double speed if it does now and an escape is owed.
    pub fn vram_dma_arbitrate_oam(
        &mut self,
        hold: bool,
        suspended: bool,
        oam_transfers: bool,
    ) -> Result<Arbitration, Refusal> {
        Ok(self.alone(Record::of(kind::ARBITRATION).bits(&[hold, suspended, oam_transfers]))?.arbitration())
    }

    /// [`vram_dma_arbitrate_oam`](Self::vram_dma_arbitrate_oam) with the object DMA of the state: it transfers exactly
    /// while it runs. Because the last arbitration counts too, contention reaches one M-cycle past the one that counts
    /// the 160th byte.
    pub fn vram_dma_arbitrate_inside(&mut self, hold: bool, suspended: bool) -> Result<Arbitration, Refusal> {
        Ok(self.alone(Record::of(kind::ARBITRATION_FROM_INSIDE).bits(&[hold, suspended]))?.arbitration())
    }

    /// Object DMA's part of an M-cycle, between arbitration, whose answer it is given and believes, and the bus call.
    /// Where it runs, [`Arbitration::Clear`] moves the byte at page × 256 + counted to OAM and counts it,
    /// [`Arbitration::Contended`] counts it and leaves OAM to the bus call, and [`Arbitration::Stall`] does nothing; the
    /// 160th byte ends the run. At rest nothing happens, whatever the answer. A byte is read as VRAM DMA reads it, but
    /// that 8000h to 9FFFh is VRAM, in the bank that FF4F has at that call.
    ///
    /// Refusal: 2 for any of the four lengths, at rest too.
    pub fn object_dma_m_cycle(&mut self, arbitration: Arbitration, memory: Memory) -> Result<Cycle, Refusal> {
        Ok(perform(&mut self.0, Record::of(kind::OBJECT_DMA_M_CYCLE).arbitration(arbitration), memory)?.cycle())
    }

    /// [`vram_dma_commit_bytes`](Self::vram_dma_commit_bytes) with the start edge of the last accepted write to FF46, 0
    /// where there was none.
    ///
    /// Refusal: 2 for any of the four lengths, held or not.
    pub fn vram_dma_commit_bytes_inside(
        &mut self,
        memory: Memory,
        hold: bool,
        suspended: bool,
    ) -> Result<Moved, Refusal> {
        Ok(perform(&mut self.0, Record::of(kind::BUS_CALL_FROM_INSIDE).bits(&[hold, suspended]), memory)?.moved())
    }

    /// The write conflict: the source of the byte that the engine is writing at this address, if a CPU *read* of the
    /// address meets it. That is at double speed only, once the engine has seized the bus for two falls or more, with
    /// bytes left in the block and in the transfer, and at the address where the next byte lands.
    pub fn vram_dma_conflict_source(&self, address: u16) -> Result<Option<u16>, Refusal> {
        Ok(self.ask(Record::of(kind::WRITE_CONFLICT).address(address))?.conflict())
    }

    /// A wake in a blackout: the first call starts a latency of one M-cycle, a later one at an M-cycle's boundary ends
    /// it. The answer is whether it is over.
    pub fn speed_switch_wake_ready(&mut self, boundary: bool) -> Result<bool, Refusal> {
        Ok(self.alone(Record::of(kind::WAKE_INTAKE).bits(&[boundary]))?.flag(0))
    }

    /// An instruction has retired: the park mark is cleared.
    pub fn vram_dma_instruction_retired(&mut self) -> Result<(), Refusal> {
        self.alone(Record::of(kind::INSTRUCTION_RETIRED)).map(|_| ())
    }
}
