//! Object DMA: the second reading. The original has none, so there is nothing to build: this is document 02's A1, read a second
//! time, sentence by sentence, and not from the port's definitions. It is kept beside the original's `Cgb`; what it reads goes
//! through the original's map and the stand-ins, and what it stores through theirs.
use missingno_gb::Chassis;
use missingno_gb::ppu::memory::{Vram, VramAddress};

use crate::Cgb;

/// The register that starts it. The original's map has no place there.
pub const REGISTER: u16 = 0xFF46;

/// "moves 160 bytes from p × 256 up to FE00h–FE9Fh"; "7 gains more than 160 moved bytes"
pub const BYTES: u8 = 160;
const TARGET: u16 = 0xFE00;

/// "7 gains .. a page above DFh"; "21, page above DFh"
pub const LAST_PAGE: u8 = 0xDF;

/// All zero at power-on, "where object DMA rests".
#[derive(Clone, Copy, Default, Debug, PartialEq)]
pub struct ObjectDma {
    pub running: bool,
    pub page: u8,
    /// Bytes counted, those passed over among them.
    pub counted: u8,
    pub start_edge: u64,
}

/// "Each M-cycle call is given arbitration's answer".
#[derive(Clone, Copy, Debug, PartialEq)]
pub enum Arbitration {
    Clear,
    Contended,
    Stall,
}

impl Arbitration {
    /// By its number in a record; others are no call's.
    pub fn numbered(number: u8) -> Option<Self> {
        [Self::Clear, Self::Contended, Self::Stall].get(number as usize).copied()
    }
}

/// What an M-cycle call did.
#[derive(Clone, Copy, Debug, PartialEq)]
pub enum Cycle {
    Nothing,
    Moved { source: u16, byte: u8 },
    PassedOver { source: u16 },
}

impl ObjectDma {
    /// "Object DMA runs, to arbitration too, from the write until 160 are counted". A state that says running with 160
    /// counted is no run's; it is at rest.
    pub fn runs(&self) -> bool {
        self.running && self.counted < BYTES
    }

    /// "a write of page p to FF46"; "the write carries the start edge"; "a new write starts over". False is "21, page above DFh,
    /// .. nothing changed".
    pub fn write(&mut self, page: u8, start_edge: u64) -> bool {
        if page > LAST_PAGE {
            return false;
        }
        *self = Self { running: true, page, counted: 0, start_edge };
        true
    }

    /// "one byte each M-cycle call"; "contended, its own byte is passed over but counted; stalled, it waits"; "at rest this call
    /// changes nothing".
    pub fn m_cycle(&mut self, said: Arbitration, cgb: &Cgb, chassis: &mut Chassis<Cgb>) -> Cycle {
        if !self.runs() || said == Arbitration::Stall {
            return Cycle::Nothing;
        }
        let source = self.page as u16 * 256 + self.counted as u16;
        let target = TARGET + self.counted as u16;
        self.counted += 1;
        self.running = self.counted < BYTES;
        if said == Arbitration::Contended {
            return Cycle::PassedOver { source };
        }
        let byte = read(cgb, chassis, source);
        chassis.dma_commit(source, target, byte);
        Cycle::Moved { source, byte }
    }
}

/// "through the same read rules and stand-ins, except that 8000h–9FFFh reads VRAM in the bank of FF4F": the bank as it is now,
/// by the original's own selection; work RAM by the original's map; the rest is storage.
fn read(cgb: &Cgb, chassis: &Chassis<Cgb>, source: u16) -> u8 {
    let vram = &chassis.vram_bus.vram;
    match source {
        0x8000..=0x9FFF => vram.cpu_read(VramAddress(source - 0x8000)),
        _ => cgb.map_read_byte(source, &chassis.ppu, vram).unwrap_or_else(|| chassis.read_dma_storage(source)),
    }
}
