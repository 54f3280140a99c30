//! What the calls answer. A later version may add fields, so the structs are `#[non_exhaustive]`.
use core::fmt;

/// A byte's way: where it is read, where it lands, and how the run goes on behind it.
#[derive(Clone, Copy, Debug, PartialEq, Eq, Hash)]
#[non_exhaustive]
pub struct Pair {
    /// The address that it is read from.
    pub source: u16,
    /// The *address* in VRAM that it lands at, 8000h to 9FFFh: 8000h + the destination register mod 2000h.
    pub destination: u16,
    /// Whether it is the run's last, and why.
    pub cause: Cause,
}

/// How the run goes on behind a pair. `{}` prints the words, `cause as u8` is the number.
///
/// A pair that pays an escape takes nothing from what is left: it is going on, unless it carries. So an escape drain
/// never answers [`CountedOut`](Self::CountedOut). Of the two pairs of a bus call the first is going on. The state does
/// not keep a cause.
///
/// The last pair of a transfer of 16 bytes (FF55 = 00):
///
/// ```
/// # use cgb_vram_dma::{Cause, Cgb, Fall, Refusal, WRAM_BYTES};
/// # fn main() -> Result<(), Refusal> {
/// # let mut cgb = Cgb::power_on(false);
/// # cgb.write(&mut [0; WRAM_BYTES], 0xFF55, 0x00, true)?;
/// let mut last = None;
/// for _ in 0..8 {
///     cgb.vram_dma_fall_edge(Fall { mode: 3, ..Fall::default() })?;
///     while let Some(pair) = cgb.next_byte()? {
///         if pair.cause.ends() {
///             last = Some(pair);
///         }
///     }
/// }
/// assert_eq!(last.map(|pair| (pair.source, pair.cause)), Some((0x000F, Cause::CountedOut)));
/// # Ok(())
/// # }
/// ```
#[derive(Clone, Copy, Debug, PartialEq, Eq, Hash)]
pub enum Cause {
    /// 0, going on: bytes are left in the transfer.
    GoingOn = 0,
    /// 1, counted out: the pair took the last byte, left fell to 0.
    CountedOut = 1,
    /// 2, carried: the destination register went past FFFFh. That ends the run, and what was left is cut off; it is so
    /// also where left would have reached 0 anyway.
    Carried = 2,
}

impl Cause {
    /// Whether the pair is the run's last: no byte is left behind it.
    #[must_use]
    pub const fn ends(self) -> bool {
        !matches!(self, Self::GoingOn)
    }
}

impl fmt::Display for Cause {
    fn fmt(&self, f: &mut fmt::Formatter) -> fmt::Result {
        f.pad(match self {
            Self::GoingOn => "going on",
            Self::CountedOut => "counted out",
            Self::Carried => "carried",
        })
    }
}

/// A fall's claim: whether it committed a block. Without a commit both are false.
#[derive(Clone, Copy, Debug, PartialEq, Eq, Hash)]
#[non_exhaustive]
pub struct Claim {
    /// A block was committed.
    pub committed: bool,
    /// That claim is standing: the pend's age was 4 or more, and OAM DMA owned no bus.
    pub standing: bool,
}

/// What a speed switch made of a latched block.
#[derive(Clone, Copy, Debug, PartialEq, Eq, Hash)]
pub enum CutOutcome {
    /// There was none, or the switch was to single speed, which leaves a block as it is.
    None,
    /// It was not ready: it is gone.
    Discarded,
    /// It was ready: the mode is Idle, the block has one byte left, and that byte, the escape, is owed outside the
    /// transfer's length.
    Cut,
}

/// Who has the bus that OAM DMA and VRAM DMA share.
#[derive(Clone, Copy, Debug, PartialEq, Eq, Hash)]
pub enum Arbitration {
    /// The two do not meet.
    Clear,
    /// At single speed the engine's next byte meets OAM DMA: bus calls that move a byte deposit one in OAM, until the
    /// next arbitration.
    Contended,
    /// At double speed an escape byte meets OAM DMA, whose own byte has to wait.
    Stall,
}

/// The engine's registers as they run.
#[derive(Clone, Copy, Debug, PartialEq, Eq, Hash)]
#[non_exhaustive]
pub struct Tally {
    /// The source register: the address that the next byte is read from.
    pub source: u16,
    /// The destination *register* with all its 16 bits, not the address in VRAM: that is 8000h + this mod 2000h.
    pub destination_register: u16,
    /// Bytes left in the transfer.
    pub left: u16,
    /// A cut owes one byte outside the transfer's length.
    pub escape_owed: bool,
}

/// The transfer's mode, and what belongs to it. A latched block may stand in any of them, in Idle too, as after a
/// cancel or a cut.
#[derive(Clone, Copy, Debug, PartialEq, Eq, Hash)]
pub enum Status {
    /// Neither does a General transfer run nor is HBlank armed.
    Idle,
    /// A General transfer.
    General {
        /// Bytes left in the transfer.
        left: u16,
    },
    /// An HBlank transfer is armed.
    HBlank {
        /// Bytes left in the transfer.
        left: u16,
        /// The address that the next byte is read from.
        source: u16,
        /// The *address* in VRAM that the next byte lands at, 8000h to 9FFFh.
        destination: u16,
    },
}

/// What object DMA did in an M-cycle.
#[derive(Clone, Copy, Debug, PartialEq, Eq, Hash)]
pub enum Cycle {
    /// Nothing: it rests, or arbitration stalled it and its byte waits for the next M-cycle.
    Nothing,
    /// A byte was moved to OAM, at FE00h + the low byte of its source.
    Moved {
        /// The address that it was read from.
        source: u16,
        /// The byte.
        byte: u8,
    },
    /// A byte was counted and not moved: VRAM DMA had the bus. That M-cycle's bus call deposits one of its own in OAM,
    /// at FE00h + the low byte of *its* source, up to FE9Fh.
    PassedOver {
        /// The address that it would have been read from.
        source: u16,
    },
}

/// Object DMA as it stands.
#[derive(Clone, Copy, Debug, PartialEq, Eq, Hash)]
#[non_exhaustive]
pub struct ObjectDma {
    /// It runs: from an accepted write to FF46 until 160 bytes are counted.
    pub runs: bool,
    /// Bytes counted since that write, those passed over too: 0 to 160.
    pub counted: u8,
    /// The page that was written: the next byte is read at page × 256 + `counted`.
    pub page: u8,
}

/// What a bus call did.
#[derive(Clone, Copy, Debug, PartialEq, Eq, Hash)]
#[non_exhaustive]
pub struct Moved {
    /// The pairs that were moved, in order, each with its byte: none, the first alone, or both. Each has its own cause.
    pub pairs: [Option<(Pair, u8)>; 2],
    /// A set-up cell used up the call, which moved nothing.
    pub set_up_cell: bool,
}
