//! How long a General transfer takes. It takes no state, so it is no call.
use crate::entry;

/// What a General transfer takes.
#[derive(Clone, Copy, Debug, PartialEq, Eq, Hash)]
#[non_exhaustive]
pub struct Estimate {
    /// The bytes that it moves, 1 to 2,048: each is a [`Pair`](crate::Pair).
    pub bytes: u16,
    /// The M-cycles that it takes: the bus calls that hold the bus, each directly behind a fall. An M-cycle is 4 dots at
    /// single speed and 2 at double.
    pub m_cycles: u16,
}

/// Estimates a General transfer, from the value for FF55, whose bit 7 is not looked at, and the destination register as
/// it stands in front of that write ([`Tally::destination_register`](crate::Tally::destination_register)), not the
/// address in VRAM.
///
/// The bytes are 16 a block, (`value` mod 128) + 1 blocks, but no more than 65,536 − `destination`: the byte that goes
/// past FFFFh is the last ([`Cause::Carried`](crate::Cause::Carried)). The M-cycles are half of that, rounded up, at
/// single speed and all of it at double.
///
/// From the write that starts the transfer until nothing is left there are exactly so many accepted bus calls that hold
/// the bus, each directly behind an accepted fall, if no escape is owed
/// ([`Tally::escape_owed`](crate::Tally::escape_owed)), no set-up cell stands at the first
/// ([`setup_cells`](crate::state::HblankBlock::setup_cells)) and nothing comes between two of them but accepted falls, one
/// or more. A set-up cell takes one bus call more; an escape is one byte more, where the register has room for it.
///
/// ```
/// # use cgb_vram_dma::{Cgb, Refusal, WRAM_BYTES, estimate};
/// # fn main() -> Result<(), Refusal> {
/// // Two blocks to 8000h, at single speed and at double.
/// assert_eq!(estimate(0x01, 0x8000, false).m_cycles, 16);
/// assert_eq!(estimate(0x01, 0x8000, true).m_cycles, 32);
///
/// // The same to FFF0h, as the registers tell it: 16 bytes have room, the other 16 are cut off.
/// # let mut cgb = Cgb::power_on(false);
/// # let mut wram = [0; WRAM_BYTES];
/// cgb.write(&mut wram, 0xFF53, 0xFF, true)?;
/// cgb.write(&mut wram, 0xFF54, 0xF0, true)?;
/// let carried = estimate(0x01, cgb.tally()?.destination_register, cgb.double_speed()?);
/// assert_eq!((carried.bytes, carried.m_cycles), (16, 8));
/// # Ok(())
/// # }
/// ```
#[must_use]
pub fn estimate(value: u8, destination: u16, double_speed: bool) -> Estimate {
    Estimate {
        bytes: entry::estimate_bytes(value, destination),
        m_cycles: entry::estimate_m_cycles(value, destination, double_speed),
    }
}
