//! The library's functions, as include/cgb_vram_dma.h has them, two on bytes and two on numbers: the one extern block,
//! and the only unsafe code. The typed calls stand on it, and so do the run beside the original (differential/) and the
//! measurements (bench/).
use core::fmt;

/// The length of a state (docs/STATE-LAYOUT.md).
pub const STATE_BYTES: usize = 248;
/// The length of a call's record: byte 0 is its kind ([`kind`](crate::kind)), behind it are the inputs.
pub const CALL_BYTES: usize = 16;
/// The length of an answer's record: byte 0 is the refusal or 0, bytes 2 to 9 are four values of two bytes, bytes 10 to
/// 19 the pairs of a bus call, bytes 20 and 21 their causes; byte 18 is also the byte that an object DMA M-cycle moved.
pub const ANSWER_BYTES: usize = 24;

/// The length of the cartridge's slice: addresses below 8000h, then A000h to BFFFh from index 8000h on.
pub const CARTRIDGE_BYTES: usize = 40_960;
/// The length of WRAM: eight banks of 4,096 bytes.
pub const WRAM_BYTES: usize = 32_768;
/// The length of VRAM: two banks of 8,192 bytes.
pub const VRAM_BYTES: usize = 16_384;
/// The length of OAM: addresses FE00h to FE9Fh.
pub const OAM_BYTES: usize = 160;

/// What a call lends: a slice of another length than the call wants gets refusal 2. Nothing is kept after the call.
pub struct Memory<'a> {
    /// [`CARTRIDGE_BYTES`]: what is read below 8000h, then A000h to BFFFh from index 8000h on.
    pub cartridge: &'a [u8],
    /// [`WRAM_BYTES`], in banks of 4,096: bank 0 is at C000h, the bank of FF70 (1 where that is 0) at D000h.
    pub wram: &'a mut [u8],
    /// [`VRAM_BYTES`], in banks of 8,192: the bank of FF4F is at 8000h.
    pub vram: &'a mut [u8],
    /// [`OAM_BYTES`], from FE00h on.
    pub oam: &'a mut [u8],
}

/// The lengths alone: the bytes would fill pages.
impl fmt::Debug for Memory<'_> {
    fn fmt(&self, f: &mut fmt::Formatter) -> fmt::Result {
        let lengths = [self.cartridge.len(), self.wram.len(), self.vram.len(), self.oam.len()];
        write!(f, "Memory of {lengths:?} bytes")
    }
}

unsafe extern "C" {
    fn cgb_power_on(state: *mut u8, compat: u8);
    fn cgb_perform(
        state: *mut u8,
        call: *const u8,
        answer: *mut u8,
        cartridge: *const u8,
        cartridge_bytes: usize,
        wram: *mut u8,
        wram_bytes: usize,
        vram: *mut u8,
        vram_bytes: usize,
        oam: *mut u8,
        oam_bytes: usize,
    ) -> u8;
    // Safe to call with any numbers: no pointer is among them.
    safe fn cgb_estimate_bytes(value: u8, destination: u16) -> u16;
    safe fn cgb_estimate(value: u8, destination: u16, double_speed: u8) -> u16;
}

/// The state at power-on; `compat` for a DMG cartridge in compatibility mode.
#[must_use]
pub fn power_on(compat: bool) -> [u8; STATE_BYTES] {
    let mut state = [0; STATE_BYTES];
    // SAFETY: 248 bytes are lent, as the header asks.
    unsafe { cgb_power_on(state.as_mut_ptr(), compat.into()) };
    state
}

/// Performs the call that the record says, and gives its refusal, or 0: 7 where the bytes are no state's, 6 where the
/// record is of no call, else the call's own. A refused call leaves the state and lent memory as they were. Every call
/// writes the answer whole, and its byte 0 is the result.
#[inline]
#[must_use = "a refused call did nothing"]
pub fn perform(
    state: &mut [u8; STATE_BYTES],
    call: &[u8; CALL_BYTES],
    answer: &mut [u8; ANSWER_BYTES],
    memory: Memory,
) -> u8 {
    // SAFETY: each pointer comes from a borrow of the length that goes with it; the borrows that are written are
    // exclusive, so no two overlap.
    unsafe {
        cgb_perform(
            state.as_mut_ptr(),
            call.as_ptr(),
            answer.as_mut_ptr(),
            memory.cartridge.as_ptr(),
            memory.cartridge.len(),
            memory.wram.as_mut_ptr(),
            memory.wram.len(),
            memory.vram.as_mut_ptr(),
            memory.vram.len(),
            memory.oam.as_mut_ptr(),
            memory.oam.len(),
        )
    }
}

/// The bytes of an [`estimate`](crate::estimate()), from the value for FF55 and the destination register.
#[must_use]
pub fn estimate_bytes(value: u8, destination: u16) -> u16 {
    cgb_estimate_bytes(value, destination)
}

/// The M-cycles of an [`estimate`](crate::estimate()) at this speed: the bus calls that hold the bus, each directly behind a fall.
#[must_use]
pub fn estimate_m_cycles(value: u8, destination: u16, double_speed: bool) -> u16 {
    cgb_estimate(value, destination, double_speed.into())
}
