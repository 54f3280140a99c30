//! The port: the loops of crates/bench and, by the wrapper's entry, the exported one of crates/c_api.
use cgb_vram_dma::entry::{self, ANSWER_BYTES, CALL_BYTES, STATE_BYTES};
use cgb_vram_dma::{CARTRIDGE_BYTES, OAM_BYTES, VRAM_BYTES, WRAM_BYTES};

unsafe extern "C" {
    fn bench_falls(
        state: *mut u8,
        steps: *const u8,
        count: usize,
        cartridge: *const u8,
        cartridge_length: usize,
        wram: *const u8,
        wram_length: usize,
        vram: *mut u8,
        vram_length: usize,
        oam: *mut u8,
        oam_length: usize,
    );
}

/// Lent memory of the right lengths.
#[derive(Clone)]
pub struct Memory {
    pub cartridge: Vec<u8>,
    pub wram: Vec<u8>,
    pub vram: Vec<u8>,
    pub oam: Vec<u8>,
}

impl Memory {
    pub fn new() -> Self {
        let filled = |n: usize| (0..n).map(|i| (i * 7 + i / 256) as u8).collect();
        Self {
            cartridge: filled(CARTRIDGE_BYTES),
            wram: filled(WRAM_BYTES),
            vram: filled(VRAM_BYTES),
            oam: filled(OAM_BYTES),
        }
    }
}

pub fn falls(state: &mut [u8; STATE_BYTES], steps: &[u8], m: &mut Memory) {
    unsafe {
        bench_falls(
            state.as_mut_ptr(),
            steps.as_ptr(),
            steps.len(),
            m.cartridge.as_ptr(),
            m.cartridge.len(),
            m.wram.as_ptr(),
            m.wram.len(),
            m.vram.as_mut_ptr(),
            m.vram.len(),
            m.oam.as_mut_ptr(),
            m.oam.len(),
        )
    }
}

pub fn perform(state: &mut [u8; STATE_BYTES], call: &[u8; CALL_BYTES], m: &mut Memory) -> u8 {
    let lent = entry::Memory { cartridge: &m.cartridge, wram: &mut m.wram, vram: &mut m.vram, oam: &mut m.oam };
    entry::perform(state, call, &mut [0; ANSWER_BYTES], lent)
}
