//! The original in the loops that bench/ measures: many calls on one state, which is read from its bytes before them and
//! written back after them. The port's are in crates/bench. The estimate's transfers (estimate.rs) are run on it too.
use missingno_gb::ppu::memory::Vram;
use missingno_gb::{Chassis, ConsoleShadow};

use crate::Cgb;
use crate::calls::mode;
use crate::layout::{self, SIZE};
use crate::object_dma::ObjectDma;

/// The original with its surroundings.
pub struct Original {
    pub(crate) cgb: Cgb,
    pub(crate) chassis: Chassis<Cgb>,
    /// Its bytes pass through: no loop here has a call of object DMA.
    object_dma: ObjectDma,
}

impl Original {
    pub fn new() -> Self {
        Self { cgb: Cgb::default(), chassis: Chassis::new(), object_dma: ObjectDma::default() }
    }

    pub fn power_on(&self) -> [u8; SIZE] {
        layout::encode(&Cgb::default(), &crate::CgbVram::default(), &ObjectDma::default())
    }

    /// From power-on FF51 to FF55 are written: 2048 bytes from C000h to 8000h, a block in each HBlank.
    pub fn armed(&mut self) -> [u8; SIZE] {
        self.started(0xFF)
    }

    /// The same as a General transfer.
    pub fn general(&mut self) -> [u8; SIZE] {
        self.started(0x7F)
    }

    fn started(&mut self, hdma5: u8) -> [u8; SIZE] {
        let mut cgb = Cgb::default();
        for (address, value) in [(0xFF51, 0xC0), (0xFF52, 0), (0xFF53, 0x80), (0xFF54, 0), (0xFF55, hdma5)] {
            assert!(cgb.map_write_byte(address, value, &mut self.chassis.ppu, &mut self.chassis.vram_bus.vram));
        }
        layout::encode(&cgb, &self.chassis.vram_bus.vram, &ObjectDma::default())
    }

    /// The slices of cartridge, WRAM, VRAM and OAM, of their lengths.
    pub fn set_memory(&mut self, cartridge: &[u8], wram: &[u8], vram: &[u8], oam: &[u8]) {
        self.chassis.cartridge.copy_from_slice(cartridge);
        self.cgb.wram.copy_from_slice(wram);
        self.chassis.vram_bus.vram.restore_image(vram);
        self.chassis.oam.copy_from_slice(oam);
    }

    /// VRAM's two banks and OAM.
    pub fn memory(&self) -> [&[u8]; 3] {
        let bank = |k: u8| &self.chassis.vram_bus.vram.bank(k).0[..];
        [bank(0), bank(1), &self.chassis.oam]
    }

    #[inline(always)]
    pub(crate) fn load(&mut self, bytes: &[u8; SIZE]) {
        layout::decode(bytes, &mut self.cgb, &mut self.chassis.vram_bus.vram, &mut self.object_dma);
    }

    /// Bits 0 and 1 are the mode, 2 to 5 halted, IRQ latched, stopped, and that OAM DMA owns a bus.
    #[inline(always)]
    pub(crate) fn fall(&mut self, step: u8, edge: u64) {
        let chassis = &mut self.chassis;
        chassis.cpu.halted = step >> 2 & 1 == 1;
        chassis.cpu.irq = step >> 3 & 1 == 1;
        chassis.cpu.stopped = step >> 4 & 1 == 1;
        chassis.dma.owns_bus = step >> 5 & 1 == 1;
        chassis.clock.edge = edge;
        self.cgb.vram_dma_fall_edge(chassis, mode(step % 4));
    }

    #[inline(always)]
    pub(crate) fn bus(&mut self, hold: bool, suspended: bool) {
        self.cgb.console_state.set_dma_cpu_hold(hold);
        self.cgb.console_state.set_bus_suspended(suspended);
        self.chassis.dma.edge = 0;
        self.chassis.commits.clear();
        self.cgb.vram_dma_commit_bytes(&mut self.chassis);
    }

    /// A fall for each byte, its edge the byte's place; where bit 6 is set a bus call that holds the bus follows.
    pub fn falls(&mut self, bytes: &mut [u8; SIZE], steps: &[u8]) {
        self.load(bytes);
        for (i, step) in steps.iter().enumerate() {
            self.fall(*step, i as u64);
            if step >> 6 & 1 == 1 {
                self.bus(true, false);
            }
        }
        *bytes = layout::encode(&self.cgb, &self.chassis.vram_bus.vram, &self.object_dma);
    }

    /// The same steps with bit 6 set wherever an M-cycle ends, at every fourth fall, while the engine has seized the bus.
    pub fn with_bus_calls(&mut self, start: &[u8; SIZE], modes: &[u8]) -> Vec<u8> {
        self.load(start);
        let mut steps = modes.to_vec();
        for (i, step) in steps.iter_mut().enumerate() {
            self.fall(*step, i as u64);
            if i % 4 == 3 && self.cgb.vram_dma.seizes_bus() {
                *step |= 64;
                self.bus(true, false);
            }
        }
        steps
    }
}
