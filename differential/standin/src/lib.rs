//! What the original files need of missingno_gb, made from document 01's stand-ins: halt, hold,
//! suspension, OAM DMA's state and edge, dot phase and interrupts are inputs; `read_dma_storage` and
//! `dma_commit` are the two stand-ins for memory. What the switch does to DIV, audio and serial is dropped.

pub mod clock;
pub mod ppu;

use ppu::memory::{Vram, VramAddress};

pub fn shared_oam_dma_write_conflict_byte(src_byte: u8, _cpu_value: u8, _dma_source: u16) -> u8 {
    src_byte
}

pub mod dmg_sram {
    /// WRAM's power-on pattern is dropped: lent memory is the caller's.
    pub fn fill(_bank: &mut [u8]) {}
}

/// Document 01: "`VramDmaClaim` is two flags, committed and standing".
#[derive(Default, Clone, Copy, Debug, PartialEq)]
pub struct VramDmaClaim {
    pub committed: bool,
    pub standing: bool,
}

pub trait ConsoleShadow {
    fn blackout_anchor(&self) -> u64;
    fn set_blackout_anchor(&mut self, edge: u64);
    fn dma_cpu_hold(&self) -> bool;
    fn set_dma_cpu_hold(&mut self, held: bool);
    fn bus_suspended(&self) -> bool;
    fn set_bus_suspended(&mut self, suspended: bool);
    fn vram_dma_claim(&self) -> VramDmaClaim;
    fn set_vram_dma_claim(&mut self, claim: VramDmaClaim);
    fn clear_vram_dma_claim(&mut self);
    fn set_dma_conflict_oam_zero(&mut self, offset: Option<u8>);
    fn take_dma_conflict_oam_zero(&mut self) -> Option<u8>;
}

/// The seams of the original's `Model` that its files call on themselves.
pub trait Model: Sized {
    type Vram: Vram;
    type Ppu;
    type ConsoleState: ConsoleShadow;

    fn console_state(&self) -> &Self::ConsoleState;
    fn console_state_mut(&mut self) -> &mut Self::ConsoleState;
    fn has_serial_fast_clock(&self) -> bool;
}

#[derive(Default)]
pub struct Cpu {
    pub halted: bool,
    pub stopped: bool,
    pub irq: bool,
    pub ime: bool,
}

impl Cpu {
    pub fn is_halted(&self) -> bool {
        self.halted
    }
    pub fn is_stopped(&self) -> bool {
        self.stopped
    }
    pub fn irq_latched(&self) -> bool {
        self.irq
    }
    pub fn interrupts_enabled(&self) -> bool {
        self.ime
    }
}

#[derive(Default)]
pub struct Dma {
    pub owns_bus: bool,
    pub transferring: bool,
    pub edge: u64,
    pub stalled: bool,
}

impl Dma {
    pub fn is_active_on_bus(&self) -> Option<()> {
        self.owns_bus.then_some(())
    }
    pub fn peek_transfer(&self) -> Option<()> {
        self.transferring.then_some(())
    }
    pub fn stall_advance(&mut self) {
        self.stalled = true;
    }
    pub fn start_edge(&self) -> u64 {
        self.edge
    }
}

#[derive(Clone, Copy)]
pub struct Interrupt;

#[derive(Default)]
pub struct Interrupts {
    pub pending: bool,
}

impl Interrupts {
    pub fn request(&mut self, _interrupt: Interrupt) {}
    pub fn triggered(&self) -> Option<Interrupt> {
        self.pending.then_some(Interrupt)
    }
}

#[derive(Default)]
pub struct Timers;

impl Timers {
    pub fn internal_counter(&self) -> u16 {
        0
    }
    pub fn reset_for_speed_switch(&mut self) {}
}

#[derive(Default)]
pub struct Audio;

impl Audio {
    pub fn on_div_write(&mut self, _old: u16, _single: bool) {}
    pub fn on_speed_switch(&mut self, _double: bool) {}
}

#[derive(Default)]
pub struct Serial;

impl Serial {
    pub fn on_div_write(&mut self, _old: u16, _fast: bool) -> Option<Interrupt> {
        None
    }
}

#[derive(Default)]
pub struct VramBus<V> {
    pub vram: V,
}

pub struct Chassis<M: Model> {
    pub cpu: Cpu,
    pub clock: clock::Clock,
    pub dma: Dma,
    pub ppu: ppu::Ppu<M::Ppu>,
    pub interrupts: Interrupts,
    pub timers: Timers,
    pub audio: Audio,
    pub serial: Serial,
    pub vram_bus: VramBus<M::Vram>,
    /// Document 01: the cartridge slice.
    pub cartridge: Vec<u8>,
    pub oam: [u8; 160],
    /// What `dma_commit` was given, in order: source, address, byte.
    pub commits: Vec<(u16, u16, u8)>,
}

impl<M: Model> Chassis<M>
where
    M::Ppu: Default,
    M::Vram: Default,
{
    pub fn new() -> Self {
        Self {
            cpu: Cpu::default(),
            clock: clock::Clock::default(),
            dma: Dma::default(),
            ppu: ppu::Ppu::default(),
            interrupts: Interrupts::default(),
            timers: Timers,
            audio: Audio,
            serial: Serial,
            vram_bus: VramBus::default(),
            cartridge: vec![0; 40_960],
            oam: [0; 160],
            commits: Vec::new(),
        }
    }
}

impl<M: Model> Chassis<M> {
    /// "cartridge slice, index = address below 8000h, address − 2000h from A000h to BFFFh".
    pub fn read_dma_storage(&self, address: u16) -> u8 {
        match address {
            0x0000..=0x7FFF => self.cartridge[address as usize],
            0xA000..=0xBFFF => self.cartridge[(address - 0x2000) as usize],
            _ => unreachable!("a source of another map reached storage: {address:04X}"),
        }
    }

    /// "VRAM index = FF4F bank × 8192 + address − 8000h; OAM index = address − FE00h up to FE9Fh; above that
    /// nothing is stored".
    pub fn dma_commit(&mut self, source: u16, address: u16, byte: u8) {
        self.commits.push((source, address, byte));
        match address {
            0x8000..=0x9FFF => self.vram_bus.vram.cpu_write(VramAddress(address - 0x8000), byte),
            0xFE00..=0xFE9F => self.oam[(address - 0xFE00) as usize] = byte,
            _ => {}
        }
    }
}
