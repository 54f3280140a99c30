//! What a fall and a speed switch are given.

/// What a fall sees of the screen and of the CPU. The default is a running CPU in mode 0, without OAM DMA, at edge 0.
#[derive(Clone, Copy, Debug, Default, PartialEq, Eq, Hash)]
pub struct Fall {
    /// The screen's mode, 0 to 3; 0 is HBlank. A greater one gets refusal 1.
    pub mode: u8,
    /// The CPU is halted.
    pub halted: bool,
    /// An interrupt request is latched. Without one a halted CPU gates the engine.
    pub interrupt_latched: bool,
    /// The CPU is stopped, which gates the engine.
    pub stopped: bool,
    /// OAM DMA owns a bus: no claim of this fall is standing then.
    pub oam_dma: bool,
    /// The master edge of this fall: a block that commits keeps it.
    pub edge: u64,
}

/// What a speed switch is given. The default is no dot phase, no hold and no interrupt, at edge 0.
#[derive(Clone, Copy, Debug, Default, PartialEq, Eq, Hash)]
pub struct SwitchInputs {
    /// The dot's place in the M-cycle, 0 to 3, or none. `Some` of 4 or more gets refusal 3.
    pub dot_phase: Option<u8>,
    /// The CPU is held: refusal 5.
    pub hold: bool,
    /// An interrupt is ready to be served: the blackout is then the relock alone, 5 edges to double speed and 2 to
    /// single.
    pub interrupt_ready: bool,
    /// The master edge of the switch, which the state keeps.
    pub edge: u64,
}
