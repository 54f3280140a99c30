//! The calls of document 01, performed by the original. A refusal that the original has no word for is
//! decided here by document 01's list; where the original says no (5, 11, 12, 13) or overflows (14), the
//! number is given only because it did, and it is an error of the comparison if it does so elsewhere.
//! What document 02's A1 adds, object DMA, the original does not have: the second reading (object_dma.rs) performs that. Nor does it
//! say how the run goes on after a pair (A3): it hands out the pair, and the second reading (cause.rs) gives the cause.
use std::panic::{AssertUnwindSafe, catch_unwind};

use missingno_gb::ppu::memory::{Vram, VramAddress};
use missingno_gb::ppu::rendering::Mode;
use missingno_gb::{Chassis, ConsoleShadow, VramDmaClaim};

use crate::answer::Answer;
use crate::cause::{self, Pair, Registers};
use crate::kind;
use crate::layout::{self, SIZE};
use crate::memory::{self, Change, filled};
use crate::object_dma::{self, Arbitration, Cycle, ObjectDma};
use crate::{Cgb, VramDmaStatus};

/// A call: the replay's record of 16 bytes (byte 1 is the seed of memory's contents), and the lengths of the
/// slices of cartridge, WRAM, VRAM and OAM.
#[derive(Clone, Copy, Debug)]
pub struct Call {
    pub record: [u8; 16],
    pub lengths: [u32; 4],
}

impl Call {
    pub fn new(kind: u8) -> Self {
        let mut record = [0; 16];
        record[0] = kind;
        let lengths = [memory::CARTRIDGE, memory::WRAM, memory::VRAM, memory::OAM].map(|n| n as u32);
        Self { record, lengths }
    }
    pub fn address(&self) -> u16 {
        u16::from_le_bytes([self.record[2], self.record[3]])
    }
    pub fn edge(&self) -> u64 {
        u64::from_le_bytes(self.record[8..16].try_into().unwrap())
    }
    pub fn bit(&self, k: u8) -> bool {
        self.record[5] >> k & 1 == 1
    }
    fn whole(&self, which: usize) -> bool {
        let right = [memory::CARTRIDGE, memory::WRAM, memory::VRAM, memory::OAM];
        self.lengths[which] as usize == right[which]
    }
    pub fn writes_ff46(&self) -> bool {
        self.record[0] == kind::WRITE && self.address() == object_dma::REGISTER
    }
    /// Other records get 6: those of another kind, and an M-cycle of object DMA without an answer of arbitration's.
    fn is_call(&self) -> bool {
        match self.record[0] {
            kind::OBJECT_DMA_M_CYCLE => Arbitration::numbered(self.record[4]).is_some(),
            kind => (1..=kind::LAST).contains(&kind),
        }
    }
    pub fn side(&self) -> Side {
        match self.record[0] {
            _ if self.writes_ff46() => Side::SecondReading,
            kind::OBJECT_DMA_M_CYCLE | kind::OBJECT_DMA => Side::SecondReading,
            kind::ARBITRATION_FROM_INSIDE | kind::BUS_CALL_FROM_INSIDE => Side::Joined,
            _ => Side::Original,
        }
    }
}

/// Whose the answer is; the causes of pairs in it (`Answer::causes`) are always the second reading's.
#[derive(Clone, Copy, Debug, PartialEq)]
pub enum Side {
    /// The original's alone; the second reading's state stays.
    Original,
    /// The second reading's alone; the original's state stays.
    SecondReading,
    /// The original's, with one input from the second reading's state.
    Joined,
}

pub struct Outcome {
    pub answer: Answer,
    pub state: [u8; SIZE],
    pub changes: Vec<Change>,
}

impl Outcome {
    fn declined(number: u8, before: &[u8; SIZE]) -> Self {
        Self { answer: Answer::refused(number), state: *before, changes: Vec::new() }
    }
}

/// Refusal 7, on the bytes: document 01's six tests, then document 02's two.
pub fn unreached(state: &[u8; SIZE]) -> bool {
    let left = u16::from_le_bytes([state[5], state[6]]);
    state[7] > 2
        || state[9] > 16
        || left > 2048
        || state[41] > 7
        || state[80] > 1
        || (left == 0 && state[4] != 0)
        || state[92] > object_dma::LAST_PAGE
        || state[93] > object_dma::BYTES
}

pub fn mode(number: u8) -> Mode {
    match number {
        0 => Mode::HorizontalBlank,
        1 => Mode::VerticalBlank,
        2 => Mode::OamScan,
        _ => Mode::Drawing,
    }
}

/// The number of a switch that the original does not make.
pub fn switch_refusal(cgb: &Cgb, hold: bool) -> u8 {
    if hold {
        5
    } else if cgb.speed_switch_blackout > 0 {
        11
    } else if !cgb.key1_armed {
        12
    } else {
        13
    }
}

pub struct Oracle {
    cgb: Cgb,
    chassis: Chassis<Cgb>,
    object_dma: ObjectDma,
    /// Memory is filled by each call's seed, and what a call changed is listed. Without it memory stays as it is.
    pub refills: bool,
}

impl Oracle {
    pub fn new() -> Self {
        std::panic::set_hook(Box::new(|_| {}));
        Self { cgb: Cgb::default(), chassis: Chassis::new(), object_dma: ObjectDma::default(), refills: true }
    }

    /// The state at power-on.
    pub fn power_on(&self, compat: bool) -> [u8; SIZE] {
        let mut cgb = Cgb::default();
        cgb.dmg_compat = compat;
        layout::encode(&cgb, &crate::CgbVram::default(), &ObjectDma::default())
    }

    fn load(&mut self, state: &[u8; SIZE]) {
        layout::decode(state, &mut self.cgb, &mut self.chassis.vram_bus.vram, &mut self.object_dma);
    }

    fn store(&self) -> [u8; SIZE] {
        layout::encode(&self.cgb, &self.chassis.vram_bus.vram, &self.object_dma)
    }

    /// The whole of memory, as the calls left it: cartridge, WRAM, VRAM's banks 0 and 1, OAM.
    #[cfg(feature = "port")]
    pub fn memory(&self) -> [&[u8]; 5] {
        let bank = |k: u8| &self.chassis.vram_bus.vram.bank(k).0[..];
        [&self.chassis.cartridge, &self.cgb.wram[..], bank(0), bank(1), &self.chassis.oam]
    }

    pub fn set_memory(&mut self, cartridge: &[u8], wram: &[u8], vram: &[u8], oam: &[u8]) {
        self.chassis.cartridge.copy_from_slice(cartridge);
        self.cgb.wram.copy_from_slice(wram);
        self.chassis.vram_bus.vram.restore_image(vram);
        self.chassis.oam.copy_from_slice(oam);
    }

    fn fill_wram(&mut self, seed: u8) {
        if !self.refills {
            return;
        }
        for i in 0..memory::WRAM {
            self.cgb.wram[i] = filled(1, seed, i);
        }
    }

    fn fill_bus(&mut self, seed: u8) {
        if !self.refills {
            return;
        }
        for i in 0..memory::CARTRIDGE {
            self.chassis.cartridge[i] = filled(0, seed, i);
        }
        let image: Vec<u8> = (0..memory::VRAM).map(|i| filled(2, seed, i)).collect();
        self.chassis.vram_bus.vram.restore_image(&image);
        for i in 0..memory::OAM {
            self.chassis.oam[i] = filled(3, seed, i);
        }
    }

    fn changed_wram(&self, seed: u8) -> Vec<Change> {
        if !self.refills {
            return Vec::new();
        }
        let differs = |i: &usize| self.cgb.wram[*i] != filled(1, seed, *i);
        (0..memory::WRAM)
            .filter(differs)
            .map(|i| Change { which: 1, index: i as u16, value: self.cgb.wram[i] })
            .collect()
    }

    fn changed_bus(&self, seed: u8) -> Vec<Change> {
        if !self.refills {
            return Vec::new();
        }
        let vram = &self.chassis.vram_bus.vram;
        let at = |i: usize| vram.bank((i / 0x2000) as u8).read(VramAddress((i % 0x2000) as u16));
        let mut changes = Vec::new();
        for i in 0..memory::VRAM {
            if at(i) != filled(2, seed, i) {
                changes.push(Change { which: 2, index: i as u16, value: at(i) });
            }
        }
        for i in 0..memory::OAM {
            if self.chassis.oam[i] != filled(3, seed, i) {
                changes.push(Change { which: 3, index: i as u16, value: self.chassis.oam[i] });
            }
        }
        changes
    }

    /// Bytes are a state's if both states that they give, the original's and the second reading's, give them again. FF4F's bank
    /// keeps one bit there; that it has no other is a test of refusal 7.
    fn is_state(&mut self, bytes: &[u8; SIZE]) -> bool {
        self.load(bytes);
        let mut again = self.store();
        again[80] = bytes[80];
        again == *bytes
    }

    /// A call as the exported entry takes it: 7 for bytes that are no state's, before 6 for a record of no call.
    pub fn enter(&mut self, call: &Call, before: &[u8; SIZE]) -> Outcome {
        if !self.is_state(before) {
            return Outcome::declined(7, before);
        }
        self.perform(call, before)
    }

    /// The bus call of the original, told object DMA's start edge.
    fn commit_bytes(&mut self, call: &Call, start_edge: u64) -> Answer {
        self.cgb.console_state.set_dma_cpu_hold(call.bit(0));
        self.cgb.console_state.set_bus_suspended(call.bit(1));
        self.chassis.dma.edge = start_edge;
        self.chassis.commits.clear();
        let cells = self.cgb.vram_dma.block.setup_cells.remaining();
        let registers = Registers::of(&self.cgb.vram_dma);
        self.cgb.vram_dma_commit_bytes(&mut self.chassis);
        // Pairs land in VRAM, a deposit in OAM's page.
        let moved = |c: &&(u16, u16, u8)| c.1 < 0xA000;
        let pairs: Vec<_> = self.chassis.commits.iter().filter(moved).collect();
        assert!(pairs.len() <= 2 && self.chassis.commits.len() <= pairs.len() + 1);
        let cell = self.cgb.vram_dma.block.setup_cells.remaining() < cells;
        let mut answer = Answer::values(&[pairs.len() as u16, cell.into()]);
        let causes = cause::of_bus_call(registers, pairs.len(), &self.cgb.vram_dma);
        for (k, (&&(source, destination, byte), cause)) in pairs.iter().zip(causes).enumerate() {
            answer = answer.with_pair(k, Pair { source, destination, cause }, byte);
        }
        answer
    }

    /// Arbitration of the original, told whether object DMA transfers.
    fn arbitrate(&mut self, call: &Call, transferring: bool) -> Answer {
        self.cgb.console_state.set_dma_cpu_hold(call.bit(0));
        self.cgb.console_state.set_bus_suspended(call.bit(1));
        self.chassis.dma.transferring = transferring;
        self.chassis.dma.stalled = false;
        let either = self.cgb.vram_dma_arbitrate_oam_bus(&mut self.chassis);
        let stalled = self.chassis.dma.stalled;
        assert!(either || !stalled);
        Answer::value(if stalled { 2 } else { either as u8 })
    }

    /// The M-cycle of the second reading.
    fn m_cycle(&mut self, call: &Call) -> Answer {
        let said = Arbitration::numbered(call.record[4]).expect("other records are no call's");
        match self.object_dma.m_cycle(said, &self.cgb, &mut self.chassis) {
            Cycle::Nothing => Answer::value(0u8),
            Cycle::Moved { source, byte } => Answer::values(&[1, source]).with_byte(byte),
            Cycle::PassedOver { source } => Answer::values(&[2, source]),
        }
    }

    pub fn perform(&mut self, call: &Call, before: &[u8; SIZE]) -> Outcome {
        let declined = |number: u8| Outcome::declined(number, before);
        if !call.is_call() {
            return declined(6);
        }
        if unreached(before) {
            return declined(7);
        }
        self.load(before);
        let mut answer = Answer::default();
        let mut changes = Vec::new();
        let seed = call.record[1];
        match call.record[0] {
            kind::WRITE if call.writes_ff46() => {
                if !call.whole(1) {
                    return declined(2);
                }
                let (ppu, vram) = (&mut self.chassis.ppu, &mut self.chassis.vram_bus.vram);
                assert!(!self.cgb.map_write_byte(call.address(), call.record[4], ppu, vram), "the original has FF46");
                if !self.object_dma.write(call.record[4], call.edge()) {
                    return declined(21);
                }
            }
            kind::WRITE | kind::READ => {
                if !call.whole(1) {
                    return declined(2);
                }
                if (0xFF68..=0xFF6C).contains(&call.address()) {
                    return declined(4);
                }
                self.fill_wram(seed);
                if call.record[0] == kind::READ {
                    let vram = &self.chassis.vram_bus.vram;
                    match self.cgb.map_read_byte(call.address(), &self.chassis.ppu, vram) {
                        Some(byte) => answer = Answer::value(byte),
                        None => return declined(4),
                    }
                } else {
                    self.chassis.ppu.control.lcd_on = call.record[5] != 0;
                    let vram = &mut self.chassis.vram_bus.vram;
                    if !self.cgb.map_write_byte(call.address(), call.record[4], &mut self.chassis.ppu, vram) {
                        return declined(4);
                    }
                    changes = self.changed_wram(seed);
                }
            }
            kind::FALL => {
                if call.record[4] > 3 {
                    return declined(1);
                }
                let cpu = &mut self.chassis.cpu;
                cpu.halted = call.bit(0);
                cpu.irq = call.bit(1);
                cpu.stopped = call.bit(2);
                self.chassis.dma.owns_bus = call.bit(3);
                self.chassis.clock.edge = call.edge();
                // The claim is stored only by a commit: cleared first, it tells whether this fall made one.
                let kept = self.cgb.console_state.vram_dma_claim();
                self.cgb.console_state.set_vram_dma_claim(VramDmaClaim::default());
                let (cgb, chassis) = (&mut self.cgb, &mut self.chassis);
                let fell = catch_unwind(AssertUnwindSafe(|| {
                    cgb.vram_dma_fall_edge(chassis, mode(call.record[4]));
                }));
                if fell.is_err() {
                    *self = Self::new();
                    return declined(14);
                }
                let claim = self.cgb.console_state.vram_dma_claim();
                answer = Answer::values(&[claim.committed.into(), claim.standing.into()]);
                if !claim.committed {
                    self.cgb.console_state.set_vram_dma_claim(kept);
                }
            }
            kind::NEXT_PAIR => answer = Answer::single(cause::next_pair(&mut self.cgb.vram_dma)),
            kind::ESCAPE_DRAIN => answer = Answer::single(cause::escape_drain(&mut self.cgb.vram_dma)),
            kind::SPEED_SWITCH => {
                let phase = call.record[4];
                if phase > 4 {
                    return declined(3);
                }
                let (hold, ready) = (call.bit(0), call.bit(1));
                self.cgb.console_state.set_dma_cpu_hold(hold);
                self.chassis.ppu.phase = (phase < 4).then_some(phase);
                self.chassis.cpu.ime = ready;
                self.chassis.interrupts.pending = ready;
                self.chassis.clock.edge = call.edge();
                let latched = self.cgb.vram_dma.block.remaining > 0;
                let up = !self.cgb.double_speed;
                let reason = switch_refusal(&self.cgb, hold);
                let escape = self.cgb.vram_dma.cursor.escape_byte;
                if !self.cgb.attempt_speed_switch(&mut self.chassis) {
                    return declined(reason);
                }
                let cut =
                    up && latched && self.cgb.vram_dma.block.remaining == 1 && self.cgb.vram_dma.cursor.escape_byte;
                let discarded = up && latched && self.cgb.vram_dma.block.remaining == 0;
                assert!(!up || !latched || cut != discarded);
                assert!(cut || escape == self.cgb.vram_dma.cursor.escape_byte);
                answer = Answer::value(if cut { 2 } else { discarded as u8 });
            }
            kind::LCD_OFF => self.cgb.vram_dma_on_lcd_disabled(),
            kind::BLACKOUT_DRAIN => {
                let elapsed = u32::from_le_bytes(call.record[8..12].try_into().unwrap());
                answer = Answer::value(self.cgb.drain_blackout(elapsed));
            }
            kind::BUS_CALL | kind::BUS_CALL_FROM_INSIDE | kind::OBJECT_DMA_M_CYCLE => {
                if !(0..4).all(|k| call.whole(k)) {
                    return declined(2);
                }
                self.fill_wram(seed);
                self.fill_bus(seed);
                answer = match call.record[0] {
                    kind::BUS_CALL => self.commit_bytes(call, call.edge()),
                    kind::BUS_CALL_FROM_INSIDE => self.commit_bytes(call, self.object_dma.start_edge),
                    _ => self.m_cycle(call),
                };
                changes = self.changed_bus(seed);
            }
            kind::ARBITRATION => answer = self.arbitrate(call, call.bit(2)),
            kind::ARBITRATION_FROM_INSIDE => answer = self.arbitrate(call, self.object_dma.runs()),
            kind::OBJECT_DMA => {
                let dma = &self.object_dma;
                answer = Answer::values(&[dma.runs().into(), dma.counted.into(), dma.page.into()]);
            }
            kind::WRITE_CONFLICT => {
                if let Some(source) = self.cgb.vram_dma_write_conflict_source(call.address()) {
                    answer = Answer::values(&[1, source]);
                }
            }
            kind::WAKE_INTAKE => answer = Answer::value(self.cgb.wake_intake_ready(call.bit(0))),
            kind::INSTRUCTION_RETIRED => self.cgb.vram_dma.arb.park_waits_for_fetch = false,
            kind::TALLY => {
                let c = &self.cgb.vram_dma.cursor;
                answer = Answer::values(&[c.source, c.dest, c.remaining, c.escape_byte.into()]);
            }
            kind::STATUS => match self.cgb.vram_dma_status() {
                VramDmaStatus::Idle => {}
                VramDmaStatus::General { remaining } => answer = Answer::values(&[1, remaining]),
                VramDmaStatus::HBlank { remaining, source, dest } => {
                    answer = Answer::values(&[2, remaining, source, dest])
                }
            },
            kind::CLAIM => {
                let claim = self.cgb.console_state.vram_dma_claim();
                answer = Answer::values(&[claim.committed.into(), claim.standing.into()]);
            }
            kind::PARK_WAITS_FOR_FETCH => answer = Answer::value(self.cgb.vram_dma.arb.park_waits_for_fetch),
            kind::REQUEST_STANDING => answer = Answer::value(self.cgb.vram_dma.request_standing()),
            kind::HOLDS_CPU => answer = Answer::value(self.cgb.vram_dma.holds_cpu()),
            kind::SEIZES_BUS => answer = Answer::value(self.cgb.vram_dma.seizes_bus()),
            kind::SWITCH_IN_PROGRESS => answer = Answer::value(self.cgb.blackout_active()),
            kind::DIVIDER_ACTIVE => answer = Answer::value(self.cgb.blackout_divider_active()),
            kind::DOUBLE_SPEED => answer = Answer::value(self.cgb.double_speed()),
            kind::CPU_STEPS_PER_DOT => answer = Answer::value(self.cgb.steps_per_dot()),
            kind::WRAM_BANK => answer = Answer::value(self.cgb.wram_bank()),
            kind::SVBK_REGISTER => answer = Answer::value(self.cgb.svbk_register()),
            other => unreachable!("kind {other}"),
        }
        Outcome { answer, state: self.store(), changes }
    }
}
