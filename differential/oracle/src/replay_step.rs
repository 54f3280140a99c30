//! One record of document 01's replay over the original: its bytes to an outcome. The replay's line (replay.rs), the log's
//! record (board_log.rs) and the judge (judge.rs) come from this one value. The original's own state is kept and nothing is
//! decoded between records, as in the port's programs. A write to FF46 goes to the second reading, of which only the refusal
//! shows; a pair's cause is the second reading's (cause.rs).
use std::panic::{AssertUnwindSafe, catch_unwind};

use missingno_gb::ppu::rendering::Mode;
use missingno_gb::{Chassis, ConsoleShadow};

use crate::Cgb;
use crate::calls::{self, Call};
use crate::cause::{self, Pair};
use crate::kind;
use crate::layout;
use crate::object_dma::ObjectDma;

pub const RECORD: usize = 16;

pub struct Outcome {
    /// 0 where the call was accepted.
    pub refusal: u8,
    pub pair: Option<Pair>,
    /// Left and FF55 after the record.
    pub left: u16,
    pub ff55: u8,
}

pub struct Replay {
    cgb: Cgb,
    chassis: Chassis<Cgb>,
    object_dma: ObjectDma,
}

impl Replay {
    /// "from power-on without compat"
    pub fn power_on() -> Self {
        Self { cgb: Cgb::default(), chassis: Chassis::new(), object_dma: ObjectDma::default() }
    }

    #[inline(always)]
    pub fn step(&mut self, record: [u8; RECORD]) -> Outcome {
        let (refusal, pair) = self.perform(&Call { record, lengths: [0; 4] });
        self.outcome(refusal, pair)
    }

    /// "6 replay record of other kind or short", with "state .. as before"
    pub fn short(&self) -> Outcome {
        self.outcome(6, None)
    }

    #[inline(always)]
    fn outcome(&self, refusal: u8, pair: Option<Pair>) -> Outcome {
        Outcome { refusal, pair, left: self.cgb.vram_dma.cursor.remaining, ff55: self.ff55() }
    }

    /// The refusal or 0, and the pair that came.
    #[inline(always)]
    fn perform(&mut self, call: &Call) -> (u8, Option<Pair>) {
        match call.record[0] {
            kind::WRITE => return (self.write(call), None),
            kind::FALL => return (self.fall(call), None),
            kind::NEXT_PAIR => return (0, cause::next_pair(&mut self.cgb.vram_dma)),
            kind::SPEED_SWITCH => return (self.switch(call), None),
            kind::LCD_OFF => self.cgb.vram_dma_on_lcd_disabled(),
            kind::ESCAPE_DRAIN => return (0, cause::escape_drain(&mut self.cgb.vram_dma)),
            kind::BLACKOUT_DRAIN => {
                let elapsed = u32::from_le_bytes(call.record[8..12].try_into().unwrap());
                self.cgb.drain_blackout(elapsed);
            }
            _ => return (6, None),
        }
        (0, None)
    }

    /// FF46 is the second reading's.
    fn write(&mut self, call: &Call) -> u8 {
        if call.writes_ff46() {
            let started = self.object_dma.write(call.record[4], call.edge());
            return if started { 0 } else { 21 };
        }
        if (0xFF68..=0xFF6C).contains(&call.address()) {
            return 4;
        }
        self.chassis.ppu.control.lcd_on = call.record[5] != 0;
        let vram = &mut self.chassis.vram_bus.vram;
        let mapped = self.cgb.map_write_byte(call.address(), call.record[4], &mut self.chassis.ppu, vram);
        if mapped { 0 } else { 4 }
    }

    fn fall(&mut self, call: &Call) -> u8 {
        if call.record[4] > 3 {
            return 1;
        }
        self.chassis.cpu.halted = call.bit(0);
        self.chassis.cpu.irq = call.bit(1);
        self.chassis.cpu.stopped = call.bit(2);
        self.chassis.dma.owns_bus = call.bit(3);
        self.chassis.clock.edge = call.edge();
        let mode = calls::mode(call.record[4]);
        // Only from 255 can the count of blocks granted ahead overflow (14): then the state of before is kept.
        if self.cgb.vram_dma.arb.granted_ahead == 255 {
            return self.guarded(mode);
        }
        self.cgb.vram_dma_fall_edge(&mut self.chassis, mode);
        0
    }

    /// A fall that may overflow: 14 and the state of before, or 0.
    #[cold]
    fn guarded(&mut self, mode: Mode) -> u8 {
        let before = layout::encode(&self.cgb, &self.chassis.vram_bus.vram, &self.object_dma);
        let (cgb, chassis) = (&mut self.cgb, &mut self.chassis);
        // An overflow is an answer: nothing is said of it.
        let hook = std::panic::take_hook();
        std::panic::set_hook(Box::new(|_| {}));
        let fell = catch_unwind(AssertUnwindSafe(|| cgb.vram_dma_fall_edge(chassis, mode)));
        std::panic::set_hook(hook);
        if fell.is_ok() {
            return 0;
        }
        layout::decode(&before, &mut self.cgb, &mut self.chassis.vram_bus.vram, &mut self.object_dma);
        14
    }

    fn switch(&mut self, call: &Call) -> u8 {
        let phase = call.record[4];
        if phase > 4 {
            return 3;
        }
        let reason = calls::switch_refusal(&self.cgb, call.bit(0));
        self.cgb.console_state.set_dma_cpu_hold(call.bit(0));
        self.chassis.ppu.phase = (phase < 4).then_some(phase);
        self.chassis.cpu.ime = call.bit(1);
        self.chassis.interrupts.pending = call.bit(1);
        self.chassis.clock.edge = call.edge();
        let accepted = self.cgb.attempt_speed_switch(&mut self.chassis);
        if accepted { 0 } else { reason }
    }

    fn ff55(&self) -> u8 {
        self.cgb.map_read_byte(0xFF55, &self.chassis.ppu, &self.chassis.vram_bus.vram).expect("FF55 is mapped")
    }
}
