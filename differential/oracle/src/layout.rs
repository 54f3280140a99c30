//! The state as the 248 bytes of docs/STATE-LAYOUT.md, written a second time and by hand: the port's codec
//! is held against it too.
use crate::Cgb;
use crate::object_dma::ObjectDma;
use crate::vram::CgbVram;
use crate::vram_dma::{Countdown, TransferMode};
use missingno_gb::ppu::memory::Vram;
use missingno_gb::{ConsoleShadow, VramDmaClaim};

pub const SIZE: usize = 248;

struct Writer {
    bytes: [u8; SIZE],
    at: usize,
}

impl Writer {
    fn byte(&mut self, b: u8) {
        self.bytes[self.at] = b;
        self.at += 1;
    }
    fn flag(&mut self, b: bool) {
        self.byte(b as u8);
    }
    fn many(&mut self, bytes: &[u8]) {
        for b in bytes {
            self.byte(*b);
        }
    }
}

pub fn mode_number(mode: &TransferMode) -> u8 {
    match mode {
        TransferMode::Idle => 0,
        TransferMode::General => 1,
        TransferMode::HBlank => 2,
    }
}

/// The original's state, and behind it the second reading's.
pub fn encode(cgb: &Cgb, vram: &CgbVram, object_dma: &ObjectDma) -> [u8; SIZE] {
    let mut w = Writer { bytes: [0; SIZE], at: 0 };
    let c = &cgb.vram_dma.cursor;
    w.many(&c.source.to_le_bytes());
    w.many(&c.dest.to_le_bytes());
    w.byte(mode_number(&c.mode));
    w.many(&c.remaining.to_le_bytes());
    w.byte(c.quota);
    w.flag(c.escape_byte);
    let b = &cgb.vram_dma.block;
    w.byte(b.remaining);
    w.many(&b.start_edge.to_le_bytes());
    w.flag(b.taken);
    w.byte(b.setup_cells.remaining());
    w.byte(b.ready_in.remaining());
    w.byte(b.seize_falls);
    w.flag(b.from_arm);
    w.flag(b.arm_ready_probation);
    let a = &cgb.vram_dma.arb;
    w.flag(a.pend);
    w.flag(a.pend_from_arm);
    w.flag(a.armed_this_fall);
    w.byte(a.halted_falls);
    w.flag(a.prev_view_hblank);
    w.byte(a.pend_age);
    w.flag(a.pend_granted);
    w.byte(a.wake_tenure.remaining());
    w.flag(a.park_waits_for_fetch);
    w.flag(a.idle_claim);
    w.byte(a.halt_wake_blind.remaining());
    w.flag(a.prev_cpu_halted);
    w.flag(a.grant_counted);
    w.byte(a.wake_pend_blind.remaining());
    w.byte(a.granted_ahead);
    w.flag(cgb.vram_dma.oam.was_transferring);
    w.flag(cgb.vram_dma.oam.contended);
    w.byte(cgb.svbk);
    w.flag(cgb.key1_armed);
    w.flag(cgb.double_speed);
    w.flag(cgb.dmg_compat);
    w.many(&cgb.speed_switch_blackout.to_le_bytes());
    w.flag(cgb.speed_switch_wake_latency.is_some());
    w.byte(cgb.speed_switch_wake_latency.unwrap_or(0));
    w.flag(cgb.switch_relock_debit);
    w.many(&[cgb.ff72, cgb.ff73, cgb.ff74, cgb.ff75]);
    w.many(&cgb.extra_oam);
    w.byte(vram.selected_bank());
    w.many(&cgb.console_state.blackout_anchor().to_le_bytes());
    let claim = cgb.console_state.vram_dma_claim();
    w.flag(claim.committed);
    w.flag(claim.standing);
    assert_eq!(w.at, 91);
    w.flag(object_dma.running);
    w.byte(object_dma.page);
    w.byte(object_dma.counted);
    w.many(&object_dma.start_edge.to_le_bytes());
    assert_eq!(w.at, 102);
    w.bytes
}

struct Reader<'a> {
    bytes: &'a [u8; SIZE],
    at: usize,
}

impl Reader<'_> {
    fn byte(&mut self) -> u8 {
        self.at += 1;
        self.bytes[self.at - 1]
    }
    fn flag(&mut self) -> bool {
        self.byte() == 1
    }
    fn number(&mut self, width: usize) -> u64 {
        (0..width).fold(0, |n, k| n | (self.byte() as u64) << (8 * k))
    }
    fn countdown(&mut self) -> Countdown {
        let mut c = Countdown::default();
        c.arm(self.byte());
        c
    }
}

/// The original's state and the second reading's from their bytes. FF4F's bank goes through the register, which keeps one bit.
pub fn decode(bytes: &[u8; SIZE], cgb: &mut Cgb, vram: &mut CgbVram, object_dma: &mut ObjectDma) {
    let mut r = Reader { bytes, at: 0 };
    let c = &mut cgb.vram_dma.cursor;
    c.source = r.number(2) as u16;
    c.dest = r.number(2) as u16;
    c.mode = match r.byte() {
        0 => TransferMode::Idle,
        1 => TransferMode::General,
        _ => TransferMode::HBlank,
    };
    c.remaining = r.number(2) as u16;
    c.quota = r.byte();
    c.escape_byte = r.flag();
    let b = &mut cgb.vram_dma.block;
    b.remaining = r.byte();
    b.start_edge = r.number(8);
    b.taken = r.flag();
    b.setup_cells = r.countdown();
    b.ready_in = r.countdown();
    b.seize_falls = r.byte();
    b.from_arm = r.flag();
    b.arm_ready_probation = r.flag();
    let a = &mut cgb.vram_dma.arb;
    a.pend = r.flag();
    a.pend_from_arm = r.flag();
    a.armed_this_fall = r.flag();
    a.halted_falls = r.byte();
    a.prev_view_hblank = r.flag();
    a.pend_age = r.byte();
    a.pend_granted = r.flag();
    a.wake_tenure = r.countdown();
    a.park_waits_for_fetch = r.flag();
    a.idle_claim = r.flag();
    a.halt_wake_blind = r.countdown();
    a.prev_cpu_halted = r.flag();
    a.grant_counted = r.flag();
    a.wake_pend_blind = r.countdown();
    a.granted_ahead = r.byte();
    cgb.vram_dma.oam.was_transferring = r.flag();
    cgb.vram_dma.oam.contended = r.flag();
    cgb.svbk = r.byte();
    cgb.key1_armed = r.flag();
    cgb.double_speed = r.flag();
    cgb.dmg_compat = r.flag();
    cgb.speed_switch_blackout = r.number(4) as u32;
    let some = r.flag();
    let latency = r.byte();
    cgb.speed_switch_wake_latency = some.then_some(latency);
    cgb.switch_relock_debit = r.flag();
    cgb.ff72 = r.byte();
    cgb.ff73 = r.byte();
    cgb.ff74 = r.byte();
    cgb.ff75 = r.byte();
    for k in 0..24 {
        cgb.extra_oam[k] = r.byte();
    }
    vram.write_bank_select(r.byte());
    cgb.console_state.set_blackout_anchor(r.number(8));
    let committed = r.flag();
    let standing = r.flag();
    cgb.console_state.set_vram_dma_claim(VramDmaClaim { committed, standing });
    object_dma.running = r.flag();
    object_dma.page = r.byte();
    object_dma.counted = r.byte();
    object_dma.start_edge = r.number(8);
}
