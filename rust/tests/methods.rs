//! Every method of the wrapper, and every input of it, by a sentence of document 01 in which it makes a difference: a bit
//! or a value in a wrong place of a record shows here. The cases of the paper are in cases.rs, object DMA is in
//! object_dma.rs, a pair's cause in causes.rs, the estimate in estimate.rs.
use cgb_vram_dma::{
    Arbitration, CARTRIDGE_BYTES, Cgb, CutOutcome, Fall, Memory, Moved, OAM_BYTES, Pair, SwitchInputs, VRAM_BYTES,
    WRAM_BYTES,
};

fn write(cgb: &mut Cgb, address: u16, value: u8) {
    cgb.write(&mut [0; WRAM_BYTES], address, value, true).unwrap();
}

fn read(cgb: &Cgb, address: u16) -> u8 {
    cgb.read(&mut [0; WRAM_BYTES], address).unwrap()
}

fn bus(cgb: &mut Cgb, hold: bool, suspended: bool) -> Moved {
    let (mut wram, mut vram, mut oam) = ([0; WRAM_BYTES], [0; VRAM_BYTES], [0; OAM_BYTES]);
    let memory = Memory { cartridge: &[7; CARTRIDGE_BYTES], wram: &mut wram, vram: &mut vram, oam: &mut oam };
    cgb.vram_dma_commit_bytes(memory, hold, suspended, 0).unwrap()
}

fn running(mode: u8) -> Fall {
    Fall { mode, ..Fall::default() }
}

fn falls(cgb: &mut Cgb, modes: &[u8]) {
    for mode in modes {
        cgb.vram_dma_fall_edge(running(*mode)).unwrap();
    }
}

/// Power-on, FF55 and falls.
fn after(ff55: u8, modes: &[u8]) -> Cgb {
    let mut cgb = Cgb::power_on(false);
    write(&mut cgb, 0xFF55, ff55);
    falls(&mut cgb, modes);
    cgb
}

fn switch(cgb: &mut Cgb, inputs: SwitchInputs) -> CutOutcome {
    write(cgb, 0xFF4D, 0x01);
    cgb.attempt_speed_switch(inputs).unwrap()
}

/// A transfer at double speed, the blackout drained.
fn doubled(ff55: u8, modes: &[u8]) -> Cgb {
    let mut cgb = Cgb::power_on(false);
    switch(&mut cgb, SwitchInputs::default());
    assert!(cgb.drain_speed_switch_blackout(131_077).unwrap());
    write(&mut cgb, 0xFF55, ff55);
    falls(&mut cgb, modes);
    cgb
}

fn addresses(pair: Pair) -> (u16, u16) {
    (pair.source, pair.destination)
}

/// The paper's replay: "write FF55 = 00 with LCD on, fall mode 3, three next pairs".
#[test]
fn next_pairs() {
    let mut cgb = after(0x00, &[3]);
    let pairs: Vec<Option<(u16, u16)>> = (0..3).map(|_| cgb.next_byte().unwrap().map(addresses)).collect();
    assert_eq!(pairs, [Some((0, 0x8000)), Some((1, 0x8001)), None]);
    assert_eq!(cgb.tally().unwrap().left, 14);
}

/// "FF51 and FF53 replace the high byte of source and destination; FF52 and FF54 the low byte".
#[test]
fn addresses_and_values() {
    let mut cgb = Cgb::power_on(false);
    for (address, value) in [(0xFF51, 0x12), (0xFF52, 0x3F), (0xFF53, 0x45), (0xFF54, 0x6F)] {
        write(&mut cgb, address, value);
    }
    let tally = cgb.tally().unwrap();
    assert_eq!((tally.source, tally.destination_register, tally.left), (0x1230, 0x4560, 0));
}

/// "with the LCD off it also latches a block of 16, ready in 2".
#[test]
fn arming_with_the_lcd_on_and_off() {
    for (lcd_on, block) in [(true, 0), (false, 16)] {
        let mut cgb = Cgb::power_on(false);
        cgb.write(&mut [0; WRAM_BYTES], 0xFF55, 0x80, lcd_on).unwrap();
        assert_eq!(cgb.state().vram_dma.block.remaining, block);
    }
    let mut cgb = after(0x80, &[]);
    cgb.vram_dma_lcd_disabled().unwrap();
    assert_eq!((cgb.state().vram_dma.block.remaining, cgb.state().vram_dma.block.ready_in), (16, 2));
}

/// "Gated = stopped, or halted without latched IRQ", and a gated fall commits nothing.
#[test]
fn the_fall_s_flags() {
    let fall = Fall::default();
    for (fall, commits) in [
        (fall, true),
        (Fall { halted: true, ..fall }, false),
        (Fall { halted: true, interrupt_latched: true, ..fall }, true),
        (Fall { interrupt_latched: true, ..fall }, true),
        (Fall { stopped: true, ..fall }, false),
        (Fall { stopped: true, interrupt_latched: true, ..fall }, false),
        (Fall { oam_dma: true, ..fall }, true),
    ] {
        assert_eq!(after(0x80, &[3, 0]).vram_dma_fall_edge(fall).unwrap().committed, commits, "{fall:?}");
    }
}

/// "A claim is standing at pend age 4 or more with no bus owned by OAM DMA": an entry in the third halted fall pends, four more
/// age it, and a running fall commits it.
#[test]
fn a_standing_claim() {
    for (oam_dma, standing) in [(false, true), (true, false)] {
        let mut cgb = after(0x80, &[3]);
        for mode in [3, 3, 0, 0, 0, 0, 0] {
            cgb.vram_dma_fall_edge(Fall { mode, halted: true, ..Fall::default() }).unwrap();
        }
        assert_eq!(cgb.state().vram_dma.arb.pend_age, 4);
        assert_eq!(cgb.vram_dma_request_standing(), Ok(true));
        let claim = cgb.vram_dma_fall_edge(Fall { oam_dma, ..Fall::default() }).unwrap();
        assert_eq!((claim.committed, claim.standing), (true, standing));
        assert_eq!(cgb.vram_dma_claim(), Ok(claim));
    }
}

/// "A bus call neither held nor suspended does nothing".
#[test]
fn hold_and_suspension() {
    for (hold, suspended, count) in [(false, false, 0), (true, false, 2), (false, true, 2), (true, true, 2)] {
        let mut cgb = after(0x00, &[3]);
        let moved = bus(&mut cgb, hold, suspended).pairs.into_iter().flatten();
        assert_eq!(moved.map(|(_, byte)| byte).collect::<Vec<u8>>(), vec![7; count]);
        let answer = |oam| after(0x00, &[3]).vram_dma_arbitrate_oam(hold, suspended, oam).unwrap();
        let met = if count == 0 { Arbitration::Clear } else { Arbitration::Contended };
        assert_eq!([answer(false), answer(true)], [Arbitration::Clear, met]);
    }
}

/// K6's cut: "mode Idle, block 1, one escape byte owed". "An escape drain hands out one pair if an escape is owed and the
/// engine moves, and then leaves quota 0".
#[test]
fn the_escape() {
    let mut cgb = after(0x81, &[3, 0, 0, 0]);
    assert!(bus(&mut cgb, true, false).set_up_cell);
    falls(&mut cgb, &[0]);
    bus(&mut cgb, true, false);
    assert_eq!(cgb.vram_dma_drain_escape(), Ok(None));
    assert_eq!(switch(&mut cgb, SwitchInputs::default()), CutOutcome::Cut);
    falls(&mut cgb, &[3]);
    assert_eq!(cgb.vram_dma_arbitrate_oam(true, false, true), Ok(Arbitration::Stall));
    assert_eq!(cgb.vram_dma_drain_escape().map(|pair| pair.map(addresses)), Ok(Some((2, 0x8002))));
    let tally = cgb.tally().unwrap();
    assert_eq!((tally.left, tally.escape_owed, cgb.state().vram_dma.cursor.quota), (30, false, 0));
    // A block that is not ready is discarded.
    assert_eq!(switch(&mut after(0x80, &[3, 0, 0]), SwitchInputs::default()), CutOutcome::Discarded);
}

/// "Blackout: 131,077 edges upward .. interrupt ready leaves 5 or 2".
#[test]
fn the_switch_s_inputs() {
    for (interrupt_ready, edges) in [(false, 131_077), (true, 5)] {
        let mut cgb = Cgb::power_on(false);
        switch(&mut cgb, SwitchInputs { interrupt_ready, edge: 0x0123_4567_89AB_CDEF, ..SwitchInputs::default() });
        assert_eq!(cgb.state().speed_switch_blackout, edges);
        assert_eq!(cgb.state().console_state.blackout_anchor, 0x0123_4567_89AB_CDEF);
        assert_eq!((cgb.speed_switch_in_progress(), cgb.speed_switch_divider_active()), (Ok(true), Ok(edges > 5)));
        assert_eq!((cgb.cpu_steps_per_dot(), read(&cgb, 0xFF4D)), (Ok(2), 0xFE));
        assert_eq!(cgb.drain_speed_switch_blackout(edges - 1), Ok(false));
        assert_eq!(cgb.drain_speed_switch_blackout(1), Ok(true));
        assert_eq!((cgb.speed_switch_in_progress(), cgb.speed_switch_divider_active()), (Ok(false), Ok(false)));
    }
}

/// The original's `wake_intake_ready`: the first call arms one M-cycle, a boundary ends it.
#[test]
fn the_wake() {
    let mut cgb = Cgb::power_on(false);
    switch(&mut cgb, SwitchInputs::default());
    let ready: Vec<bool> = [true, false, true, false].map(|at| cgb.speed_switch_wake_ready(at).unwrap()).into();
    assert_eq!(ready, [false, false, true, true]);
}

/// The original's `vram_dma_write_conflict_source`: double speed, a seizure of two falls, the address that is written.
#[test]
fn the_write_conflict() {
    let mut cgb = doubled(0x80, &[3, 3, 3, 3, 3, 3, 0, 0, 0]);
    assert_eq!((cgb.vram_dma_seizes_bus(), cgb.vram_dma_conflict_source(0x8000)), (Ok(true), Ok(None)));
    assert!(bus(&mut cgb, true, false).set_up_cell);
    falls(&mut cgb, &[0]);
    assert_eq!(cgb.vram_dma_conflict_source(0x8000), Ok(Some(0)));
    assert_eq!(cgb.vram_dma_conflict_source(0x8001), Ok(None));
    assert_eq!(bus(&mut cgb, true, false).pairs.into_iter().flatten().count(), 1);
    assert_eq!(cgb.vram_dma_conflict_source(0x8001), Ok(Some(1)));
}

/// A commit on a running CPU parks until an instruction has retired.
#[test]
fn the_park() {
    let mut cgb = after(0x80, &[3, 0, 0]);
    assert_eq!((cgb.vram_dma_park_waits_for_fetch(), cgb.vram_dma_holds_cpu()), (Ok(true), Ok(false)));
    cgb.vram_dma_instruction_retired().unwrap();
    assert_eq!(cgb.vram_dma_park_waits_for_fetch(), Ok(false));
}

/// "D000h up in bank FF70 (0 means 1)"; FF70 reads F8 + what was written.
#[test]
fn the_bank() {
    let mut cgb = Cgb::power_on(false);
    for (value, bank) in [(0, 1), (5, 5), (0xFA, 2)] {
        write(&mut cgb, 0xFF70, value);
        assert_eq!((cgb.svbk_register(), cgb.wram_bank()), (Ok(value % 8), Ok(bank)));
        assert_eq!(read(&cgb, 0xFF70), 0xF8 + value % 8);
        let mut wram = vec![0; WRAM_BYTES];
        cgb.write(&mut wram, 0xD012, 0x34, true).unwrap();
        assert_eq!(wram.iter().position(|byte| *byte == 0x34), Some(usize::from(bank) * 4_096 + 0x12));
        assert_eq!(cgb.read(&mut wram, 0xF012), Ok(0x34));
    }
}
