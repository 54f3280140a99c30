//! Object DMA through the wrapper, by the sentences of document 02's A1: each method, and every input of it, where it makes a
//! difference.
use cgb_vram_dma::{
    Arbitration, CARTRIDGE_BYTES, Cgb, CutOutcome, Cycle, Fall, Memory, Moved, OAM_BYTES, Refusal, SwitchInputs,
    VRAM_BYTES, WRAM_BYTES,
};

/// What OAM holds in front of a test.
const BEFORE: u8 = 0xEE;

struct Bench {
    cgb: Cgb,
    cartridge: Vec<u8>,
    wram: Vec<u8>,
    vram: Vec<u8>,
    oam: Vec<u8>,
}

impl Bench {
    fn new(compat: bool) -> Self {
        // Neither a bank nor a page has the bytes of another.
        let filled = |n: usize, first: usize| (0..n).map(|i| (i * 7 + i / 256 * 3 + first) as u8).collect();
        Self {
            cgb: Cgb::power_on(compat),
            cartridge: filled(CARTRIDGE_BYTES, 5),
            wram: filled(WRAM_BYTES, 90),
            vram: filled(VRAM_BYTES, 170),
            oam: vec![BEFORE; OAM_BYTES],
        }
    }
    /// Object DMA from this page, with start edge 0.
    fn started(page: u8) -> Self {
        let mut b = Self::new(false);
        b.start(page, 0);
        b
    }
    fn start(&mut self, page: u8, edge: u64) {
        self.cgb.start_object_dma(&mut self.wram, page, edge).unwrap();
    }
    fn write(&mut self, address: u16, value: u8) {
        self.cgb.write(&mut self.wram, address, value, true).unwrap();
    }
    fn fall(&mut self, mode: u8, edge: u64) {
        self.cgb.vram_dma_fall_edge(Fall { mode, edge, ..Fall::default() }).unwrap();
    }
    fn cycle(&mut self, arbitration: Arbitration) -> Cycle {
        let Self { cgb, cartridge, wram, vram, oam } = self;
        cgb.object_dma_m_cycle(arbitration, Memory { cartridge, wram, vram, oam }).unwrap()
    }
    fn cycles(&mut self, arbitration: Arbitration, count: usize) {
        for _ in 0..count {
            self.cycle(arbitration);
        }
    }
    fn arbitrate(&mut self) -> Arbitration {
        self.cgb.vram_dma_arbitrate_inside(true, false).unwrap()
    }
    fn bus(&mut self, hold: bool, suspended: bool) -> Moved {
        let Self { cgb, cartridge, wram, vram, oam } = self;
        cgb.vram_dma_commit_bytes_inside(Memory { cartridge, wram, vram, oam }, hold, suspended).unwrap()
    }
    /// What the query says: runs, counted, page.
    fn asked(&self) -> Result<(bool, u8, u8), Refusal> {
        self.cgb.object_dma().map(|dma| (dma.runs, dma.counted, dma.page))
    }
    fn counted(&self) -> u8 {
        self.cgb.object_dma().unwrap().counted
    }
    /// The first block of an HBlank transfer, committed at this edge, in front of its first two bytes (K2).
    fn with_block(edge: u64) -> Self {
        let mut b = Self::new(false);
        b.write(0xFF55, 0x80);
        for mode in [3, 0, 0, 0] {
            b.fall(mode, edge);
        }
        assert!(b.bus(true, false).set_up_cell);
        b.fall(0, edge);
        b
    }
}

/// "0 at power-on, where object DMA rests"; "The write carries the start edge .. and a new write starts over".
#[test]
fn the_write_starts_it_and_starts_it_over() {
    let mut b = Bench::new(false);
    let rests = b.cgb.state().object_dma;
    assert_eq!((rests.running, rests.page, rests.counted, rests.start_edge), (false, 0, 0, 0));
    assert_eq!(b.asked(), Ok((false, 0, 0)));
    let power_on = b.cgb.clone();
    b.start(0xC1, 0x0123_4567_89AB_CDEF);
    let lines = "object_dma.running: false -> true\nobject_dma.page: 0 -> 193\n\
                 object_dma.start_edge: 0 -> 81985529216486895\n";
    assert_eq!(b.cgb.changes_since(&power_on).to_string(), lines);
    b.cycles(Arbitration::Clear, 3);
    assert_eq!(b.asked(), Ok((true, 3, 0xC1)));
    let third = b.cgb.clone();
    b.start(0xD2, 5);
    let lines =
        "object_dma.page: 193 -> 210\nobject_dma.counted: 3 -> 0\nobject_dma.start_edge: 81985529216486895 -> 5\n";
    assert_eq!(b.cgb.changes_since(&third).to_string(), lines);
    assert_eq!(b.cycle(Arbitration::Clear), Cycle::Moved { source: 0xD200, byte: b.wram[0x1200] });
    // The other write has edge 0.
    b.write(0xFF46, 0x12);
    assert_eq!(b.cgb.state().object_dma.start_edge, 0);
    assert_eq!(b.asked(), Ok((true, 0, 0x12)));
}

/// "A write to FF46 no longer gets 4, a read still does"; "21, page above DFh, tested after 4, nothing changed": what runs goes on. A
/// wrong length of WRAM gets 2 in front of it. Document 01 does not list FF46 among what compat locks.
#[test]
fn pages_above_df() {
    for compat in [false, true] {
        let mut b = Bench::new(compat);
        b.start(0xDF, 7);
        b.cycles(Arbitration::Clear, 2);
        let running = b.cgb.clone();
        for page in 0xE0..=0xFF {
            assert_eq!(b.cgb.start_object_dma(&mut b.wram, page, 9), Err(Refusal::PageAboveDF));
            assert_eq!(b.cgb.write(&mut b.wram, 0xFF46, page, true), Err(Refusal::PageAboveDF));
            assert_eq!(b.cgb.start_object_dma(&mut b.wram[1..], page, 9), Err(Refusal::SliceLength));
        }
        assert_eq!(b.cgb.start_object_dma(&mut b.wram[1..], 0xC0, 9), Err(Refusal::SliceLength));
        assert_eq!(b.cgb.read(&mut b.wram, 0xFF46), Err(Refusal::AddressNotInMap));
        assert_eq!(b.cgb, running);
        assert_eq!(b.cycle(Arbitration::Clear), Cycle::Moved { source: 0xDF02, byte: b.wram[0x1F02] });
    }
}

/// "contended, its own byte is passed over but counted; stalled, it waits"; "at rest this call changes nothing".
#[test]
fn arbitration_s_answer() {
    let mut b = Bench::started(0xC0);
    assert_eq!(b.cycle(Arbitration::Clear), Cycle::Moved { source: 0xC000, byte: b.wram[0] });
    assert_eq!(b.cycle(Arbitration::Contended), Cycle::PassedOver { source: 0xC001 });
    let before = b.cgb.clone();
    assert_eq!(b.cycle(Arbitration::Stall), Cycle::Nothing);
    assert_eq!(b.cgb, before);
    assert_eq!(b.cycle(Arbitration::Clear), Cycle::Moved { source: 0xC002, byte: b.wram[2] });
    assert_eq!(b.oam[..4], [b.wram[0], BEFORE, b.wram[2], BEFORE]);
    let mut b = Bench::new(false);
    for any in [Arbitration::Clear, Arbitration::Contended, Arbitration::Stall] {
        assert_eq!(b.cycle(any), Cycle::Nothing);
        assert_eq!((&b.cgb, &b.oam), (&Cgb::power_on(false), &vec![BEFORE; OAM_BYTES]));
    }
}

/// "moves 160 bytes from p × 256 up to FE00h–FE9Fh, one byte each M-cycle call, through the same read rules and stand-ins, except
/// that 8000h–9FFFh reads VRAM in the bank of FF4F"; "runs .. until 160 are counted".
#[test]
fn a_whole_run_from_each_kind_of_source() {
    let filled = Bench::new(false);
    for (page, vbk, svbk, from) in [
        (0x00, 0, 0, &filled.cartridge[..]),
        (0x7F, 1, 2, &filled.cartridge[0x7F00..]),
        (0x80, 0, 0, &filled.vram[..]),
        (0x80, 1, 0, &filled.vram[0x2000..]),
        (0x9F, 0, 0, &filled.vram[0x1F00..]),
        (0x9F, 1, 0, &filled.vram[0x3F00..]),
        (0xA0, 0, 0, &filled.cartridge[0x8000..]),
        (0xBF, 0, 0, &filled.cartridge[0x9F00..]),
        (0xC0, 0, 5, &filled.wram[..]),
        (0xCF, 0, 5, &filled.wram[0x0F00..]),
        (0xD0, 0, 0, &filled.wram[0x1000..]),
        (0xD0, 0, 1, &filled.wram[0x1000..]),
        (0xD0, 0, 5, &filled.wram[0x5000..]),
        (0xDF, 0, 7, &filled.wram[0x7F00..]),
    ] {
        let mut b = Bench::new(false);
        b.write(0xFF4F, vbk);
        b.write(0xFF70, svbk);
        b.start(page, 3);
        for k in 0..160 {
            assert_eq!(b.asked(), Ok((true, k, page)));
            let source = u16::from(page) * 256 + u16::from(k);
            assert_eq!(b.cycle(Arbitration::Clear), Cycle::Moved { source, byte: from[usize::from(k)] });
        }
        assert_eq!(b.oam, from[..160], "{page:02X}");
        assert_eq!(b.asked(), Ok((false, 160, page)));
        let ended = b.cgb.clone();
        b.wram.fill(0);
        b.vram.fill(0);
        assert_eq!(b.cycle(Arbitration::Clear), Cycle::Nothing);
        assert_eq!(b.oam, from[..160]);
        assert_eq!(b.cgb, ended);
        assert_eq!((b.cgb.state().object_dma.running, b.cgb.state().object_dma.start_edge), (false, 3));
    }
}

/// The bank is that of the call, not that of the write.
#[test]
fn a_bank_that_changes_in_the_run() {
    for (page, register, bank) in [(0xD0, 0xFF70, 0x1000), (0x80, 0xFF4F, 0x2000)] {
        let mut b = Bench::started(page);
        let memory = if page == 0x80 { b.vram.clone() } else { b.wram.clone() };
        for (k, value) in [1, 0, 1].into_iter().enumerate() {
            b.write(register, value);
            // FF70's 0 means 1.
            let selected = if page == 0x80 { value } else { 1 };
            let byte = memory[usize::from(selected) * bank + k];
            assert_eq!(b.cycle(Arbitration::Clear), Cycle::Moved { source: u16::from(page) * 256 + k as u16, byte });
        }
        if page == 0xD0 {
            b.write(register, 6);
            assert_eq!(b.cycle(Arbitration::Clear), Cycle::Moved { source: 0xD003, byte: memory[6 * bank + 3] });
        }
    }
}

/// Passed-over bytes are counted like moved ones; a stall is not.
#[test]
fn what_is_counted() {
    let mut b = Bench::started(0x40);
    for k in 0..80 {
        assert_eq!(b.counted(), 2 * k);
        b.cycle(Arbitration::Clear);
        b.cycles(Arbitration::Stall, 3);
        assert_eq!(b.counted(), 2 * k + 1);
        b.cycle(Arbitration::Contended);
    }
    assert_eq!(b.asked(), Ok((false, 160, 0x40)));
    let own = |k: usize| if k % 2 == 0 { b.cartridge[0x4000 + k] } else { BEFORE };
    assert_eq!(b.oam, (0..160).map(own).collect::<Vec<u8>>());
}

/// "7 gains more than 160 moved bytes and a page above DFh", at rest too. No run leaves the mark set with 160
/// counted, but that passes, and rests.
#[test]
fn states_that_no_run_leaves() {
    for running in [0, 1] {
        for (page, counted, passes) in [(0xDF, 160, true), (0xE0, 0, false), (0, 161, false), (0xFF, 255, false)] {
            let mut bytes = *Cgb::power_on(false).bytes();
            bytes[91..94].copy_from_slice(&[running, page, counted]);
            let expected = if passes { Ok((false, counted, page)) } else { Err(Refusal::NoState) };
            let mut b = Bench { cgb: Cgb::from_bytes(bytes), ..Bench::new(false) };
            assert_eq!(b.asked(), expected);
            assert_eq!(b.cgb.tally().is_ok(), passes);
            assert_eq!(b.cgb.write(&mut b.wram, 0xFF46, 0xC0, true).is_ok(), passes);
            if passes {
                let mut b = Bench { cgb: Cgb::from_bytes(bytes), ..b };
                assert_eq!(b.cycle(Arbitration::Clear), Cycle::Nothing);
                assert_eq!(b.cgb.bytes(), &bytes);
                // Arbitration takes it for resting too.
                b.write(0xFF55, 0x00);
                b.fall(3, 0);
                assert_eq!(b.arbitrate(), Arbitration::Clear);
            }
        }
    }
}

/// The M-cycle call is lent all four slices, and wants them at rest too.
#[test]
fn lengths() {
    for page in [None, Some(0xC0)] {
        for (which, longer) in [0, 1, 2, 3].into_iter().flat_map(|which| [(which, false), (which, true)]) {
            let mut b = Bench::new(false);
            if let Some(page) = page {
                b.start(page, 0);
            }
            let before = b.cgb.clone();
            let slice = [&mut b.cartridge, &mut b.wram, &mut b.vram, &mut b.oam].into_iter().nth(which).unwrap();
            let length = if longer { slice.len() + 1 } else { slice.len() - 1 };
            slice.resize(length, 0);
            let Bench { cgb, cartridge, wram, vram, oam } = &mut b;
            let refused = cgb.object_dma_m_cycle(Arbitration::Clear, Memory { cartridge, wram, vram, oam });
            assert_eq!(refused, Err(Refusal::SliceLength));
            let refused = cgb.vram_dma_commit_bytes_inside(Memory { cartridge, wram, vram, oam }, true, false);
            assert_eq!(refused, Err(Refusal::SliceLength));
            assert_eq!(b.cgb, before);
        }
    }
}

/// "Object DMA runs, to arbitration too, from the write until 160 are counted"; arbitration of document 01 keeps that it transferred, so
/// one M-cycle more is contended, in which object DMA rests and the bus call still deposits.
#[test]
fn contention_reaches_one_m_cycle_past_the_160th() {
    let mut b = Bench::new(false);
    b.write(0xFF55, 0x00);
    b.fall(3, 0);
    assert_eq!(b.arbitrate(), Arbitration::Clear);
    b.start(0xC0, 0);
    b.cycles(Arbitration::Clear, 159);
    let own = b.oam.clone();
    assert_eq!(b.arbitrate(), Arbitration::Contended);
    assert_eq!(b.cycle(Arbitration::Contended), Cycle::PassedOver { source: 0xC09F });
    assert_eq!(b.asked(), Ok((false, 160, 0xC0)));
    b.bus(true, false);
    b.fall(3, 0);
    assert_eq!(b.arbitrate(), Arbitration::Contended);
    assert_eq!(b.cycle(Arbitration::Contended), Cycle::Nothing);
    b.bus(true, false);
    b.fall(3, 0);
    assert_eq!(b.arbitrate(), Arbitration::Clear);
    b.bus(true, false);
    // Both edges 0: the second byte of each pair (K8), at FE00h + the low byte of its source.
    let deposited = |k: usize| if k == 1 || k == 3 { b.cartridge[k] } else { own[k] };
    assert_eq!(b.oam, (0..160).map(deposited).collect::<Vec<u8>>());
    assert_eq!(b.vram[..6], b.cartridge[..6]);
}

/// Hold and suspended are as in the other form: with neither, arbitration is clear and a bus call does nothing.
#[test]
fn hold_and_suspension() {
    for (hold, suspended, held) in [(false, false, false), (true, false, true), (false, true, true), (true, true, true)]
    {
        for runs in [false, true] {
            let mut b = Bench::new(false);
            if runs {
                b.start(0xC0, 0);
            }
            b.write(0xFF55, 0x00);
            b.fall(3, 0);
            let mut other = b.cgb.clone();
            let answer = b.cgb.vram_dma_arbitrate_inside(hold, suspended);
            let met = if runs && held { Arbitration::Contended } else { Arbitration::Clear };
            assert_eq!(answer, Ok(met));
            assert_eq!(other.vram_dma_arbitrate_oam(hold, suspended, runs), answer);
            assert_eq!(b.cgb, other);
            let moved = b.bus(hold, suspended).pairs.into_iter().flatten().count();
            assert_eq!(moved, if held { 2 } else { 0 });
        }
    }
}

/// K8, the start edge from inside: it stays after the run's end, and is 0 where FF46 was never written. A write between arbitration and
/// bus call leaves that the two met.
#[test]
fn the_start_edge() {
    for (block, started, second) in
        [(100, Some(98), true), (100, Some(92), true), (100, Some(96), false), (100, Some(94), false), (0, None, true)]
    {
        for cycles in [0, 160] {
            let mut b = Bench::with_block(block);
            assert_eq!(b.cgb.vram_dma_arbitrate_oam(true, false, true), Ok(Arbitration::Contended));
            if let Some(edge) = started {
                b.start(0xC0, !edge);
                b.start(0xC0, edge);
                b.cycles(Arbitration::Contended, cycles);
            }
            assert_eq!(b.bus(true, false).pairs.into_iter().flatten().count(), 2);
            let mut expected = vec![BEFORE; OAM_BYTES];
            expected[usize::from(second)] = b.cartridge[usize::from(second)];
            assert_eq!(b.oam, expected, "block edge {block}, start edge {started:?}");
        }
    }
}

/// K6's cut at double speed: while the escape is owed and object DMA runs arbitration stalls it, and its byte comes an M-cycle later. The
/// blackout runs meanwhile: the M-cycle call looks at neither.
#[test]
fn a_stall() {
    for runs in [false, true] {
        let mut b = Bench::new(false);
        b.write(0xFF55, 0x81);
        for mode in [3, 0, 0, 0] {
            b.fall(mode, 0);
        }
        assert!(b.bus(true, false).set_up_cell);
        b.fall(0, 0);
        b.bus(true, false);
        b.write(0xFF4D, 0x01);
        assert_eq!(b.cgb.attempt_speed_switch(SwitchInputs::default()), Ok(CutOutcome::Cut));
        if runs {
            b.start(0xC0, 0);
        }
        b.fall(3, 0);
        assert_eq!(b.arbitrate(), if runs { Arbitration::Stall } else { Arbitration::Clear });
        assert_eq!(b.cycle(Arbitration::Stall), Cycle::Nothing);
        assert_eq!(b.bus(true, false).pairs.into_iter().flatten().count(), 1);
        b.fall(3, 0);
        assert_eq!((b.arbitrate(), b.cgb.speed_switch_in_progress()), (Arbitration::Clear, Ok(true)));
        let moved = if runs { Cycle::Moved { source: 0xC000, byte: b.wram[0] } } else { Cycle::Nothing };
        assert_eq!(b.cycle(Arbitration::Clear), moved);
    }
}
