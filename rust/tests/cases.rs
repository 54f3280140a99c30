//! Document 01's cases by its numbers, through the wrapper: what it holds by hand of the layouts must be the library's.
use cgb_vram_dma::{
    Arbitration, CARTRIDGE_BYTES, Cgb, CutOutcome, Fall, Memory, Moved, OAM_BYTES, Pair, Refusal, Status, SwitchInputs,
    VRAM_BYTES, WRAM_BYTES,
};

struct Bench {
    cgb: Cgb,
    cartridge: Vec<u8>,
    wram: Vec<u8>,
    vram: Vec<u8>,
    oam: Vec<u8>,
}

impl Bench {
    fn new(compat: bool) -> Self {
        Self {
            cgb: Cgb::power_on(compat),
            cartridge: (0..CARTRIDGE_BYTES).map(|i| (i * 7 + 5) as u8).collect(),
            wram: vec![0; WRAM_BYTES],
            vram: vec![0; VRAM_BYTES],
            oam: vec![0; OAM_BYTES],
        }
    }
    fn write(&mut self, address: u16, value: u8) {
        self.cgb.write(&mut self.wram, address, value, true).unwrap();
    }
    fn destination(&mut self, address: u16) {
        self.write(0xFF53, (address >> 8) as u8);
        self.write(0xFF54, address as u8);
    }
    fn ff55(&mut self) -> u8 {
        self.cgb.read(&mut self.wram, 0xFF55).unwrap()
    }
    fn fall(&mut self, mode: u8) {
        self.cgb.vram_dma_fall_edge(Fall { mode, ..Fall::default() }).unwrap();
    }
    fn bus(&mut self) -> Moved {
        let Self { cgb, cartridge, wram, vram, oam } = self;
        cgb.vram_dma_commit_bytes(Memory { cartridge, wram, vram, oam }, true, false, 0).unwrap()
    }
    /// Falls and held bus calls until nothing is under way.
    fn run(&mut self) -> Vec<Pair> {
        let mut pairs = Vec::new();
        while self.cgb.vram_dma_status().unwrap() != Status::Idle {
            self.fall(3);
            pairs.extend(self.bus().pairs.into_iter().flatten().map(|(pair, _)| pair));
        }
        pairs
    }
    fn switch(&mut self, dot_phase: Option<u8>) -> CutOutcome {
        self.write(0xFF4D, 0x01);
        self.cgb.attempt_speed_switch(SwitchInputs { dot_phase, ..SwitchInputs::default() }).unwrap()
    }
    /// Whether the blackout lasts exactly this long; it is over then.
    fn lasts(&mut self, edges: u32) -> bool {
        let early = self.cgb.clone().drain_speed_switch_blackout(edges - 1).unwrap();
        let due = self.cgb.drain_speed_switch_blackout(edges).unwrap();
        !early && due && !self.cgb.speed_switch_in_progress().unwrap()
    }
}

#[test]
fn k1_general() {
    let mut b = Bench::new(false);
    b.write(0xFF55, 0x00);
    assert_eq!(b.cgb.vram_dma_status(), Ok(Status::General { left: 16 }));
    assert_eq!(b.cgb.vram_dma_holds_cpu(), Ok(true));
    let pairs: Vec<(u16, u16)> = b.run().into_iter().map(|pair| (pair.source, pair.destination)).collect();
    assert_eq!(pairs, (0..16).map(|i| (i, 0x8000 + i)).collect::<Vec<(u16, u16)>>());
    assert_eq!(b.ff55(), 0xFF);
    assert_eq!(b.vram[..16], b.cartridge[..16]);
}

#[test]
fn k2_hblank_and_k6_cut() {
    for (value, cut) in [(0x80, false), (0x81, true)] {
        let mut b = Bench::new(false);
        b.write(0xFF55, value);
        b.fall(3);
        b.fall(0);
        if !cut {
            assert_eq!(b.ff55(), 0x00);
        }
        b.fall(0);
        if !cut {
            assert_eq!(b.ff55(), 0xFF);
        }
        b.fall(0);
        let first = b.bus();
        assert_eq!((first.pairs, first.set_up_cell), ([None, None], true));
        b.fall(0);
        let second = b.bus();
        assert_eq!(second.pairs.into_iter().flatten().count(), 2);
        assert!(!second.set_up_cell);
        if cut {
            assert_eq!(b.switch(None), CutOutcome::Cut);
            assert_eq!(b.cgb.tally().map(|t| (t.left, t.escape_owed)), Ok((30, true)));
            b.fall(0);
            assert_eq!(b.bus().pairs.into_iter().flatten().count(), 1);
            assert_eq!(b.cgb.tally().map(|t| (t.left, t.escape_owed)), Ok((30, false)));
            assert_eq!(b.ff55(), 0x80);
        }
    }
}

/// K2 by the state's fields: "a pend stands", and a commit "sets block 16 and raises granted".
#[test]
fn k2_by_the_fields() {
    let mut b = Bench::new(false);
    b.write(0xFF55, 0x80);
    b.fall(3);
    assert!(!b.cgb.state().vram_dma.arb.pend);
    b.fall(0);
    let pends = b.cgb.state().vram_dma;
    assert_eq!((pends.arb.pend, pends.block.remaining, pends.arb.granted_ahead), (true, 0, 0));
    assert!(b.cgb.vram_dma_fall_edge(Fall { edge: 1234, ..Fall::default() }).unwrap().committed);
    let commits = b.cgb.state().vram_dma;
    assert_eq!((commits.arb.pend, commits.block.remaining, commits.arb.granted_ahead), (false, 16, 1));
    assert_eq!((commits.block.start_edge, commits.block.setup_cells, commits.cursor.remaining), (1234, 1, 16));
}

/// "left = ((v mod 128) + 1) × 16 .. Bit 7 set arms HBlank"; "Bit 7 clear while armed only disarms, storing left".
#[test]
fn k3_by_the_changes() {
    let mut b = Bench::new(false);
    let before = b.cgb.clone();
    b.write(0xFF55, 0x83);
    let armed = b.cgb.clone();
    let lines = "vram_dma.cursor.mode: Idle -> HBlank\nvram_dma.cursor.remaining: 0 -> 64\n\
                 vram_dma.arb.armed_this_fall: false -> true\n";
    assert_eq!(armed.changes_since(&before).to_string(), lines);
    b.write(0xFF55, 0x00);
    let lines = "vram_dma.cursor.mode: HBlank -> Idle\nvram_dma.cursor.remaining: 64 -> 16\n";
    assert_eq!(b.cgb.changes_since(&armed).to_string(), lines);
}

#[test]
fn k3_cancel() {
    let mut b = Bench::new(false);
    b.write(0xFF55, 0x83);
    b.write(0xFF55, 0x00);
    assert_eq!(b.ff55(), 0x80);
}

#[test]
fn k4_carry_and_k5_wrap() {
    let mut b = Bench::new(false);
    b.destination(0xFFF0);
    b.write(0xFF55, 0x01);
    assert_eq!(b.run().len(), 16);
    assert_eq!(b.cgb.tally().map(|t| (t.destination_register, t.left)), Ok((0, 0)));
    let mut b = Bench::new(false);
    b.destination(0x9FF0);
    b.write(0xFF55, 0x01);
    let pairs = b.run();
    assert_eq!((pairs.len(), pairs[16].destination), (32, 0x8000));
    // The register runs on: it is no address in VRAM.
    assert_eq!(b.cgb.tally().map(|t| t.destination_register), Ok(0xA010));
}

#[test]
fn k7_blackouts() {
    let mut b = Bench::new(false);
    for (phase, double, edges) in [(Some(3), true, 131_077), (None, false, 262_144), (Some(3), true, 131_079)] {
        b.switch(phase);
        assert_eq!(b.cgb.double_speed(), Ok(double));
        assert!(b.lasts(edges), "{edges}");
    }
}

/// Where the block commits at edge 100, OAM DMA's edge decides which of the two bytes is deposited.
#[test]
fn k8_deposits() {
    for (block, oam, second) in [(100, 98, true), (100, 92, true), (100, 96, false), (100, 94, false), (0, 0, true)] {
        let mut b = Bench::new(false);
        b.write(0xFF55, 0x80);
        b.fall(3);
        let hblank = Fall { edge: block, ..Fall::default() };
        let claims: Vec<bool> = (0..3).map(|_| b.cgb.vram_dma_fall_edge(hblank).unwrap().committed).collect();
        assert_eq!(claims, [false, true, false]);
        assert!(b.bus().set_up_cell);
        b.cgb.vram_dma_fall_edge(hblank).unwrap();
        assert_eq!(b.cgb.vram_dma_arbitrate_oam(true, false, true), Ok(Arbitration::Contended));
        let Bench { cgb, cartridge, wram, vram, oam: memory } = &mut b;
        let lent = Memory { cartridge, wram, vram, oam: memory };
        assert_eq!(cgb.vram_dma_commit_bytes(lent, true, false, oam).unwrap().pairs.into_iter().flatten().count(), 2);
        let mut expected = vec![0; OAM_BYTES];
        let source = usize::from(second);
        expected[source] = b.cartridge[source];
        assert_eq!(b.oam, expected, "block edge {block}, OAM edge {oam}");
    }
}

/// Rounds of six falls, the CPU halted in the second to the fourth: the fifth fall of round 256 is refused with 14.
#[test]
fn k9_granted_overflows() {
    let mut b = Bench::new(false);
    b.write(0xFF55, 0xFF);
    let falls = [(false, 3), (true, 3), (true, 3), (true, 0), (false, 0), (false, 0)];
    let mut fall = |k: usize| {
        let (halted, mode) = falls[k % 6];
        b.cgb.vram_dma_fall_edge(Fall { mode, halted, ..Fall::default() })
    };
    let first = (0..257 * 6).find_map(|k| fall(k).err().map(|refusal| (k / 6 + 1, k % 6 + 1, refusal)));
    assert_eq!(first, Some((256, 5, Refusal::GrantedFull)));
}

#[test]
fn k10_compat() {
    let mut b = Bench::new(true);
    b.write(0xFF55, 0x00);
    assert_eq!(b.ff55(), 0xFF);
}

#[test]
fn refusals_have_the_paper_s_numbers_and_change_nothing() {
    let mut b = Bench::new(false);
    let before = b.cgb.clone();
    let switch = |dot_phase, hold| SwitchInputs { dot_phase, hold, ..SwitchInputs::default() };
    assert_eq!(b.cgb.vram_dma_fall_edge(Fall { mode: 4, ..Fall::default() }), Err(Refusal::ModeAbove3));
    for length in [WRAM_BYTES - 1, WRAM_BYTES + 1] {
        assert_eq!(b.cgb.read(&mut vec![0; length], 0xFF55), Err(Refusal::SliceLength));
    }
    assert_eq!(b.cgb.attempt_speed_switch(switch(Some(5), false)), Err(Refusal::DotPhaseAbove4));
    assert_eq!(b.cgb.read(&mut b.wram, 0xFF68), Err(Refusal::AddressNotInMap));
    assert_eq!(b.cgb.attempt_speed_switch(switch(None, true)), Err(Refusal::SwitchUnderHold));
    assert_eq!(b.cgb.attempt_speed_switch(switch(None, false)), Err(Refusal::SpeedNotArmed));
    assert_eq!(b.cgb, before);
    b.switch(None);
    assert_eq!(b.cgb.attempt_speed_switch(switch(None, false)), Err(Refusal::BlackoutRunning));
    assert_eq!(Cgb::from_bytes([0xFF; Cgb::BYTES]).tally(), Err(Refusal::NoState));
}

/// "dot phase 0 to 3 or 4 for none": none is `None` here, so 4 is refused like any other, and after 7.
#[test]
fn a_phase_that_is_none_of_0_to_3_is_refused() {
    let mut b = Bench::new(false);
    b.write(0xFF4D, 0x01);
    let before = b.cgb.clone();
    let at = |dot_phase| SwitchInputs { dot_phase: Some(dot_phase), ..SwitchInputs::default() };
    for phase in 4..=255 {
        assert_eq!(b.cgb.attempt_speed_switch(at(phase)), Err(Refusal::DotPhaseAbove4), "{phase}");
        assert_eq!(b.cgb, before);
    }
    for phase in 0..=3 {
        assert_eq!(before.clone().attempt_speed_switch(at(phase)), Ok(CutOutcome::None), "{phase}");
    }
    // A quota of 3 is of no run.
    let mut bytes = *before.bytes();
    bytes[7] = 3;
    assert_eq!(Cgb::from_bytes(bytes).attempt_speed_switch(at(4)), Err(Refusal::NoState));
}

/// Document 01, "Declined by input" and "Declined by state"; document 02, A1.
#[test]
fn a_refusal_says_its_number() {
    let numbers: Vec<u8> = Refusal::NAMED.iter().map(|refusal| refusal.number()).collect();
    assert_eq!(numbers, [1, 2, 3, 4, 5, 6, 7, 11, 12, 13, 14, 21]);
    assert_eq!(Refusal::of(0), None);
    for number in 1..=255 {
        let refusal = Refusal::of(number).unwrap();
        assert_eq!(refusal.number(), number);
        assert_eq!(Refusal::NAMED.contains(&refusal), numbers.contains(&number));
        assert!(refusal.to_string().starts_with(&format!("refused with {number}: ")), "{refusal}");
    }
    assert_eq!(Refusal::SpeedNotArmed.to_string(), "refused with 12: a switch while KEY1 is not armed");
}
