//! A pair's cause, by the sentence of document 02's A3: "one of going on, counted out (left fell to 0), or carried (past FFFFh), this also
//! where left would have reached 0 anyway. Bus call, escape drain and replay pass it on, each pair with its own". The numbers are
//! those of document 01's cases.
use Cause::{Carried, CountedOut, GoingOn};
use cgb_vram_dma::{
    CARTRIDGE_BYTES, Cause, Cgb, CutOutcome, Fall, Memory, Moved, OAM_BYTES, Pair, Refusal, SwitchInputs, VRAM_BYTES,
    WRAM_BYTES,
};

/// How pairs are taken.
#[derive(Clone, Copy, Debug, PartialEq)]
enum Way {
    NextPair,
    Bus,
    BusInside,
    Drain,
}
/// Those that bring every pair; a drain brings a free pair alone.
const WAYS: [Way; 3] = [Way::NextPair, Way::Bus, Way::BusInside];
const FREE_WAYS: [Way; 4] = [Way::NextPair, Way::Bus, Way::BusInside, Way::Drain];

#[derive(Clone)]
struct Bench {
    cgb: Cgb,
    cartridge: Vec<u8>,
    wram: Vec<u8>,
    vram: Vec<u8>,
    oam: Vec<u8>,
}

impl Bench {
    /// These FF53 and FF54, then this FF55.
    fn with(destination: u16, ff55: u8) -> Self {
        let mut b = Self {
            cgb: Cgb::power_on(false),
            cartridge: vec![7; CARTRIDGE_BYTES],
            wram: vec![0; WRAM_BYTES],
            vram: vec![0; VRAM_BYTES],
            oam: vec![0; OAM_BYTES],
        };
        b.write(0xFF53, (destination >> 8) as u8);
        b.write(0xFF54, destination as u8);
        b.write(0xFF55, ff55);
        b
    }
    /// K2: the first block is ready, and its set-up cell used.
    fn with_block(destination: u16, ff55: u8) -> Self {
        let mut b = Self::with(destination, ff55);
        for mode in [3, 0, 0, 0] {
            b.fall(mode);
        }
        let first = b.bus(false).unwrap();
        assert_eq!((first.pairs, first.set_up_cell), ([None, None], true));
        b
    }
    /// K6: so many pairs of the block, then the cut, and a fall.
    fn cut(destination: u16, ff55: u8, pairs: usize) -> Self {
        let mut b = Self::with_block(destination, ff55);
        assert_eq!(b.singly(0, pairs), vec![GoingOn; pairs]);
        b.write(0xFF4D, 0x01);
        assert_eq!(b.cgb.attempt_speed_switch(SwitchInputs::default()), Ok(CutOutcome::Cut));
        b.fall(0);
        b
    }
    fn write(&mut self, address: u16, value: u8) {
        self.cgb.write(&mut self.wram, address, value, true).unwrap();
    }
    fn fall(&mut self, mode: u8) {
        self.cgb.vram_dma_fall_edge(Fall { mode, ..Fall::default() }).unwrap();
    }
    fn bus(&mut self, inside: bool) -> Result<Moved, Refusal> {
        let Self { cgb, cartridge, wram, vram, oam } = self;
        let memory = Memory { cartridge, wram, vram, oam };
        if inside {
            cgb.vram_dma_commit_bytes_inside(memory, true, false)
        } else {
            cgb.vram_dma_commit_bytes(memory, true, false, 0)
        }
    }
    /// What comes of the last fall's quota.
    fn taken(&mut self, way: Way) -> Vec<Pair> {
        match way {
            Way::NextPair => std::iter::from_fn(|| self.cgb.next_byte().unwrap()).collect(),
            Way::Bus | Way::BusInside => {
                let moved = self.bus(way == Way::BusInside).unwrap();
                moved.pairs.into_iter().flatten().map(|(pair, _)| pair).collect()
            }
            Way::Drain => self.cgb.vram_dma_drain_escape().unwrap().into_iter().collect(),
        }
    }
    fn causes(&mut self, way: Way) -> Vec<Cause> {
        self.taken(way).into_iter().map(|pair| pair.cause).collect()
    }
    /// Rounds of a fall and what comes of it, until a round brings nothing.
    fn rounds(&mut self, way: Way) -> Vec<Vec<Cause>> {
        let round = || {
            self.fall(3);
            Some(self.causes(way)).filter(|causes| !causes.is_empty())
        };
        std::iter::from_fn(round).collect()
    }
    /// So many falls in this mode, each with one next pair.
    fn singly(&mut self, mode: u8, pairs: usize) -> Vec<Cause> {
        let one = |_| {
            self.fall(mode);
            self.cgb.next_byte().unwrap().unwrap().cause
        };
        (0..pairs).map(one).collect()
    }
    fn left(&self) -> u16 {
        self.cgb.tally().unwrap().left
    }
}

/// So many rounds of two pairs that go on, then one whose second pair is the last.
fn two_by_two(rounds: usize, last: Cause) -> Vec<Vec<Cause>> {
    let mut all = vec![vec![GoingOn, GoingOn]; rounds - 1];
    all.push(vec![GoingOn, last]);
    all
}

/// "K1 FF55=00, eight rounds of fall and held bus": 15 go on, left fell to 0 with the 16th.
#[test]
fn k1_is_counted_out() {
    for way in WAYS {
        assert_eq!(Bench::with(0, 0x00).rounds(way), two_by_two(8, CountedOut), "{way:?}");
    }
}

/// "K4 destination FFF0h, General 01: 16 pairs, cut off 16"; and with General 00, "where left would have reached 0 anyway".
#[test]
fn k4_is_carried() {
    for way in WAYS {
        assert_eq!(Bench::with(0xFFF0, 0x01).rounds(way), two_by_two(8, Carried), "{way:?}");
        assert_eq!(Bench::with(0xFFF0, 0x00).rounds(way), two_by_two(8, Carried), "{way:?}");
    }
    for (ff55, left) in [(0x01, 17), (0x00, 1)] {
        let mut b = Bench::with(0xFFF0, ff55);
        assert_eq!(b.singly(3, 15), [GoingOn; 15]);
        assert_eq!((b.left(), b.cgb.tally().unwrap().destination_register), (left, 0xFFFF));
        assert_eq!(b.singly(3, 1), [Carried]);
        assert_eq!((b.left(), b.cgb.tally().unwrap().destination_register), (0, 0));
    }
}

/// "K5 destination 9FF0h, General 01: 32 pairs, the 17th to 8000h": VRAM's end is no carry.
#[test]
fn k5_is_counted_out() {
    for way in WAYS {
        assert_eq!(Bench::with(0x9FF0, 0x01).rounds(way), two_by_two(16, CountedOut), "{way:?}");
    }
}

/// K2 with 81: the 16th pair ends its block and not the run; the 32nd is the second block's last, and the run's.
#[test]
fn a_block_s_last_pair_goes_on() {
    let mut b = Bench::with_block(0, 0x81);
    assert_eq!(b.singly(0, 16), [GoingOn; 16]);
    assert_eq!((b.left(), b.cgb.state().vram_dma.block.remaining), (16, 0));
    for mode in [3, 0, 0] {
        b.fall(mode);
    }
    assert_eq!(b.singly(0, 15), [GoingOn; 15]);
    assert_eq!(b.singly(0, 1), [CountedOut]);
    // past FFFFh in a block
    let mut b = Bench::with_block(0xFFF0, 0x81);
    assert_eq!(b.singly(0, 15), [GoingOn; 15]);
    assert_eq!(b.singly(0, 1), [Carried]);
}

/// "K6 .. fall and bus: one free pair, left 30".
#[test]
fn k6_s_free_pair_goes_on() {
    for way in FREE_WAYS {
        let mut b = Bench::cut(0, 0x81, 2);
        let pairs: Vec<_> = b.taken(way).iter().map(|pair| (pair.source, pair.destination, pair.cause)).collect();
        assert_eq!(pairs, [(2, 0x8002, GoingOn)], "{way:?}");
        assert_eq!(b.left(), 30);
    }
}

/// A free pair takes nothing from left, so at left 1 left does not fall to 0.
#[test]
fn a_free_pair_at_left_1_goes_on() {
    for way in FREE_WAYS {
        let mut b = Bench::cut(0, 0x80, 15);
        assert_eq!(b.left(), 1);
        assert_eq!(b.causes(way), [GoingOn], "{way:?}");
        assert_eq!(b.left(), 1);
    }
}

/// "Destination leaving FFFFh becomes 0 and left becomes 0", of a free pair too.
#[test]
fn a_free_pair_carries() {
    for (ff55, left) in [(0x81, 17), (0x80, 1)] {
        for way in FREE_WAYS {
            let mut b = Bench::cut(0xFFF0, ff55, 15);
            assert_eq!((b.left(), b.cgb.tally().unwrap().destination_register), (left, 0xFFFF));
            assert_eq!(b.causes(way), [Carried], "{way:?}");
            assert_eq!((b.left(), b.cgb.tally().unwrap().escape_owed), (0, false));
        }
    }
}

/// A bus call that brings one pair, which is the last: of a quota of 2 where the first pair brings left to 0, and at double speed.
#[test]
fn one_pair_alone() {
    for (destination, last) in [(0, CountedOut), (0xFFF0, Carried)] {
        for way in WAYS {
            let mut b = Bench::with(destination, 0x00);
            assert_eq!(b.singly(3, 15), [GoingOn; 15]);
            b.fall(3);
            assert_eq!(b.cgb.state().vram_dma.cursor.quota, 2);
            assert_eq!(b.causes(way), [last], "{way:?}");
            let mut b = Bench::with(destination, 0x00);
            b.write(0xFF4D, 0x01);
            assert_eq!(b.cgb.attempt_speed_switch(SwitchInputs::default()), Ok(CutOutcome::None));
            let mut expected = vec![vec![GoingOn]; 15];
            expected.push(vec![last]);
            assert_eq!(b.rounds(way), expected, "{way:?}");
        }
    }
}

/// Behind a pair left is 0 exactly where its cause ends the run; then nothing comes, whatever falls follow.
#[test]
fn it_ends_exactly_where_left_is_0() {
    for (destination, ff55) in [(0, 0x00), (0, 0x7F), (0x9FF0, 0x01), (0xFFF0, 0x00), (0xFFF0, 0x7F), (0xF000, 0x7F)] {
        let mut b = Bench::with(destination, ff55);
        let mut pairs = 0;
        loop {
            b.fall(3);
            let pair = b.cgb.next_byte().unwrap().unwrap();
            pairs += 1;
            assert_eq!(pair.cause.ends(), b.left() == 0);
            if pair.cause.ends() {
                break;
            }
        }
        let length = (u32::from(ff55) + 1) * 16;
        assert_eq!(pairs, length.min(65_536 - u32::from(destination)), "{destination:04X}, {ff55:02X}");
        b.fall(3);
        assert_eq!(b.cgb.next_byte(), Ok(None));
    }
}

/// None comes without quota, without hold, or with an escape that is not owed; and of a refused call.
#[test]
fn without_a_pair() {
    let mut b = Bench::with(0, 0x00);
    assert_eq!(b.cgb.next_byte(), Ok(None));
    assert_eq!(b.cgb.vram_dma_drain_escape(), Ok(None));
    assert_eq!(b.bus(true).map(|moved| moved.pairs), Ok([None, None]));
    assert_eq!(b.singly(3, 14), [GoingOn; 14]);
    b.fall(3);
    let mut refused = b.clone();
    refused.oam.pop();
    assert_eq!(refused.bus(false), Err(Refusal::SliceLength));
    assert_eq!(refused.bus(true), Err(Refusal::SliceLength));
    let mut bytes = *b.cgb.bytes();
    bytes[7] = 3; // a quota of no run
    assert_eq!(Cgb::from_bytes(bytes).next_byte(), Err(Refusal::NoState));
    assert_eq!(Cgb::from_bytes(bytes).vram_dma_drain_escape(), Err(Refusal::NoState));
    assert_eq!(b.causes(Way::Bus), [GoingOn, CountedOut]);
}

/// "the replay line shows it as a sixth field, 0, 1 or 2": the same numbers, and the request's words.
#[test]
fn numbers_and_words() {
    for (cause, number, words, ends) in
        [(GoingOn, 0, "going on", false), (CountedOut, 1, "counted out", true), (Carried, 2, "carried", true)]
    {
        assert_eq!((cause as u8, cause.to_string().as_str(), cause.ends()), (number, words, ends));
    }
    assert_eq!(format!("{Carried:>9}."), "  carried.");
}
