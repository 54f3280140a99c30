//! The estimate, by the sentences of document 02's A5: its numbers, each written here by hand, and runs that count them. A
//! run is rounds of one accepted fall and one accepted bus call that holds the bus, from the write to FF55 until nothing
//! is left.
use Cause::{Carried, CountedOut, GoingOn};
use cgb_vram_dma::{
    CARTRIDGE_BYTES, Cause, Cgb, CutOutcome, Fall, Memory, Moved, OAM_BYTES, Status, SwitchInputs, VRAM_BYTES,
    WRAM_BYTES, entry, estimate,
};

/// What the papers give of a value for FF55 and a destination register.
#[derive(Clone, Copy, Debug)]
struct Transfer {
    value: u8,
    destination: u16,
    bytes: u16,
    single: u16,
    double: u16,
    last: Cause,
}

impl Transfer {
    /// Whether at double speed, and the M-cycles.
    fn speeds(self) -> [(bool, u16); 2] {
        [(false, self.single), (true, self.double)]
    }
}

/// Value, destination, bytes, M-cycles at single speed and at double, and how the last pair ends it.
const fn to(value: u8, destination: u16, bytes: u16, single: u16, double: u16, last: Cause) -> Transfer {
    Transfer { value, destination, bytes, single, double, last }
}

const TRANSFERS: [Transfer; 13] = [
    to(0x00, 0x0000, 16, 8, 16, CountedOut),  // K1
    to(0x01, 0xFFF0, 16, 8, 16, Carried),     // K4: "was quoted at 16 M-cycles and ran 8"
    to(0x01, 0x9FF0, 32, 16, 32, CountedOut), // K5: VRAM's end is no carry
    to(0x00, 0xFFF0, 16, 8, 16, Carried),     // both are 16
    to(0x00, 0xFFEF, 16, 8, 16, CountedOut),  // 17 have room
    to(0x00, 0xFFF1, 15, 8, 15, Carried),
    to(0x00, 0xFFFD, 3, 2, 3, Carried), // "half of that, rounded up"
    to(0x00, 0xFFFE, 2, 1, 2, Carried),
    to(0x00, 0xFFFF, 1, 1, 1, Carried),
    to(0x7F, 0xFFFF, 1, 1, 1, Carried),
    to(0x7F, 0x0000, 2048, 1024, 2048, CountedOut),
    to(0x7F, 0xF800, 2048, 1024, 2048, Carried),
    to(0x7F, 0xF801, 2047, 1024, 2047, Carried),
];

/// The ways of a bus call that holds the bus.
#[derive(Clone, Copy, Debug)]
enum Way {
    Held,
    Suspended,
    HeldInside,
    SuspendedInside,
}
const WAYS: [Way; 4] = [Way::Held, Way::Suspended, Way::HeldInside, Way::SuspendedInside];

const fn running(mode: u8) -> Fall {
    Fall { mode, halted: false, interrupt_latched: false, stopped: false, oam_dma: false, edge: 0 }
}

struct Bench {
    cgb: Cgb,
    cartridge: Vec<u8>,
    wram: Vec<u8>,
    vram: Vec<u8>,
    oam: Vec<u8>,
}

/// What a run counts.
#[derive(Debug, PartialEq)]
struct Counted {
    bus_calls: u16,
    pairs: u16,
    last: Option<Cause>,
}

impl Bench {
    fn new() -> Self {
        Self {
            cgb: Cgb::power_on(false),
            cartridge: (0..CARTRIDGE_BYTES).map(|i| (i * 7 + i / 256 * 3 + 5) as u8).collect(),
            wram: vec![0; WRAM_BYTES],
            vram: vec![0; VRAM_BYTES],
            oam: vec![0; OAM_BYTES],
        }
    }
    /// This destination register and speed, from power-on. FF54 drops the low four bits: where they are not 0, rounds of
    /// fall and next pair bring the register there.
    fn at(destination: u16, double_speed: bool) -> Self {
        let mut b = Self::new();
        b.write(0xFF53, (destination >> 8) as u8);
        b.write(0xFF54, destination as u8);
        if destination % 16 != 0 {
            b.write(0xFF55, 0x00);
        }
        for _ in 0..destination % 16 {
            b.fall(running(3));
            assert_eq!(b.cgb.next_byte().unwrap().map(|pair| pair.cause), Some(GoingOn));
        }
        if double_speed {
            assert_eq!(b.switch(), CutOutcome::None);
        }
        let tally = b.cgb.tally().unwrap();
        assert_eq!((tally.destination_register, tally.escape_owed), (destination, false));
        assert_eq!(b.cgb.double_speed(), Ok(double_speed));
        b
    }
    fn write(&mut self, address: u16, value: u8) {
        self.cgb.write(&mut self.wram, address, value, true).unwrap();
    }
    /// K2: the first block is ready, and its set-up cell stands.
    fn with_block(ff55: u8) -> Self {
        let mut b = Self::new();
        b.write(0xFF55, ff55);
        for mode in [3, 0, 0, 0] {
            b.fall(running(mode));
        }
        b
    }
    fn fall(&mut self, fall: Fall) {
        self.cgb.vram_dma_fall_edge(fall).unwrap();
    }
    /// Unheld, without a phase or an interrupt.
    fn switch(&mut self) -> CutOutcome {
        self.write(0xFF4D, 0x01);
        self.cgb.attempt_speed_switch(SwitchInputs::default()).unwrap()
    }
    fn bus(&mut self, way: Way) -> Moved {
        let Self { cgb, cartridge, wram, vram, oam } = self;
        let memory = Memory { cartridge, wram, vram, oam };
        match way {
            Way::Held => cgb.vram_dma_commit_bytes(memory, true, false, 0).unwrap(),
            Way::Suspended => cgb.vram_dma_commit_bytes(memory, false, true, 0).unwrap(),
            Way::HeldInside => cgb.vram_dma_commit_bytes_inside(memory, true, false).unwrap(),
            Way::SuspendedInside => cgb.vram_dma_commit_bytes_inside(memory, false, true).unwrap(),
        }
    }
    /// What a driver with object DMA has in front of a bus call (docs/DRIVING.md): queries, a retired instruction,
    /// arbitration, and object DMA's M-cycle with its answer.
    fn asks(&mut self) {
        assert_eq!(self.cgb.vram_dma_holds_cpu(), Ok(true));
        self.cgb.vram_dma_seizes_bus().unwrap();
        self.cgb.vram_dma_park_waits_for_fetch().unwrap();
        self.cgb.vram_dma_instruction_retired().unwrap();
        let arbitration = self.cgb.vram_dma_arbitrate_inside(true, false).unwrap();
        let Self { cgb, cartridge, wram, vram, oam } = self;
        cgb.object_dma_m_cycle(arbitration, Memory { cartridge, wram, vram, oam }).unwrap();
    }
    fn left(&self) -> u16 {
        self.cgb.tally().unwrap().left
    }
    fn count(&mut self, falls: &[Fall], way: Way) -> Counted {
        self.count_with(falls, |_| (), way)
    }
    /// Rounds of these falls, what comes between, and one bus call, until nothing is left. The pairs come in order,
    /// source and destination each one up, and each moves the byte that stands at its source.
    fn count_with(&mut self, falls: &[Fall], between: fn(&mut Self), way: Way) -> Counted {
        let start = self.cgb.tally().unwrap();
        let mut counted = Counted { bus_calls: 0, pairs: 0, last: None };
        while self.left() > 0 {
            assert!(counted.bus_calls < 4096, "no end");
            assert_eq!(self.cgb.vram_dma_status(), Ok(Status::General { left: self.left() }));
            falls.iter().for_each(|fall| self.fall(*fall));
            between(self);
            let moved = self.bus(way);
            counted.bus_calls += 1;
            for (pair, byte) in moved.pairs.into_iter().flatten() {
                let source = start.source + counted.pairs;
                let index = start.destination_register.wrapping_add(counted.pairs) % 0x2000;
                assert_eq!((pair.source, pair.destination), (source, 0x8000 + index));
                assert_eq!(byte, self.cartridge[usize::from(source)]);
                assert_eq!(byte, self.vram[usize::from(index)]);
                counted.pairs += 1;
                counted.last = Some(pair.cause);
            }
        }
        assert_eq!(self.cgb.vram_dma_status(), Ok(Status::Idle));
        counted
    }
}

#[test]
fn the_papers_numbers() {
    for transfer in TRANSFERS {
        let Transfer { value, destination, bytes, .. } = transfer;
        for (double_speed, m_cycles) in transfer.speeds() {
            // bit 7 is not looked at
            for value in [value, value + 0x80] {
                let said = estimate(value, destination, double_speed);
                assert_eq!((said.bytes, said.m_cycles), (bytes, m_cycles), "{transfer:?}");
                assert_eq!(entry::estimate_bytes(value, destination), bytes);
                assert_eq!(entry::estimate_m_cycles(value, destination, double_speed), m_cycles);
            }
        }
    }
}

/// At FFFFh one byte, whatever the value; with room for all of them 16 a block.
#[test]
fn every_value() {
    let (mut bytes, mut single) = (0, 0);
    for value in 0x00..=0x7F {
        (bytes, single) = (bytes + 16, single + 8);
        for value in [value, value + 0x80] {
            for (double_speed, m_cycles) in [(false, single), (true, bytes)] {
                let last = estimate(value, 0xFFFF, double_speed);
                assert_eq!((last.bytes, last.m_cycles), (1, 1));
                for destination in [0x0000, 0x8000, 0x9FF0, 0xF800] {
                    let whole = estimate(value, destination, double_speed);
                    assert_eq!((whole.bytes, whole.m_cycles), (bytes, m_cycles));
                }
            }
        }
    }
}

/// Pairs and bus calls by document 01, byte by byte: "Each pair takes 1 from quota, 1 from left"; "Destination leaving FFFFh
/// becomes 0 and left becomes 0"; quota is "2 at single speed, 1 at double".
fn by_document_01(value: u8, destination: u16, double_speed: bool) -> (u16, u16) {
    let (mut left, mut destination) = ((u16::from(value) + 1) * 16, destination);
    let (mut pairs, mut bus_calls) = (0, 0);
    while left > 0 {
        bus_calls += 1;
        let mut quota = if double_speed { 1 } else { 2 };
        while quota > 0 && left > 0 {
            pairs += 1;
            quota -= 1;
            left = if destination == 0xFFFF { 0 } else { left - 1 };
            destination = destination.wrapping_add(1);
        }
    }
    (pairs, bus_calls)
}

/// Where the lengths meet the end: 2,080 bytes in front of it, and fewer.
#[test]
fn as_document_01_counts() {
    for destination in (0xF7E0..=0xFFFF).step_by(3) {
        for value in (0x00..=0x7F).step_by(5) {
            for double_speed in [false, true] {
                let said = estimate(value, destination, double_speed);
                let counted = by_document_01(value, destination, double_speed);
                assert_eq!((said.bytes, said.m_cycles), counted, "{value:02X}, {destination:04X}, {double_speed}");
            }
        }
    }
}

/// "that transfer takes exactly so many accepted bus calls that hold the bus, each directly after an accepted fall".
#[test]
fn runs_take_as_many() {
    for transfer in TRANSFERS {
        for (double_speed, m_cycles) in transfer.speeds() {
            for way in WAYS {
                let mut b = Bench::at(transfer.destination, double_speed);
                b.write(0xFF55, transfer.value);
                let expected = Counted { bus_calls: m_cycles, pairs: transfer.bytes, last: Some(transfer.last) };
                assert_eq!(b.count(&[running(3)], way), expected, "{transfer:?}, {way:?}");
                b.fall(running(3));
                assert_eq!(b.bus(way).pairs, [None, None]);
            }
        }
    }
}

/// A fall for each dot, as a driver has them: a fall sets the quota anew, and adds nothing to it.
#[test]
fn with_a_fall_for_each_dot() {
    for transfer in TRANSFERS {
        for (double_speed, m_cycles) in transfer.speeds() {
            let mut b = Bench::at(transfer.destination, double_speed);
            b.write(0xFF55, transfer.value);
            let dots = if double_speed { 2 } else { 4 };
            let counted = b.count(&[running(3); 4][..dots], Way::Held);
            assert_eq!((counted.bus_calls, counted.pairs), (m_cycles, transfer.bytes), "{transfer:?}");
        }
    }
}

/// And with all else that he has in front of a bus call, object DMA at work beside it: no part of the theorem.
#[test]
fn with_what_a_driver_asks() {
    for transfer in TRANSFERS {
        for (double_speed, m_cycles) in transfer.speeds() {
            for way in WAYS {
                let mut b = Bench::at(transfer.destination, double_speed);
                b.cgb.start_object_dma(&mut b.wram, 0xC0, 0).unwrap();
                b.write(0xFF55, transfer.value);
                let dots = if double_speed { 2 } else { 4 };
                let counted = b.count_with(&[running(3); 4][..dots], Bench::asks, way);
                assert_eq!((counted.bus_calls, counted.pairs), (m_cycles, transfer.bytes), "{transfer:?}, {way:?}");
            }
        }
    }
}

/// "an accepted fall", whatever it sees: a gated one fills up the quota too.
#[test]
fn whatever_the_fall_sees() {
    let halted = Fall { halted: true, ..running(0) };
    let falls = [
        running(0),
        running(1),
        running(2),
        halted,
        Fall { interrupt_latched: true, ..halted },
        Fall { stopped: true, ..running(0) },
        Fall { oam_dma: true, edge: u64::MAX, ..running(0) },
    ];
    for fall in falls {
        for transfer in TRANSFERS {
            for (double_speed, m_cycles) in transfer.speeds() {
                let mut b = Bench::at(transfer.destination, double_speed);
                b.write(0xFF55, transfer.value);
                let counted = b.count(&[fall], Way::Held);
                assert_eq!((counted.bus_calls, counted.pairs), (m_cycles, transfer.bytes), "{transfer:?}, {fall:?}");
            }
        }
    }
}

/// Why "without a set-up cell": one that stands uses up the first bus call. No bus call has come since the commit.
#[test]
fn a_set_up_cell_takes_one_bus_call_more() {
    let mut b = Bench::with_block(0x80);
    b.write(0xFF55, 0x00); // a cancel
    b.write(0xFF55, 0x00);
    let said = estimate(0x00, 0x0000, false);
    let counted = b.count(&[running(3)], Way::Held);
    assert_eq!((said.m_cycles, counted.bus_calls), (8, 9));
    assert_eq!((said.bytes, counted.pairs), (16, 16));
}

/// Why "with no escape owed": the byte of a cut comes in front of the transfer's own.
#[test]
fn an_escape_is_one_byte_more() {
    let mut b = Bench::with_block(0x81);
    assert!(b.bus(Way::Held).set_up_cell);
    assert_eq!(b.switch(), CutOutcome::Cut);
    assert!(b.cgb.tally().unwrap().escape_owed);
    b.write(0xFF55, 0x00);
    let said = estimate(0x00, 0x0000, true);
    let counted = b.count(&[running(3)], Way::Held);
    assert_eq!((said.m_cycles, counted.bus_calls), (16, 17));
    assert_eq!((said.bytes, counted.pairs), (16, 17));
}

/// At single speed too: the cut's block is in the way of a switch downward (13) until another, not yet ready, stands in its
/// place.
#[test]
fn an_escape_is_one_m_cycle_more_at_single_speed() {
    let mut b = Bench::with_block(0x81);
    assert!(b.bus(Way::Held).set_up_cell);
    assert_eq!(b.switch(), CutOutcome::Cut);
    assert_eq!(b.cgb.drain_speed_switch_blackout(u32::MAX), Ok(true));
    b.cgb.write(&mut b.wram, 0xFF55, 0x80, false).unwrap();
    assert_eq!(b.switch(), CutOutcome::None);
    b.write(0xFF55, 0x00); // a cancel
    b.write(0xFF55, 0x00);
    assert_eq!(b.cgb.double_speed(), Ok(false));
    assert!(b.cgb.tally().unwrap().escape_owed);
    let said = estimate(0x00, 0x0000, false);
    let counted = b.count(&[running(3)], Way::Held);
    assert_eq!((said.m_cycles, counted.bus_calls), (8, 9));
    assert_eq!((said.bytes, counted.pairs), (16, 17));
}
