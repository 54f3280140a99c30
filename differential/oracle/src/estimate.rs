//! The estimate of a General transfer (document 02, A5) beside the original, which has none: it runs the transfer from power-on to its
//! end, and its bus calls and pairs must be the M-cycles and bytes that the port tells. "that transfer takes exactly so many accepted bus
//! calls that hold the bus, each directly after an accepted fall": what this leaves open is drawn, the inputs of a fall, hold or
//! suspended, the source, the switches in front, a latched block beside the transfer.
use std::fmt;
use std::ops::RangeInclusive;

use cgb_vram_dma::entry;
use missingno_gb::ConsoleShadow;

use crate::VramDmaStatus;
use crate::layout::SIZE;
use crate::loops::Original;
use crate::random::Random;
use crate::vram_dma::TransferCursor;

/// Every value is run to these: the ends of the register, of VRAM and of its images, and where 2,048 bytes just carry.
const DESTINATIONS: [u16; 24] = [
    0x0000, 0x0001, 0x000F, 0x0010, 0x1FF0, 0x1FFF, 0x2000, 0x2001, 0x7FFF, 0x8000, 0x8001, 0x9FF0, 0x9FFF, 0xA000,
    0xDFF0, 0xE000, 0xF7FF, 0xF800, 0xF801, 0xFC00, 0xFFEF, 0xFFF0, 0xFFFE, 0xFFFF,
];
/// And to so many that are drawn from all, and as many from the last.
const DRAWN: usize = 88;
/// The last 2,100: those from which 2,048 bytes carry, and 52 in front of them.
const LAST: RangeInclusive<u16> = 0xF7CC..=0xFFFF;
/// These are run to each of the last.
const VALUES: [u8; 12] = [0x00, 0x01, 0x02, 0x03, 0x07, 0x0F, 0x1F, 0x3E, 0x3F, 0x40, 0x7E, 0x7F];

#[derive(Clone, Copy)]
struct Transfer {
    value: u8,
    destination: u16,
    double_speed: bool,
}

impl Transfer {
    fn estimate(self) -> TransferTime {
        TransferTime {
            bytes: entry::estimate_bytes(self.value, self.destination),
            m_cycles: entry::estimate_m_cycles(self.value, self.destination, self.double_speed),
        }
    }

    fn with_bit_7(self) -> Self {
        Self { value: self.value + 0x80, ..self }
    }
}

impl fmt::Display for Transfer {
    fn fmt(&self, f: &mut fmt::Formatter) -> fmt::Result {
        let speed = if self.double_speed { "double" } else { "single" };
        write!(f, "FF55 = {:02X}, destination register {:04X}, {speed} speed", self.value, self.destination)
    }
}

#[derive(Clone, Copy, Default, PartialEq)]
struct TransferTime {
    bytes: u16,
    m_cycles: u16,
}

impl fmt::Display for TransferTime {
    fn fmt(&self, f: &mut fmt::Formatter) -> fmt::Result {
        write!(f, "{} bytes in {} M-cycles", self.bytes, self.m_cycles)
    }
}

/// How a transfer ended, and with what number of bytes: each is an estimate of another sort.
#[derive(Clone, Copy)]
enum End {
    CountedOut,
    /// It carried at the last byte of the length.
    Both,
    CutOffEven,
    CutOffOdd,
}

impl End {
    /// From the length that FF55 set, the bytes that came, and the destination register after them: a carry leaves 0.
    fn of(length: u16, bytes: u16, destination: u16) -> Self {
        match (destination, bytes % 2) {
            (1.., _) => Self::CountedOut,
            _ if bytes == length => Self::Both,
            (_, 0) => Self::CutOffEven,
            _ => Self::CutOffOdd,
        }
    }
}

/// What the original showed of a transfer.
struct Seen {
    time: TransferTime,
    /// Source and destination of each pair are one up from the last one's.
    in_order: bool,
    end: End,
}

struct Console {
    original: Original,
    power_on: [u8; SIZE],
    random: Random,
    edge: u64,
}

impl Console {
    fn new() -> Self {
        let original = Original::new();
        let power_on = original.power_on();
        Self { original, power_on, random: Random::new(0), edge: 0 }
    }

    fn cursor(&self) -> &TransferCursor {
        &self.original.cgb.vram_dma.cursor
    }

    fn is_general(&self) -> bool {
        matches!(self.original.cgb.vram_dma_status(), VramDmaStatus::General { .. })
    }

    fn write(&mut self, address: u16, value: u8) {
        let Original { cgb, chassis, .. } = &mut self.original;
        assert!(cgb.map_write_byte(address, value, &mut chassis.ppu, &mut chassis.vram_bus.vram));
    }

    fn write_drawn(&mut self, address: u16) {
        let value = self.random.next() as u8;
        self.write(address, value);
    }

    /// With any inputs: none of them stops a General transfer.
    fn fall(&mut self) {
        self.edge += self.random.below(9);
        self.original.fall(self.random.next() as u8, self.edge);
    }

    /// "A bus call neither held nor suspended does nothing": this is one of the others.
    fn bus(&mut self) {
        let (hold, suspended) = self.random.pick(&[(true, false), (false, true), (true, true)]);
        self.original.bus(hold, suspended);
    }

    fn switch(&mut self) {
        self.write(0xFF4D, 0x01);
        let Original { cgb, chassis, .. } = &mut self.original;
        cgb.console_state.set_dma_cpu_hold(false);
        chassis.ppu.phase = Some(self.random.below(4) as u8);
        chassis.clock.edge = self.edge;
        assert!(cgb.attempt_speed_switch(chassis));
        assert!(cgb.drain_blackout(cgb.speed_switch_blackout));
    }

    /// With two switches more than it takes, or none.
    fn switch_to(&mut self, double_speed: bool) {
        let switches = u64::from(double_speed) + 2 * self.random.below(2);
        for _ in 0..switches {
            self.switch();
        }
        assert_eq!(self.original.cgb.double_speed(), double_speed);
    }

    /// With the LCD off a block is latched without a set-up cell; disarmed, it stands beside a General transfer.
    fn latch_block(&mut self) {
        self.original.chassis.ppu.control.lcd_on = false;
        self.write(0xFF55, 0x80);
        self.write(0xFF55, 0x00);
    }

    /// FF54 is written with its low four bits zero: to another destination the register runs.
    fn reach(&mut self, destination: u16) {
        let [high, low] = destination.to_be_bytes();
        self.write(0xFF53, high);
        self.write(0xFF54, low);
        if self.cursor().dest != destination {
            self.write(0xFF55, 0x00);
        }
        while self.cursor().dest != destination {
            self.fall();
            assert!(self.original.cgb.vram_dma.next_byte().is_some());
        }
    }

    /// From power-on; what is drawn comes from the seed.
    fn run(&mut self, transfer: Transfer, seed: u64) -> Seen {
        (self.random, self.edge) = (Random::new(seed), 0);
        self.original.load(&self.power_on);
        self.switch_to(transfer.double_speed);
        if self.random.flag() {
            self.latch_block();
        }
        self.write_drawn(0xFF51);
        self.write_drawn(0xFF52);
        self.reach(transfer.destination);
        self.write(0xFF55, transfer.value);
        self.finish(transfer.double_speed)
    }

    fn finish(&mut self, double_speed: bool) -> Seen {
        let &TransferCursor { source, dest, remaining: length, .. } = self.cursor();
        let (mut time, mut in_order) = (TransferTime::default(), true);
        while self.is_general() {
            self.fall();
            self.assert_conditions(double_speed);
            self.bus();
            time.m_cycles += 1;
            for &(from, to, _) in &self.original.chassis.commits {
                let lands = 0x8000 + dest.wrapping_add(time.bytes) % 0x2000;
                in_order &= (from, to) == (source.wrapping_add(time.bytes), lands);
                time.bytes += 1;
            }
        }
        assert_eq!(self.cursor().remaining, 0);
        Seen { time, in_order, end: End::of(length, time.bytes, self.cursor().dest) }
    }

    /// "With no escape owed, the speed kept, .. and status General without a set-up cell at each bus call".
    fn assert_conditions(&self, double_speed: bool) {
        let cgb = &self.original.cgb;
        assert!(!cgb.vram_dma.cursor.escape_byte && cgb.double_speed() == double_speed);
        assert!(self.is_general() && !cgb.vram_dma.block.setup_cells.active());
    }
}

struct Comparison {
    console: Console,
    transfers: u64,
    differ: u64,
    /// By speed, and by how they ended.
    ends: [[u64; 4]; 2],
}

impl Comparison {
    /// The port tells the original's numbers, and the same ones with bit 7 of the value set.
    fn hold(&mut self, transfer: Transfer) {
        self.transfers += 1;
        let seen = self.console.run(transfer, self.transfers);
        self.ends[transfer.double_speed as usize][seen.end as usize] += 1;
        let estimates = [transfer, transfer.with_bit_7()].map(Transfer::estimate);
        if estimates != [seen.time; 2] || !seen.in_order {
            self.report(transfer, &seen, estimates);
        }
    }

    fn report(&mut self, transfer: Transfer, seen: &Seen, [port, with_bit_7]: [TransferTime; 2]) {
        let order = if seen.in_order { "in order" } else { "not in order" };
        println!("differs: {transfer}, what is drawn from seed {}", self.transfers);
        println!("  original {}, {order}\n  port {port}; with bit 7 {with_bit_7}", seen.time);
        self.differ += 1;
        if self.differ == 20 {
            println!("estimate: ended at the twentieth that differs, of {} transfers", self.transfers);
            std::process::exit(1);
        }
    }

    fn ended(&self, ends: &[End]) -> u64 {
        self.ends.iter().flat_map(|counts| ends.iter().map(|&end| counts[end as usize])).sum()
    }

    fn print(&self) {
        println!(
            "estimate: {} transfers of the original, {} at double speed; {} ended by the count, {} by a carry, \
             {} of these with an odd number of bytes, {} where the count ended too; {} differ",
            self.transfers,
            self.ends[1].iter().sum::<u64>(),
            self.ended(&[End::CountedOut]),
            self.ended(&[End::Both, End::CutOffEven, End::CutOffOdd]),
            self.ended(&[End::CutOffOdd]),
            self.ended(&[End::Both]),
            self.differ
        );
    }

    /// Every end came at both speeds.
    fn is_whole(&self) -> bool {
        self.ends.iter().flatten().all(|&count| count > 0)
    }
}

/// A value with the destination from which its length carries at the last byte, and with those about it.
fn about_the_limit(value: u8) -> impl Iterator<Item = (u8, u16)> {
    let limit = 0x10000 - 16 * (u32::from(value) + 1);
    (limit - 17..=limit + 17).filter_map(move |destination| Some((value, u16::try_from(destination).ok()?)))
}

/// Each value to a list and about its limit, some values to each of the last, and one block to every destination.
fn values_and_destinations() -> Vec<(u8, u16)> {
    let mut random = Random::new(5);
    let mut destinations = DESTINATIONS.to_vec();
    destinations.extend((0..DRAWN).map(|_| random.next() as u16));
    let last: Vec<u16> = LAST.collect();
    destinations.extend((0..DRAWN).map(|_| random.pick(&last)));
    let each = |value: u8| destinations.iter().map(move |&destination| (value, destination));
    let mut all: Vec<_> = (0..0x80).flat_map(each).collect();
    all.extend((0..0x80).flat_map(about_the_limit));
    all.extend(VALUES.iter().flat_map(|&value| LAST.map(move |destination| (value, destination))));
    all.extend((0..=0xFFFF).map(|destination| (0x00, destination)));
    all
}

pub fn run() {
    let mut comparison = Comparison { console: Console::new(), transfers: 0, differ: 0, ends: [[0; 4]; 2] };
    for (value, destination) in values_and_destinations() {
        for double_speed in [false, true] {
            comparison.hold(Transfer { value, destination, double_speed });
        }
    }
    comparison.print();
    if !comparison.is_whole() {
        println!("estimate: not every end came at both speeds: {:?}", comparison.ends);
    }
    if comparison.differ > 0 || !comparison.is_whole() {
        std::process::exit(1);
    }
}
