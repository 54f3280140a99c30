//! The inputs, made once and given to both sides. A step is a byte: mode in bits 0 and 1, halted, IRQ latched, stopped, a bus
//! owned by OAM DMA; bit 6 asks for a bus call after the fall.

pub const BUS: u8 = 64;

/// 154 lines of 456 dots at single speed, one fall a dot: 80 dots of mode 2, 172 of mode 3, mode 0 to the line's end; then
/// ten lines of mode 1.
pub fn frame() -> Vec<u8> {
    let mode = |line: usize, dot: usize| match dot {
        _ if line >= 144 => 1,
        0..80 => 2,
        80..252 => 3,
        _ => 0,
    };
    (0..154).flat_map(|line| (0..456).map(move |dot| mode(line, dot))).collect()
}

/// xorshift64: the same numbers on every machine.
struct Random(u64);

impl Random {
    fn next(&mut self) -> u64 {
        self.0 ^= self.0 << 13;
        self.0 ^= self.0 >> 7;
        self.0 ^= self.0 << 17;
        self.0 >> 20
    }
}

/// Modes, halts, IRQs, stops and OAM DMA at random, with a bus call after every eighth fall, so that blocks drain.
pub fn random(count: usize) -> Vec<u8> {
    let mut r = Random(20261116);
    (0..count).map(|i| r.next() as u8 % 64 | if i % 8 == 7 { BUS } else { 0 }).collect()
}

/// A fall and a bus call, again and again, outside mode 0.
pub fn general(count: usize) -> Vec<u8> {
    vec![1 | BUS; count]
}

fn record(kind: u8, address: u16, value: u8, edge: u64) -> [u8; 16] {
    let mut bytes = [0; 16];
    bytes[0] = kind;
    bytes[2..4].copy_from_slice(&address.to_le_bytes());
    bytes[4] = value;
    bytes[8..16].copy_from_slice(&edge.to_le_bytes());
    bytes
}

/// One step's fall as a call's record (document 01, section 6).
pub fn fall_record(step: u8, edge: u64) -> [u8; 16] {
    let mut bytes = record(2, 0, step % 4, edge);
    bytes[5] = step / 4 % 16;
    bytes
}

/// A held bus call as a record of the exported entry.
pub fn bus_record() -> [u8; 16] {
    let mut bytes = record(9, 0, 0, 0);
    bytes[5] = 1;
    bytes
}

/// A script for the replay: in each frame FF51 to FF55 are written, the frame's falls follow, and two next pairs after
/// each fall of a bus call.
pub fn script(steps: &[u8], frames: usize) -> Vec<u8> {
    let mut bytes = Vec::new();
    for _ in 0..frames {
        for (address, value) in [(0xFF51, 0xC0), (0xFF52, 0), (0xFF53, 0x80), (0xFF54, 0), (0xFF55, 0xFF)] {
            let mut write = record(1, address, value, 0);
            write[5] = 1;
            bytes.extend_from_slice(&write);
        }
        for (edge, step) in steps.iter().enumerate() {
            bytes.extend_from_slice(&fall_record(*step, edge as u64));
            if step & BUS != 0 {
                bytes.extend_from_slice(&[record(3, 0, 0, 0), record(3, 0, 0, 0)].concat());
            }
        }
    }
    bytes
}

/// A script of whole records at random, most of them as a program would give them.
pub fn random_script(count: u64) -> Vec<u8> {
    let mut bytes = Vec::new();
    oracle::script::write(20261116, count, oracle::script::End::Whole, &mut bytes).expect("a script in memory");
    bytes
}
