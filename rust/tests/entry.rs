//! The exported entry as a C program calls it, with the bytes of include/cgb_vram_dma.h: what the typed wrapper cannot ask. A
//! refused call leaves the paper's number and zeros in the answer, over whatever stood there, and all else as given.
use cgb_vram_dma::{CARTRIDGE_BYTES, Cause, Cgb, Memory, OAM_BYTES, VRAM_BYTES, WRAM_BYTES};
use cgb_vram_dma::{entry, kind as kinds};

#[derive(Clone, PartialEq)]
struct Caller {
    state: [u8; Cgb::BYTES],
    cartridge: Vec<u8>,
    wram: Vec<u8>,
    vram: Vec<u8>,
    oam: Vec<u8>,
}

impl Caller {
    fn new() -> Self {
        let filled = |n: usize| (0..n).map(|i| (i * 5 + 1) as u8).collect();
        Self {
            state: *Cgb::power_on(false).bytes(),
            cartridge: filled(CARTRIDGE_BYTES),
            wram: filled(WRAM_BYTES),
            vram: filled(VRAM_BYTES),
            oam: filled(OAM_BYTES),
        }
    }
    fn slices(&mut self) -> [&mut Vec<u8>; 4] {
        [&mut self.cartridge, &mut self.wram, &mut self.vram, &mut self.oam]
    }
    fn perform(&mut self, call: [u8; 16], answer: &mut [u8; 24]) -> u8 {
        let memory =
            Memory { cartridge: &self.cartridge, wram: &mut self.wram, vram: &mut self.vram, oam: &mut self.oam };
        entry::perform(&mut self.state, &call, answer, memory)
    }
    /// The call is refused with the number: the answer is that and zeros, all else as before.
    fn refuses(&mut self, call: [u8; 16], number: u8) {
        let before = self.clone();
        // What an accepted call left: a tally of FFs.
        let mut answer = [0xFF; 24];
        answer[0] = 0;
        let result = self.perform(call, &mut answer);
        let mut expected = [0; 24];
        expected[0] = number;
        assert_eq!((result, answer), (number, expected), "{call:?}");
        assert!(*self == before, "{call:?}");
    }
}

fn kind(kind: u8) -> [u8; 16] {
    let mut call = [0; 16];
    call[0] = kind;
    call
}

/// Bytes 2 and 3 the address, 4 the value, 5 the LCD or the flags.
fn call(kind: u8, address: u16, value: u8, flags: u8) -> [u8; 16] {
    let mut call = [0; 16];
    call[0] = kind;
    call[2..4].copy_from_slice(&address.to_le_bytes());
    call[4] = value;
    call[5] = flags;
    call
}

/// A flag of 2, a mode of 3 and a spare byte of 1 are no state's (docs/STATE-LAYOUT.md).
fn damaged() -> impl Iterator<Item = Caller> {
    [(8, 2), (4, 3), (91, 2), (102, 1), (247, 1)].into_iter().map(|(at, byte)| {
        let mut caller = Caller::new();
        caller.state[at] = byte;
        caller
    })
}

#[test]
fn a_record_of_no_call_after_an_accepted_one() {
    let mut caller = Caller::new();
    let mut answer = [0xFF; 24];
    assert_eq!(caller.perform(call(1, 0xFF55, 0x00, 1), &mut answer), 0);
    assert_eq!(caller.perform(kind(14), &mut answer), 0);
    assert_eq!((answer[0], answer[6]), (0, 16), "the tally's left");
    assert_eq!(caller.perform(kind(99), &mut answer), 6);
    assert_eq!(answer[0], 6);
    assert!(answer[1..].iter().all(|byte| *byte == 0));
    for other in [0, kinds::LAST + 1, 99, 255] {
        caller.refuses(kind(other), 6);
    }
}

/// Arbitration answers 0, 1 or 2: a record of another answer is no call's, whether object DMA runs or rests.
#[test]
fn an_m_cycle_of_no_arbitration() {
    let mut caller = Caller::new();
    let mut answer = [0xFF; 24];
    for page in [0, 0xC0] {
        for other in 3..=255 {
            caller.refuses(call(kinds::OBJECT_DMA_M_CYCLE, 0, other, 0), 6);
        }
        for known in 0..=2 {
            assert_eq!(caller.clone().perform(call(kinds::OBJECT_DMA_M_CYCLE, 0, known, 0), &mut answer), 0);
        }
        assert_eq!(caller.perform(call(kinds::WRITE, 0xFF46, page, 1), &mut answer), 0);
    }
}

/// Byte 18 is the byte that was moved, bytes 2 and 3 say that one was, 4 and 5 where it was read; no pair stands in the answer.
#[test]
fn an_m_cycle_s_answer() {
    let mut caller = Caller::new();
    caller.wram[1] = 0xA7;
    let mut answer = [0xFF; 24];
    assert_eq!(caller.perform(call(kinds::WRITE, 0xFF46, 0xC0, 1), &mut answer), 0);
    for (arbitration, at_2, source, byte) in [(2, 0, 0, 0), (1, 2, 0xC000_u16, 0), (0, 1, 0xC001, 0xA7)] {
        assert_eq!(caller.perform(call(kinds::OBJECT_DMA_M_CYCLE, 0, arbitration, 0), &mut answer), 0);
        let mut expected = [0; 24];
        expected[2] = at_2;
        expected[4..6].copy_from_slice(&source.to_le_bytes());
        expected[18] = byte;
        assert_eq!(answer, expected, "{arbitration}");
    }
}

/// The bytes of a next pair's or an escape drain's answer: 1, source, destination, cause.
fn handed(source: u16, destination: u16, cause: u8) -> [u8; 24] {
    let mut answer = [0; 24];
    answer[2] = 1;
    answer[4..6].copy_from_slice(&source.to_le_bytes());
    answer[6..8].copy_from_slice(&destination.to_le_bytes());
    answer[8] = cause;
    answer
}

/// Document 02's A3 by bytes: K1's last two pairs, "counted out (left fell to 0)", and K4's, "carried (past FFFFh)". A bus call of either form
/// has the first pair's cause in byte 20, the second's in 21; a next pair in 8 and 9. Bytes 1, 22 and 23 stay 0.
#[test]
fn the_causes_of_two_pairs() {
    for (destination, address, cause) in [(0x00_u8, 0x8000_u16, 1), (0xFF, 0x9FF0, 2)] {
        let mut caller = Caller::new();
        let mut answer = [0xFF; 24];
        for (register, value) in [(0xFF53, destination), (0xFF54, destination & 0xF0), (0xFF55, 0x00)] {
            assert_eq!(caller.perform(call(kinds::WRITE, register, value, 1), &mut answer), 0);
        }
        for _ in 0..14 {
            assert_eq!(caller.perform(call(kinds::FALL, 0, 3, 0), &mut answer), 0);
            assert_eq!(caller.perform(kind(kinds::NEXT_PAIR), &mut answer), 0);
        }
        assert_eq!(caller.perform(call(kinds::FALL, 0, 3, 0), &mut answer), 0);
        for form in [kinds::BUS_CALL, kinds::BUS_CALL_FROM_INSIDE] {
            let mut expected = [0; 24];
            expected[2] = 2;
            for (k, at) in [(14_u16, 10), (15, 14)] {
                expected[at..at + 2].copy_from_slice(&k.to_le_bytes());
                expected[at + 2..at + 4].copy_from_slice(&(address + k).to_le_bytes());
            }
            expected[18..20].copy_from_slice(&caller.cartridge[14..16]);
            expected[21] = cause;
            assert_eq!(caller.clone().perform(call(form, 0, 0, 1), &mut answer), 0);
            assert_eq!(answer, expected, "{form}");
            let mut short = caller.clone();
            short.oam.pop();
            short.refuses(call(form, 0, 0, 1), 2);
        }
        for expected in [handed(14, address + 14, 0), handed(15, address + 15, cause), [0; 24]] {
            assert_eq!(caller.perform(kind(kinds::NEXT_PAIR), &mut answer), 0);
            assert_eq!(answer, expected);
        }
    }
}

/// K6 with a destination of FFF0h, cut behind the block's 15th pair: the free pair goes past FFFFh. One that does not goes on.
#[test]
fn the_cause_of_a_free_pair() {
    for (destination, expected) in [(0x00, handed(15, 0x800F, 0)), (0xFF, handed(15, 0x9FFF, 2))] {
        let mut caller = Caller::new();
        let mut answer = [0xFF; 24];
        for (register, value) in [(0xFF53, destination), (0xFF54, destination & 0xF0), (0xFF55, 0x81)] {
            assert_eq!(caller.perform(call(kinds::WRITE, register, value, 1), &mut answer), 0);
        }
        for mode in [3, 0, 0] {
            assert_eq!(caller.perform(call(kinds::FALL, 0, mode, 0), &mut answer), 0);
        }
        for _ in 0..15 {
            assert_eq!(caller.perform(call(kinds::FALL, 0, 0, 0), &mut answer), 0);
            assert_eq!(caller.perform(kind(kinds::NEXT_PAIR), &mut answer), 0);
        }
        assert_eq!(caller.perform(call(kinds::WRITE, 0xFF4D, 1, 1), &mut answer), 0);
        assert_eq!(caller.perform(call(kinds::SPEED_SWITCH, 0, 4, 0), &mut answer), 0);
        assert_eq!(answer[2], 2, "cut");
        assert_eq!(caller.perform(call(kinds::FALL, 0, 0, 0), &mut answer), 0);
        assert_eq!(caller.clone().perform(kind(kinds::NEXT_PAIR), &mut answer), 0);
        assert_eq!(answer, expected);
        assert_eq!(caller.perform(kind(kinds::ESCAPE_DRAIN), &mut answer), 0);
        assert_eq!(answer, expected);
        assert_eq!(caller.perform(kind(kinds::ESCAPE_DRAIN), &mut answer), 0);
        assert_eq!(answer, [0; 24]);
    }
}

#[test]
fn bytes_that_no_state_has_get_7_before_6() {
    for mut caller in damaged() {
        for any in (0..=kinds::LAST).chain([kinds::LAST + 1, 99, 255]) {
            caller.refuses(kind(any), 7);
        }
    }
}

#[test]
fn a_performed_call_s_refusal_has_the_same_record() {
    let mut caller = Caller::new();
    let mut answer = [0; 24];
    assert_eq!(caller.perform(call(1, 0xFF55, 0x83, 1), &mut answer), 0);
    caller.refuses(call(2, 0, 4, 0), 1);
    caller.refuses(call(4, 0, 5, 0), 3);
    caller.refuses(call(8, 0xFF68, 0, 0), 4);
    caller.refuses(call(1, 0xFF68, 1, 1), 4);
    caller.refuses(call(4, 0, 0, 1), 5);
    caller.refuses(call(4, 0, 0, 0), 12);
    // A WRAM bank of 8 is no run's.
    let mut unreached = caller.clone();
    unreached.state[41] = 8;
    for any in 1..=kinds::LAST {
        unreached.refuses(kind(any), 7);
    }
    unreached.refuses(kind(99), 6);
    unreached.refuses(call(kinds::OBJECT_DMA_M_CYCLE, 0, 3, 0), 6);
    for which in 0..4 {
        let mut short = caller.clone();
        short.slices()[which].pop();
        for lent in [kinds::BUS_CALL, kinds::BUS_CALL_FROM_INSIDE, kinds::OBJECT_DMA_M_CYCLE] {
            short.refuses(call(lent, 0, 0, 1), 2);
        }
    }
    caller.refuses(call(8, 0xFF46, 0, 0), 4);
    caller.refuses(call(1, 0xFF46, 0xE0, 1), 21);
    let mut short = caller.clone();
    short.wram.pop();
    short.refuses(call(1, 0xFF46, 0xE0, 1), 2);
    assert_eq!(caller.perform(call(1, 0xFF4D, 1, 1), &mut answer), 0);
    assert_eq!(caller.perform(call(4, 0, 4, 0), &mut answer), 0);
    caller.refuses(call(4, 0, 4, 0), 11);
}

/// The header's sizes are those of `entry`.
#[test]
fn the_header_has_the_same_sizes() {
    let header = include_str!("../../include/cgb_vram_dma.h");
    let size = |name: &str| {
        let line = header.lines().find_map(|line| line.strip_prefix(&format!("#define CGB_{name}_BYTES ")));
        line.and_then(|rest| rest.split(' ').next()).and_then(|number| number.parse::<usize>().ok())
    };
    let sizes = [
        ("STATE", entry::STATE_BYTES),
        ("CALL", entry::CALL_BYTES),
        ("ANSWER", entry::ANSWER_BYTES),
        ("CARTRIDGE", CARTRIDGE_BYTES),
        ("WRAM", WRAM_BYTES),
        ("VRAM", VRAM_BYTES),
        ("OAM", OAM_BYTES),
    ];
    for (name, bytes) in sizes {
        assert_eq!(size(name), Some(bytes), "{name}");
    }
}

/// So are its causes, by number and in words.
#[test]
fn the_header_has_the_same_causes() {
    let header = include_str!("../../include/cgb_vram_dma.h");
    for (name, cause) in [("GOING_ON", Cause::GoingOn), ("COUNTED_OUT", Cause::CountedOut), ("CARRIED", Cause::Carried)]
    {
        let declared = format!("    CGB_CAUSE_{name} = {}", cause as u8);
        assert_eq!(header.lines().filter(|line| line.starts_with(&declared)).count(), 1, "{declared}");
        assert!(header.contains(&format!("    case CGB_CAUSE_{name}: return \"{cause}\";\n")), "{cause}");
    }
}
