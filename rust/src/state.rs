//! The state's fields, read from its bytes: [`Cgb::state`](crate::Cgb::state) gives them, and `{:?}` of a
//! [`Cgb`](crate::Cgb) prints them. The names and the parts are the original's, but for object DMA, which it has not; the
//! offsets stand in this file once. docs/STATE-LAYOUT.md has the same list, and rust/tests/layout.rs holds the two together.
//!
//! A countdown is the number of its ticks that are left. A fall is gated where the CPU is stopped, or halted without a
//! latched interrupt request; an entry is a fall in mode 0 when the one before was not, or there was none. Later
//! versions add fields, so the parts are `#[non_exhaustive]`.
use core::fmt;

use crate::answers::Claim;
use crate::entry::STATE_BYTES;

type Bytes = [u8; STATE_BYTES];

/// Is told of a field that has changed: its name, what it was and what it is.
type Tell<'a> = dyn FnMut(&str, &dyn fmt::Debug, &dyn fmt::Debug) -> fmt::Result + 'a;

/// A value that stands in the state's bytes, from an offset on.
trait Value: fmt::Debug + PartialEq + Sized {
    fn read(bytes: &Bytes, at: usize) -> Self;
    fn write(&self, bytes: &mut Bytes, at: usize);
    fn compare(&self, before: &Self, name: &str, tell: &mut Tell) -> fmt::Result {
        if self == before { Ok(()) } else { tell(name, before, self) }
    }
}

macro_rules! number {
    ($($type:ty),*) => {$(
        impl Value for $type {
            fn read(bytes: &Bytes, at: usize) -> Self {
                let mut own = [0; size_of::<Self>()];
                own.copy_from_slice(&bytes[at..at + size_of::<Self>()]);
                Self::from_le_bytes(own)
            }
            fn write(&self, bytes: &mut Bytes, at: usize) {
                bytes[at..at + size_of::<Self>()].copy_from_slice(&self.to_le_bytes());
            }
        }
    )*};
}
number!(u8, u16, u32, u64);

impl Value for bool {
    fn read(bytes: &Bytes, at: usize) -> Self {
        bytes[at] == 1
    }
    fn write(&self, bytes: &mut Bytes, at: usize) {
        bytes[at] = (*self).into();
    }
}

impl<const N: usize> Value for [u8; N] {
    fn read(bytes: &Bytes, at: usize) -> Self {
        let mut own = [0; N];
        own.copy_from_slice(&bytes[at..at + N]);
        own
    }
    fn write(&self, bytes: &mut Bytes, at: usize) {
        bytes[at..at + N].copy_from_slice(self);
    }
}

/// A tag, and the value behind it.
impl Value for Option<u8> {
    fn read(bytes: &Bytes, at: usize) -> Self {
        (bytes[at] != 0).then(|| bytes[at + 1])
    }
    fn write(&self, bytes: &mut Bytes, at: usize) {
        bytes[at] = self.is_some().into();
        bytes[at + 1] = self.unwrap_or(0);
    }
}

/// How the transfer is paced. The status has it too, with what belongs to each.
#[derive(Clone, Copy, Debug, PartialEq, Eq, Hash)]
pub enum TransferMode {
    /// Neither of the others.
    Idle,
    /// A General transfer.
    General,
    /// An HBlank transfer is armed: a block of 16 bytes in each HBlank.
    HBlank,
}

impl Value for TransferMode {
    fn read(bytes: &Bytes, at: usize) -> Self {
        match bytes[at] {
            0 => Self::Idle,
            1 => Self::General,
            _ => Self::HBlank,
        }
    }
    fn write(&self, bytes: &mut Bytes, at: usize) {
        bytes[at] = *self as u8;
    }
}

/// It stands in the state once.
impl Value for Claim {
    fn read(bytes: &Bytes, at: usize) -> Self {
        Self { committed: bool::read(bytes, at), standing: bool::read(bytes, at + 1) }
    }
    fn write(&self, bytes: &mut Bytes, at: usize) {
        self.committed.write(bytes, at);
        self.standing.write(bytes, at + 1);
    }
    fn compare(&self, before: &Self, _: &str, tell: &mut Tell) -> fmt::Result {
        self.committed.compare(&before.committed, "console_state.vram_dma_claim.committed", tell)?;
        self.standing.compare(&before.standing, "console_state.vram_dma_claim.standing", tell)
    }
}

/// A part of the state, with its fields' names in front: `field: type => offset`, or `field: part`.
macro_rules! part {
    ($(#[$doc:meta])* $name:ident, $path:literal { $($(#[$field_doc:meta])* $field:ident: $type:ty $(=> $at:literal)?,)* }) => {
        $(#[$doc])*
        #[derive(Clone, Copy, PartialEq, Eq, Hash)]
        #[non_exhaustive]
        pub struct $name {
            $($(#[$field_doc])* pub $field: $type,)*
        }

        impl $name {
            pub(crate) fn read(bytes: &Bytes) -> Self {
                Self { $($field: <$type>::read(bytes $(, $at)?),)* }
            }
            pub(crate) fn write(&self, bytes: &mut Bytes) {
                $(self.$field.write(bytes $(, $at)?);)*
            }
            pub(crate) fn compare(&self, before: &Self, _: &str, tell: &mut Tell) -> fmt::Result {
                $(self.$field.compare(&before.$field, concat!($path, stringify!($field)), tell)?;)*
                Ok(())
            }
            pub(crate) fn show<'a, 'b>(&self, name: &str, f: &'a mut fmt::Formatter<'b>) -> fmt::DebugStruct<'a, 'b> {
                let mut shown = f.debug_struct(name);
                $(shown.field(stringify!($field), &self.$field);)*
                shown
            }
        }

        impl fmt::Debug for $name {
            fn fmt(&self, f: &mut fmt::Formatter) -> fmt::Result {
                self.show(stringify!($name), f).finish()
            }
        }
    };
}

part! {
    /// The running byte engine. Its registers stay after a transfer, so that the next one goes on where it ended.
    TransferCursor, "vram_dma.cursor." {
        /// The source register: the address that the next byte is read from.
        source: u16 => 0,
        /// The destination register with all its 16 bits. The next byte lands at 8000h + this mod 2000h.
        dest: u16 => 2,
        /// How the transfer is paced.
        mode: TransferMode => 4,
        /// Bytes left in the transfer: document 01's *left*.
        remaining: u16 => 5,
        /// Pairs that may still come, at most, before the next fall fills it up anew.
        quota: u8 => 7,
        /// A cut owes one byte outside the transfer's length: document 01's *escape*.
        escape_byte: bool => 8,
    }
}

part! {
    /// The block of an HBlank, and its hold of the bus.
    HblankBlock, "vram_dma.block." {
        /// Bytes left in the block, 0 without one: document 01's *block*.
        remaining: u8 => 9,
        /// The master edge of the last fall that committed a block.
        start_edge: u64 => 10,
        /// Set by a commit and by an entry that is passed over: while it stands mode 0 makes no new pend. A fall
        /// outside mode 0 clears it, in a halt only one of the first 4 (2 at double speed).
        taken: bool => 18,
        /// Set-up cells ahead of the block's bytes: each uses up a bus call.
        setup_cells: u8 => 19,
        /// Ungated falls until the block is ready to move; 0 is ready.
        ready_in: u8 => 20,
        /// Ungated falls in a row that left the engine seizing the bus, at most 255.
        seize_falls: u8 => 21,
        /// The block came from an arm strobe: it committed while `pend_from_arm` stood.
        from_arm: bool => 22,
        /// Such a block has just become ready, at single speed: a next fall outside mode 0 takes it back, if no byte of
        /// it has moved.
        arm_ready_probation: bool => 23,
    }
}

part! {
    /// The arbiter of pends and grants, through HALT and wake.
    HaltArbiter, "vram_dma.arb." {
        /// A pend stands: a block is asked for, which a later fall may commit.
        pend: bool => 24,
        /// The pend is an arm strobe's: FF55 armed HBlank in front of the fall that set it, or a block was latched with
        /// the LCD off.
        pend_from_arm: bool => 25,
        /// FF55 has armed HBlank, and no ungated fall has come since.
        armed_this_fall: bool => 26,
        /// Falls in a row with the CPU halted, at most 255; 0 while it runs.
        halted_falls: u8 => 27,
        /// The last fall was in mode 0: the next one in mode 0 is no entry.
        prev_view_hblank: bool => 28,
        /// Gated falls that the pend has stood for, at most 255.
        pend_age: u8 => 29,
        /// The pend is granted: while HBlank is armed, an ungated fall commits it in any mode and at any age.
        pend_granted: bool => 30,
        /// What is left of the tenure of 36 falls after a granted commit outside mode 0: an entry in it is passed over.
        wake_tenure: u8 => 31,
        /// The park mark: the block that was committed, while the CPU ran and by no arm strobe, waits until an
        /// instruction has retired.
        park_waits_for_fetch: bool => 32,
        /// An entry was passed over in the tenure with bytes left; until a commit, LCD off, or the transfer's last
        /// byte.
        idle_claim: bool => 33,
        /// What is left of the blind of 3 falls after a halt: an entry in it is passed over.
        halt_wake_blind: u8 => 34,
        /// The CPU was halted at the last fall.
        prev_cpu_halted: bool => 35,
        /// The block that pends is counted in `granted_ahead` already.
        grant_counted: bool => 36,
        /// What is left of the blind of 6 falls after a switch to double speed: an entry in it is passed over, but not
        /// at the first of them.
        wake_pend_blind: u8 => 37,
        /// Blocks counted out of FF55 ahead of their bytes: document 01's *granted*.
        granted_ahead: u8 => 38,
    }
}

part! {
    /// What an arbitration leaves for the next one, and for the bus calls after it.
    OamContention, "vram_dma.oam." {
        /// OAM DMA transferred at the last arbitration.
        was_transferring: bool => 39,
        /// The last arbitration answered contended.
        contended: bool => 40,
    }
}

part! {
    /// The transfer engine.
    VramDma, "vram_dma." {
        /// The running byte engine.
        cursor: TransferCursor,
        /// The block of an HBlank.
        block: HblankBlock,
        /// The arbiter of pends and grants.
        arb: HaltArbiter,
        /// The bus shared with OAM DMA.
        oam: OamContention,
    }
}

part! {
    /// What is kept of VRAM: its banks themselves are lent.
    CgbVram, "vram." {
        /// FF4F's bank, 0 or 1.
        selected: u8 => 80,
    }
}

part! {
    /// What the console keeps of the last switch and of the last commit.
    CgbConsoleState, "console_state." {
        /// The master edge of the last speed switch.
        blackout_anchor: u64 => 81,
        /// The claim of the last fall that committed a block; both flags are false before the first.
        vram_dma_claim: Claim => 89,
    }
}

part! {
    /// What is kept of object DMA, from FF46 on.
    ObjectDmaState, "object_dma." {
        /// FF46 has started it, and it has not come to its end. It runs where this is set and `counted` is below 160.
        running: bool => 91,
        /// The page: FF46 as written, 00h to DFh.
        page: u8 => 92,
        /// Bytes counted since that write, those passed over too, up to 160: document 02's *moved bytes* of refusal 7.
        counted: u8 => 93,
        /// The master edge at which it started, which stays after its end.
        start_edge: u64 => 94,
    }
}

part! {
    /// The state of the console, as far as the model goes.
    State, "" {
        /// The transfer engine.
        vram_dma: VramDma,
        /// SVBK (FF70) bits 0 to 2 as written.
        svbk: u8 => 41,
        /// KEY1 (FF4D) bit 0: a speed switch is armed.
        key1_armed: bool => 42,
        /// KEY1 (FF4D) bit 7: the speed.
        double_speed: bool => 43,
        /// A DMG cartridge runs in compatibility mode: power-on's compat.
        dmg_compat: bool => 44,
        /// Master edges left of a switch's blackout; 0 where none runs.
        speed_switch_blackout: u32 => 45,
        /// M-cycle boundaries until a wake is taken in; none where no wake is in flight.
        speed_switch_wake_latency: Option<u8> => 49,
        /// A switch to double speed at dot phase 3 sets it, where it is clear. It makes a blackout to single speed 2
        /// edges shorter and the next one to double speed, which clears it, 2 edges longer, unless an interrupt is
        /// ready. LCD off clears it too.
        switch_relock_debit: bool => 51,
        /// FF72 as written.
        ff72: u8 => 52,
        /// FF73 as written.
        ff73: u8 => 53,
        /// FF74 as written.
        ff74: u8 => 54,
        /// FF75 as written, of which bits 4 to 6 are kept.
        ff75: u8 => 55,
        /// The 24 bytes behind FEA0h to FEFFh.
        extra_oam: [u8; 24] => 56,
        /// What is kept of VRAM.
        vram: CgbVram,
        /// What the console keeps of the last switch and of the last commit.
        console_state: CgbConsoleState,
        /// What is kept of object DMA.
        object_dma: ObjectDmaState,
    }
}
