//! Why a call is refused.
use core::fmt;

/// The numbers once, each with its name and what it says; in front of it, what else is to be said.
macro_rules! refusals {
    ($($(#[$more:meta])* $name:ident = $number:literal, $text:literal;)*) => {
        /// Why a call is refused: the numbers of documents 01 and 02. A refused call hands out no pair and leaves the state and lent
        /// memory as they were. Where several reasons hold, the number is that of the first in the order that the
        /// call's own documentation gives; 7 comes before all of them.
        #[derive(Clone, Copy, Debug, PartialEq, Eq, Hash)]
        #[non_exhaustive]
        pub enum Refusal {
            $(
                #[doc = concat!($number, ": ", $text, ".")]
                $(#[$more])*
                $name,
            )*
            /// A number that this wrapper has no name for: the library that is linked is another version's.
            Unnamed(u8),
        }

        impl Refusal {
            /// Every refusal that has a name, by rising number.
            pub const NAMED: &'static [Self] = &[$(Self::$name),*];

            /// The refusal with this number; 0 is none.
            #[must_use]
            pub const fn of(number: u8) -> Option<Self> {
                match number {
                    0 => None,
                    $($number => Some(Self::$name),)*
                    other => Some(Self::Unnamed(other)),
                }
            }

            /// Its number, as the library gives it and as byte 0 of an answer has it.
            #[must_use]
            pub const fn number(self) -> u8 {
                match self {
                    $(Self::$name => $number,)*
                    Self::Unnamed(number) => number,
                }
            }

            const fn text(self) -> &'static str {
                match self {
                    $(Self::$name => $text,)*
                    Self::Unnamed(_) => "a number that this wrapper has no name for",
                }
            }
        }
    };
}

refusals! {
    ModeAbove3 = 1, "the mode is above 3";
    /// The lengths are [`CARTRIDGE_BYTES`](crate::CARTRIDGE_BYTES), [`WRAM_BYTES`](crate::WRAM_BYTES),
    /// [`VRAM_BYTES`](crate::VRAM_BYTES) and [`OAM_BYTES`](crate::OAM_BYTES).
    SliceLength = 2, "a slice has another length than the call wants";
    /// In a record 4 stands for none, hence the name; a method takes `None`, and refuses `Some(4)` too.
    DotPhaseAbove4 = 3, "the dot phase is neither 0 to 3 nor none";
    /// A read and a write have the same map, but for FF46, which a write alone has.
    AddressNotInMap = 4, "the address is not in the call's map";
    SwitchUnderHold = 5, "a switch under hold";
    /// No method makes such a record; [`entry::perform`](crate::entry::perform) may be given one.
    NoCall = 6, "the record is no call's";
    /// No run leaves a quota above 2, a block above 16, more than 2,048 bytes left, FF70 above 7, FF4F's bank above 1,
    /// no byte left in a mode other than Idle, object DMA's page above DFh, or more than 160 bytes counted.
    NoState = 7, "the bytes are no state's, or no run leaves this state";
    BlackoutRunning = 11, "a switch while the blackout runs";
    /// KEY1 is FF4D; its bit 0 arms a switch.
    SpeedNotArmed = 12, "a switch while KEY1 is not armed";
    /// Downward is to single speed.
    BlockReady = 13, "a switch downward with a ready block";
    /// Granted is [`granted_ahead`](crate::state::HaltArbiter::granted_ahead).
    GrantedFull = 14, "a commit not already counted would raise granted from 255";
    /// The page of a write to FF46.
    PageAboveDF = 21, "the page is above DFh";
}

impl fmt::Display for Refusal {
    fn fmt(&self, f: &mut fmt::Formatter) -> fmt::Result {
        write!(f, "refused with {}: {}", self.number(), self.text())
    }
}

impl core::error::Error for Refusal {}
