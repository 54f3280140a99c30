//! A state as text: its fields by name, and what of them has changed. Bytes that the fields do not tell, because no state
//! has them, are printed by their offsets, so that unequal states never look the same.
use core::fmt;

use crate::Cgb;

impl Cgb {
    /// The bytes that its fields are written as: all but those that no state has.
    fn canonical(&self) -> [u8; Cgb::BYTES] {
        let mut bytes = [0; Cgb::BYTES];
        self.state().write(&mut bytes);
        bytes
    }
}

impl fmt::Debug for Cgb {
    fn fmt(&self, f: &mut fmt::Formatter) -> fmt::Result {
        let canonical = self.canonical();
        let mut shown = self.state().show("Cgb", f);
        if canonical != *self.bytes() {
            shown.field("bytes_of_no_state", &Odd { bytes: self.bytes(), canonical: &canonical });
        }
        shown.finish()
    }
}

/// The bytes that are not canonical, by offset.
struct Odd<'a> {
    bytes: &'a [u8; Cgb::BYTES],
    canonical: &'a [u8; Cgb::BYTES],
}

impl fmt::Debug for Odd<'_> {
    fn fmt(&self, f: &mut fmt::Formatter) -> fmt::Result {
        let odd = self.bytes.iter().enumerate().filter(|(at, byte)| self.canonical[*at] != **byte);
        f.debug_map().entries(odd).finish()
    }
}

/// What has changed from a state to another, a line for each field that differs.
#[derive(Clone, Copy, Debug)]
pub struct Changes<'a> {
    pub(crate) before: &'a Cgb,
    pub(crate) after: &'a Cgb,
}

impl fmt::Display for Changes<'_> {
    fn fmt(&self, f: &mut fmt::Formatter) -> fmt::Result {
        let Self { before, after } = self;
        let mut tell = |name: &str, was: &dyn fmt::Debug, is: &dyn fmt::Debug| writeln!(f, "{name}: {was:?} -> {is:?}");
        after.state().compare(&before.state(), "", &mut tell)?;
        let canonical = [before.canonical(), after.canonical()];
        for (at, (was, is)) in before.bytes().iter().zip(after.bytes()).enumerate() {
            if was != is && [*was, *is] != [canonical[0][at], canonical[1][at]] {
                writeln!(f, "byte {at}, of no state: {was} -> {is}")?;
            }
        }
        Ok(())
    }
}
