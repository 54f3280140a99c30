pub mod rendering {
    #[derive(Clone, Copy, Debug, PartialEq)]
    pub enum Mode {
        HorizontalBlank,
        VerticalBlank,
        OamScan,
        Drawing,
    }
}

pub mod memory {
    #[derive(Clone, Copy)]
    pub struct VramAddress(pub u16);

    #[derive(Clone)]
    pub struct VramBank(pub [u8; 0x2000]);

    impl Default for VramBank {
        fn default() -> Self {
            Self([0; 0x2000])
        }
    }

    impl VramBank {
        pub fn read(&self, address: VramAddress) -> u8 {
            self.0[address.0 as usize]
        }
        pub fn write(&mut self, address: VramAddress, value: u8) {
            self.0[address.0 as usize] = value;
        }
        pub fn seed_post_boot(&mut self, _logo: &[u8; 0x30]) {}
        pub fn from_bytes(bytes: &[u8]) -> Self {
            let mut bank = Self::default();
            bank.0[..bytes.len()].copy_from_slice(bytes);
            bank
        }
    }

    pub trait Vram {
        fn cpu_read(&self, address: VramAddress) -> u8;
        fn cpu_write(&mut self, address: VramAddress, value: u8);
        fn bank(&self, bank: u8) -> &VramBank;
        fn read_bank_select(&self) -> u8;
        fn write_bank_select(&mut self, value: u8);
        fn init_post_boot(&mut self, logo: &[u8; 0x30]);
        fn restore_image(&mut self, bytes: &[u8]);
    }
}

#[derive(Default)]
pub struct Control {
    pub lcd_on: bool,
}

impl Control {
    pub fn video_enabled(&self) -> bool {
        self.lcd_on
    }
}

#[derive(Default)]
pub struct Ppu<P> {
    model: P,
    pub control: Control,
    /// Dot phase 0 to 3, or none.
    pub phase: Option<u8>,
}

impl<P> Ppu<P> {
    pub fn model(&self) -> &P {
        &self.model
    }
    pub fn model_mut(&mut self) -> &mut P {
        &mut self.model
    }
    pub fn control(&self) -> &Control {
        &self.control
    }
    pub fn read_object_priority(&self) -> u8 {
        0
    }
    pub fn write_object_priority(&mut self, _value: u8) {}
    pub fn sync_span(&mut self) {}
    pub fn dot_in_mcycle_phase(&self) -> Option<u8> {
        self.phase
    }
}
