//! How long does an upload take? Of some General transfers the estimate, and beside it what a run counts. A run has a fall
//! for each dot and a held bus call behind the last dot of each M-cycle, as docs/DRIVING.md says, but no arbitration, since
//! no OAM DMA runs. So it counts dots too: 4 to an M-cycle at single speed, 2 at double.
//!
//!     sh tools/library
//!     cd rust && cargo run --release --offline --example estimate
use cgb_vram_dma::{
    CARTRIDGE_BYTES, Cause, Cgb, Estimate, Fall, Memory, OAM_BYTES, Refusal, SwitchInputs, VRAM_BYTES, WRAM_BYTES,
    estimate,
};

/// Its name, the value for FF55 with bit 7 clear, the destination, and whether at double speed.
type Upload = (&'static str, u8, u16, bool);

const UPLOADS: [Upload; 9] = [
    ("a tile", 0x00, 0x8000, false),
    ("a tile", 0x00, 0x8000, true),
    ("a tile map", 0x3F, 0x9800, false),
    ("128 tiles", 0x7F, 0x8800, false),
    ("128 tiles", 0x7F, 0x8800, true),
    ("past FFFFh", 0x01, 0xFFF0, false), // 32 bytes asked for, 16 have room
    ("past FFFFh", 0x01, 0xFFF0, true),
    ("odd register", 0x00, 0xFFFD, false), // the second bus call moves one byte
    ("odd register", 0x00, 0xFFFD, true),
];

struct Console {
    cgb: Cgb,
    cartridge: Vec<u8>,
    wram: Vec<u8>,
    vram: Vec<u8>,
    oam: Vec<u8>,
}

/// What a run counts.
struct Counted {
    pairs: u32,
    bus_calls: u32,
    dots: u32,
    last: Cause,
}

impl Console {
    fn power_on() -> Self {
        Self {
            cgb: Cgb::power_on(false),
            cartridge: vec![0; CARTRIDGE_BYTES],
            wram: vec![0; WRAM_BYTES],
            vram: vec![0; VRAM_BYTES],
            oam: vec![0; OAM_BYTES],
        }
    }

    fn set(&mut self, address: u16, value: u8) -> Result<(), Refusal> {
        self.cgb.write(&mut self.wram, address, value, true)
    }

    /// In VBlank.
    fn fall(&mut self) -> Result<(), Refusal> {
        self.cgb.vram_dma_fall_edge(Fall { mode: 1, ..Fall::default() }).map(|_| ())
    }

    fn switch_speed(&mut self) -> Result<(), Refusal> {
        self.set(0xFF4D, 0x01)?;
        self.cgb.attempt_speed_switch(SwitchInputs::default())?;
        self.cgb.drain_speed_switch_blackout(u32::MAX).map(|_| ()) // all of it
    }

    /// FF54 drops the low four bits. Where they are not 0 a transfer brings the register there, a byte at a time, and
    /// the next write to FF55 gives it its new length.
    fn bring_register_to(&mut self, destination: u16) -> Result<(), Refusal> {
        self.set(0xFF53, (destination >> 8) as u8)?;
        self.set(0xFF54, destination as u8)?;
        if destination % 16 == 0 {
            return Ok(());
        }
        self.set(0xFF55, 0x00)?;
        for _ in 0..destination % 16 {
            self.fall()?;
            self.cgb.next_byte()?;
        }
        Ok(())
    }

    /// By the register and the speed as they stand. A run takes exactly so many where no byte is owed and no set-up cell
    /// stands.
    fn estimate(&self, value: u8) -> Result<Estimate, Refusal> {
        let tally = self.cgb.tally()?;
        assert!(!tally.escape_owed, "a byte is owed: the run may take more");
        assert_eq!(self.cgb.state().vram_dma.block.setup_cells, 0, "a set-up cell stands: the run may take more");
        Ok(estimate(value, tally.destination_register, self.cgb.double_speed()?))
    }

    /// M-cycles until a pair is the last.
    fn count(&mut self, value: u8) -> Result<Counted, Refusal> {
        let dots_an_m_cycle = if self.cgb.double_speed()? { 2 } else { 4 };
        let mut counted = Counted { pairs: 0, bus_calls: 0, dots: 0, last: Cause::GoingOn };
        self.set(0xFF55, value)?;
        while !counted.last.ends() {
            for _ in 0..dots_an_m_cycle {
                self.fall()?;
                counted.dots += 1;
            }
            let Self { cgb, cartridge, wram, vram, oam } = self;
            let moved = cgb.vram_dma_commit_bytes(Memory { cartridge, wram, vram, oam }, true, false, 0)?;
            counted.bus_calls += 1;
            for (pair, _) in moved.pairs.into_iter().flatten() {
                counted.pairs += 1;
                counted.last = pair.cause;
            }
        }
        Ok(counted)
    }
}

fn row((name, value, destination, double_speed): Upload) -> Result<(), Refusal> {
    let mut console = Console::power_on();
    if double_speed {
        console.switch_speed()?;
    }
    console.bring_register_to(destination)?;
    let speed = if double_speed { "double" } else { "single" };
    let Estimate { bytes, m_cycles, .. } = console.estimate(value)?;
    let Counted { pairs, bus_calls, dots, last } = console.count(value)?;
    print!("{name:12}    {value:02X}         {destination:04X}  {speed}  {bytes:5}  {m_cycles:8}");
    println!("  {pairs:5}  {bus_calls:9}  {dots:4}  {last}");
    Ok(())
}

fn main() -> Result<(), Refusal> {
    println!("                                         estimated        counted");
    println!("upload        FF55  destination  speed   bytes  M-cycles  pairs  bus calls  dots  last pair");
    UPLOADS.into_iter().try_for_each(row)
}
