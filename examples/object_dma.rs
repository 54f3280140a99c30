//! Object DMA beside two General transfers, driven dot by dot as docs/DRIVING.md says: behind each M-cycle's last dot arbitration, object
//! DMA's byte, the bus call, and then the CPU's write. A row is an M-cycle. While a transfer moves, object DMA's own bytes are passed
//! over, and the bus call deposits one of its bytes in OAM; so it does in the M-cycle behind object DMA's last, too.
//!
//!     sh tools/library
//!     cd rust && cargo run --release --offline --example object_dma
use cgb_vram_dma::{
    Arbitration, CARTRIDGE_BYTES, Cgb, Cycle, Fall, Memory, Moved, OAM_BYTES, Refusal, VRAM_BYTES, WRAM_BYTES,
};

const EDGES_A_DOT: u64 = 2;
const DOTS_AN_M_CYCLE: u32 = 4;

struct Console {
    cgb: Cgb,
    cartridge: Vec<u8>,
    wram: Vec<u8>,
    vram: Vec<u8>,
    oam: Vec<u8>,
    /// The next one, from 0.
    dot: u32,
    /// Master edges since power-on.
    edge: u64,
    /// Rows are printed.
    shown: bool,
    /// Of each byte of OAM: o its own, d deposited, - as it was.
    origin: [char; OAM_BYTES],
}

impl Console {
    /// From 4000h to 8000h; OAM holds EE.
    fn power_on() -> Result<Self, Refusal> {
        let mut console = Self {
            cgb: Cgb::power_on(false),
            cartridge: (0..CARTRIDGE_BYTES).map(|i| (i * 3 + 1) as u8).collect(),
            wram: (0..WRAM_BYTES).map(|i| (i * 5 + 1) as u8).collect(),
            vram: vec![0; VRAM_BYTES],
            oam: vec![0xEE; OAM_BYTES],
            dot: 0,
            edge: 0,
            shown: false,
            origin: ['-'; OAM_BYTES],
        };
        console.cgb.write(&mut console.wram, 0xFF51, 0x40, true)?;
        Ok(console)
    }

    fn start_object_dma(&mut self, start_edge: u64) -> Result<(), Refusal> {
        self.cgb.start_object_dma(&mut self.wram, 0xC0, start_edge)
    }

    fn start_transfer(&mut self) -> Result<(), Refusal> {
        self.cgb.write(&mut self.wram, 0xFF55, 0x00, true)
    }

    /// In VBlank, where a program starts object DMA.
    fn fall(&mut self) -> Result<(), Refusal> {
        let oam_dma = self.cgb.object_dma()?.runs;
        self.edge += EDGES_A_DOT;
        self.cgb.vram_dma_fall_edge(Fall { mode: 1, oam_dma, edge: self.edge, ..Fall::default() })?;
        Ok(())
    }

    fn object_dma(&mut self, arbitration: Arbitration) -> Result<Cycle, Refusal> {
        let Self { cgb, cartridge, wram, vram, oam, .. } = self;
        let cycle = cgb.object_dma_m_cycle(arbitration, Memory { cartridge, wram, vram, oam })?;
        if let Cycle::Moved { source, .. } = cycle {
            self.origin[usize::from(source % 256)] = 'o';
        }
        Ok(cycle)
    }

    /// The bus call, and where it deposited a byte: no answer says so, OAM does.
    fn bus_call(&mut self, held: bool) -> Result<(Moved, Option<usize>), Refusal> {
        let before = self.oam.clone();
        let Self { cgb, cartridge, wram, vram, oam, .. } = self;
        let moved = cgb.vram_dma_commit_bytes_inside(Memory { cartridge, wram, vram, oam }, held, false)?;
        let deposit = (0..OAM_BYTES).find(|at| self.oam[*at] != before[*at]);
        if let Some(at) = deposit {
            self.origin[at] = 'd';
        }
        Ok((moved, deposit))
    }

    fn row(&self, arbitration: Arbitration, cycle: Cycle, moved: &Moved, deposit: Option<usize>) {
        let arbitration = match arbitration {
            Arbitration::Clear => "clear",
            Arbitration::Contended => "contended",
            Arbitration::Stall => "stall",
        };
        let object_dma = match cycle {
            Cycle::Moved { source, byte } => format!("{source:04X} -> {:04X}: {byte:02X}", 0xFE00 + source % 256),
            Cycle::PassedOver { source } => format!("{source:04X} passed over"),
            Cycle::Nothing => "nothing".into(),
        };
        let pairs =
            moved.pairs.iter().flatten().map(|(pair, _)| format!("{:04X} -> {:04X}", pair.source, pair.destination));
        let deposit = deposit.map(|at| format!("deposit FE{at:02X}: {:02X}", self.oam[at]));
        let bus_call = pairs.chain(deposit).collect::<Vec<String>>().join(", ");
        let row = format!("{:4}  {arbitration:11}  {object_dma:16}  {bus_call}", self.dot);
        println!("{}", row.trim_end());
    }

    fn end_of_m_cycle(&mut self) -> Result<(), Refusal> {
        let held = self.cgb.vram_dma_seizes_bus()? || self.cgb.vram_dma_holds_cpu()?;
        let arbitration = self.cgb.vram_dma_arbitrate_inside(held, false)?;
        let cycle = self.object_dma(arbitration)?;
        let (moved, deposit) = self.bus_call(held)?;
        if self.shown {
            self.row(arbitration, cycle, &moved, deposit);
        }
        Ok(())
    }

    /// Steps until this dot, the last of an M-cycle, has been stepped.
    fn through(&mut self, last: u32) -> Result<(), Refusal> {
        while self.dot <= last {
            self.fall()?;
            if self.dot % DOTS_AN_M_CYCLE == DOTS_AN_M_CYCLE - 1 {
                self.end_of_m_cycle()?;
            }
            self.dot += 1;
        }
        Ok(())
    }

    fn oam_row(&self, first: usize) {
        let row = first..first + 16;
        let bytes: String = self.oam[row.clone()].iter().map(|byte| format!(" {byte:02X}")).collect();
        println!("FE{first:02X} {bytes}  {}", self.origin[row].iter().collect::<String>());
    }
}

fn a_run() -> Result<Console, Refusal> {
    println!(
        "Object DMA from C000h: FF46 = C0 behind dot 3. General transfers from 4000h: FF55 = 00 behind dots 15 and 631"
    );
    println!(" dot  arbitration  object DMA        bus call");
    let mut console = Console::power_on()?;
    console.through(3)?;
    console.start_object_dma(console.edge)?;
    console.shown = true;
    console.through(15)?;
    console.start_transfer()?;
    console.through(51)?;
    console.shown = false;
    console.through(623)?;
    console.shown = true;
    console.through(631)?;
    console.start_transfer()?;
    console.through(663)?;
    Ok(console)
}

/// The first M-cycle of the transfer, with this start edge.
fn deposit_by(start_edge: u64) -> Result<(), Refusal> {
    let mut console = Console::power_on()?;
    console.start_object_dma(start_edge)?;
    console.start_transfer()?;
    console.through(3)?;
    for at in (0..OAM_BYTES).filter(|at| console.origin[*at] == 'd') {
        let which = if at == 0 { "first" } else { "second" };
        println!("{start_edge:10}  {which} byte, FE{at:02X}: {:02X}", console.oam[at]);
    }
    Ok(())
}

fn main() -> Result<(), Refusal> {
    let console = a_run()?;
    println!("\nOAM behind it: o object DMA's own byte, d deposited, - as it was");
    for first in [0x00, 0x10, 0x90] {
        console.oam_row(first);
    }
    println!("\nWhich byte of a transfer's first M-cycle is deposited\nstart edge");
    (8..=14).step_by(2).try_for_each(deposit_by)
}
