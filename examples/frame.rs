//! A frame of 154 lines of 456 dots under an HBlank transfer; then document 01's K6, a transfer that a speed switch cuts; then a
//! line at double speed. Driven as docs/DRIVING.md says, which shows what is printed: where each thing happens, FF55 and the bytes
//! left behind it. Of a block's bytes the first and the last bus call are printed.
//!
//!     sh tools/library
//!     cd rust && cargo run --release --offline --example frame
use cgb_vram_dma::{
    CARTRIDGE_BYTES, Cgb, CutOutcome, Fall, Memory, OAM_BYTES, Refusal, SwitchInputs, VRAM_BYTES, WRAM_BYTES,
};

const LINES: u32 = 154;
const DOTS: u32 = 456;
const EDGES_A_DOT: u32 = 2;

/// Mode 2 for 80 dots, mode 3 for 172, mode 0 to the line's end; mode 1 from line 144 on.
fn mode(line: u32, dot: u32) -> u8 {
    match (line, dot) {
        (144.., _) => 1,
        (_, ..80) => 2,
        (_, ..252) => 3,
        _ => 0,
    }
}

#[derive(Default)]
struct Totals {
    commits: usize,
    set_up_cells: usize,
    pairs: usize,
}

struct Console {
    cgb: Cgb,
    cartridge: Vec<u8>,
    wram: Vec<u8>,
    vram: Vec<u8>,
    oam: Vec<u8>,
    line: u32,
    dot: u32,
    /// Master edges since power-on.
    edge: u64,
    /// The CPU is, in the blackout.
    stopped: bool,
    /// Rows are printed.
    shown: bool,
    /// Whether a request stood and the bus was seized after the last fall.
    requested: bool,
    seized: bool,
    /// Moved of the block under way.
    block_bytes: usize,
    totals: Totals,
}

impl Console {
    fn power_on() -> Self {
        Self {
            cgb: Cgb::power_on(false),
            cartridge: (0..CARTRIDGE_BYTES).map(|i| (i * 3 + 1) as u8).collect(),
            wram: vec![0; WRAM_BYTES],
            vram: vec![0; VRAM_BYTES],
            oam: vec![0; OAM_BYTES],
            line: 0,
            dot: 0,
            edge: 0,
            stopped: false,
            shown: false,
            requested: false,
            seized: false,
            block_bytes: 0,
            totals: Totals::default(),
        }
    }

    fn write(&mut self, address: u16, value: u8) -> Result<(), Refusal> {
        self.cgb.write(&mut self.wram, address, value, true)
    }

    fn row(&mut self, event: &str) -> Result<(), Refusal> {
        if self.shown {
            let ff55 = self.cgb.read(&mut self.wram, 0xFF55)?;
            let left = self.cgb.tally()?.left;
            println!("{:4}  {:3}  {event:13}  {ff55:02X}  {left:4}", self.line, self.dot);
        }
        Ok(())
    }

    fn fall(&mut self) -> Result<(), Refusal> {
        let (was_requested, was_seized) = (self.requested, self.seized);
        let mode = mode(self.line, self.dot);
        let fall = Fall { mode, stopped: self.stopped, edge: self.edge, ..Fall::default() };
        let claim = self.cgb.vram_dma_fall_edge(fall)?;
        self.requested = self.cgb.vram_dma_request_standing()?;
        self.seized = self.cgb.vram_dma_seizes_bus()?;
        if claim.committed {
            self.totals.commits += 1;
            self.block_bytes = 0;
            self.row("commit")?;
        } else if self.requested && !was_requested {
            self.row("pend")?;
        }
        if self.seized != was_seized {
            self.row(if self.seized { "seized" } else { "released" })?;
        }
        Ok(())
    }

    /// Arbitration, then the bus call; no OAM DMA runs.
    fn end_of_m_cycle(&mut self) -> Result<(), Refusal> {
        let held = self.seized || self.cgb.vram_dma_holds_cpu()?;
        let owed = self.cgb.tally()?.escape_owed;
        self.cgb.vram_dma_arbitrate_oam(held, false, false)?;
        let memory =
            Memory { cartridge: &self.cartridge, wram: &mut self.wram, vram: &mut self.vram, oam: &mut self.oam };
        let moved = self.cgb.vram_dma_commit_bytes(memory, held, false, 0)?;
        if moved.set_up_cell {
            self.totals.set_up_cells += 1;
            self.row("set-up cell")?;
        }
        match moved.pairs.into_iter().flatten().count() {
            0 => Ok(()),
            pairs => self.bytes_moved(pairs, owed),
        }
    }

    fn bytes_moved(&mut self, moved: usize, free_pair: bool) -> Result<(), Refusal> {
        self.totals.pairs += moved;
        self.block_bytes += moved;
        if free_pair {
            self.row("free pair")
        } else if self.block_bytes == moved || self.block_bytes == 16 {
            self.row(&format!("{} moved", self.block_bytes))
        } else {
            Ok(())
        }
    }

    /// An M-cycle has four dots at single speed, two at double.
    fn step(&mut self) -> Result<(), Refusal> {
        let dots = 4 / u32::from(self.cgb.cpu_steps_per_dot()?);
        self.edge += u64::from(EDGES_A_DOT);
        self.fall()?;
        if self.dot % dots == dots - 1 {
            self.end_of_m_cycle()?;
        }
        Ok(())
    }

    fn next_dot(&mut self) {
        self.dot += 1;
        if self.dot == DOTS {
            self.dot = 0;
            self.line = (self.line + 1) % LINES;
        }
    }

    fn frame(&mut self) -> Result<(), Refusal> {
        for _ in 0..LINES * DOTS {
            self.shown = [0, 1, 127].contains(&self.line);
            self.step()?;
            self.next_dot();
        }
        Ok(())
    }

    /// Steps until this dot of this line has been stepped.
    fn through(&mut self, line: u32, dot: u32) -> Result<(), Refusal> {
        self.step()?;
        while (self.line, self.dot) != (line, dot) {
            self.next_dot();
            self.step()?;
        }
        Ok(())
    }

    /// Unheld, as in K6: under hold the switch would be refused with 5.
    fn switch(&mut self) -> Result<(), Refusal> {
        let phase = Some((self.dot % 4) as u8);
        let inputs = SwitchInputs { dot_phase: phase, edge: self.edge, ..SwitchInputs::default() };
        let cut = self.cgb.attempt_speed_switch(inputs)? == CutOutcome::Cut;
        self.row(if cut { "cut" } else { "no cut" })
    }

    /// The CPU is stopped and the dot clock runs on.
    fn blackout(&mut self) -> Result<(), Refusal> {
        self.stopped = true;
        loop {
            self.next_dot();
            self.step()?;
            if self.cgb.drain_speed_switch_blackout(EDGES_A_DOT)? {
                break;
            }
        }
        self.stopped = false;
        self.row("blackout over")
    }
}

fn title(text: &str) {
    println!("{text}\nline  dot  event        FF55  left");
}

fn a_frame(console: &mut Console) -> Result<(), Refusal> {
    title("A frame; FF55 = FF in front of it");
    console.write(0xFF55, 0xFF)?;
    console.frame()?;
    let Totals { commits, set_up_cells, pairs } = console.totals;
    println!("in the frame: {commits} commits, {set_up_cells} set-up cells, {pairs} pairs\n");
    assert_eq!(console.vram[..2048], console.cartridge[..2048]);
    Ok(())
}

fn a_cut(console: &mut Console) -> Result<(), Refusal> {
    title("A cut; FF55 = 81 in front of the next frame");
    console.shown = true;
    console.write(0xFF55, 0x81)?;
    console.through(0, 259)?;
    console.write(0xFF4D, 0x01)?;
    console.switch()?;
    console.blackout()
}

fn a_line_at_double_speed(console: &mut Console) -> Result<(), Refusal> {
    console.shown = false;
    console.next_dot();
    console.through(153, 455)?;
    console.next_dot();
    title("\nA line at double speed; FF55 = 81 in front of the frame after that");
    console.shown = true;
    console.write(0xFF55, 0x81)?;
    console.through(0, 455)
}

fn main() -> Result<(), Refusal> {
    let mut console = Console::power_on();
    a_frame(&mut console)?;
    a_cut(&mut console)?;
    a_line_at_double_speed(&mut console)
}
