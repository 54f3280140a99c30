//! examples/frame over the original: a frame under an HBlank transfer, a cut, a line at double speed, driven as
//! docs/DRIVING.md says. It prints the text that the two examples must print, which stands in that document.
use missingno_gb::ppu::memory::Vram;
use missingno_gb::{Chassis, ConsoleShadow};

use crate::Cgb;
use crate::calls::mode;

const LINES: u32 = 154;
const DOTS: u32 = 456;

/// Mode 2 for 80 dots, mode 3 for 172, mode 0 to the line's end; mode 1 from line 144 on.
fn mode_at(line: u32, dot: u32) -> u8 {
    match (line, dot) {
        (144.., _) => 1,
        (_, ..80) => 2,
        (_, ..252) => 3,
        _ => 0,
    }
}

/// The original, its surroundings, the place in the frame, and what the last dot left.
struct Console {
    cgb: Cgb,
    chassis: Chassis<Cgb>,
    line: u32,
    dot: u32,
    edge: u64,
    stopped: bool,
    shown: bool,
    requested: bool,
    seized: bool,
    block_bytes: usize,
    commits: usize,
    set_up_cells: usize,
    pairs: usize,
}

impl Console {
    fn power_on() -> Self {
        let mut chassis = Chassis::new();
        for (i, byte) in chassis.cartridge.iter_mut().enumerate() {
            *byte = (i * 3 + 1) as u8;
        }
        chassis.ppu.control.lcd_on = true;
        Self {
            cgb: Cgb::default(),
            chassis,
            line: 0,
            dot: 0,
            edge: 0,
            stopped: false,
            shown: false,
            requested: false,
            seized: false,
            block_bytes: 0,
            commits: 0,
            set_up_cells: 0,
            pairs: 0,
        }
    }

    fn write(&mut self, address: u16, value: u8) {
        assert!(self.cgb.map_write_byte(address, value, &mut self.chassis.ppu, &mut self.chassis.vram_bus.vram));
    }

    fn row(&self, event: &str) {
        if self.shown {
            let ff55 = self.cgb.map_read_byte(0xFF55, &self.chassis.ppu, &self.chassis.vram_bus.vram).unwrap();
            let left = self.cgb.vram_dma.cursor.remaining;
            println!("{:4}  {:3}  {event:13}  {ff55:02X}  {left:4}", self.line, self.dot);
        }
    }

    fn fall(&mut self) {
        self.chassis.cpu.stopped = self.stopped;
        self.chassis.clock.edge = self.edge;
        self.cgb.console_state.clear_vram_dma_claim();
        self.cgb.vram_dma_fall_edge(&mut self.chassis, mode(mode_at(self.line, self.dot)));
        let committed = self.cgb.console_state.vram_dma_claim().committed;
        let (requested, seizes) = (self.cgb.vram_dma.request_standing(), self.cgb.vram_dma.seizes_bus());
        if committed {
            self.commits += 1;
            self.block_bytes = 0;
            self.row("commit");
        } else if requested && !self.requested {
            self.row("pend");
        }
        if seizes != self.seized {
            self.row(if seizes { "seized" } else { "released" });
        }
        self.requested = requested;
        self.seized = seizes;
    }

    fn end_of_m_cycle(&mut self) {
        let held = self.seized || self.cgb.vram_dma.holds_cpu();
        self.cgb.console_state.set_dma_cpu_hold(held);
        self.cgb.console_state.set_bus_suspended(false);
        self.cgb.vram_dma_arbitrate_oam_bus(&mut self.chassis);
        let owed = self.cgb.vram_dma.cursor.escape_byte;
        let cells = self.cgb.vram_dma.block.setup_cells.remaining();
        self.chassis.commits.clear();
        self.cgb.vram_dma_commit_bytes(&mut self.chassis);
        let moved = self.chassis.commits.len();
        if self.cgb.vram_dma.block.setup_cells.remaining() < cells {
            self.set_up_cells += 1;
            self.row("set-up cell");
        }
        if moved == 0 {
            return;
        }
        self.pairs += moved;
        self.block_bytes += moved;
        if owed {
            self.row("free pair");
        } else if self.block_bytes == moved || self.block_bytes == 16 {
            self.row(&format!("{} moved", self.block_bytes));
        }
    }

    fn step(&mut self) {
        self.edge += 2;
        self.fall();
        let dots = 4 / u32::from(self.cgb.steps_per_dot());
        if self.dot % dots == dots - 1 {
            self.end_of_m_cycle();
        }
    }

    fn next_dot(&mut self) {
        self.dot += 1;
        if self.dot == DOTS {
            self.dot = 0;
            self.line = (self.line + 1) % LINES;
        }
    }

    fn frame(&mut self, shown_lines: &[u32]) {
        for _ in 0..LINES * DOTS {
            self.shown = shown_lines.contains(&self.line);
            self.step();
            self.next_dot();
        }
    }

    /// Steps until this dot of this line has been stepped.
    fn through(&mut self, line: u32, dot: u32) {
        loop {
            self.step();
            if (self.line, self.dot) == (line, dot) {
                return;
            }
            self.next_dot();
        }
    }

    fn switch(&mut self) {
        self.cgb.console_state.set_dma_cpu_hold(false);
        self.chassis.ppu.phase = Some((self.dot % 4) as u8);
        self.chassis.clock.edge = self.edge;
        let latched = self.cgb.vram_dma.block.remaining > 0;
        assert!(self.cgb.attempt_speed_switch(&mut self.chassis));
        let cut = latched && self.cgb.vram_dma.block.remaining == 1;
        self.row(if cut { "cut" } else { "no cut" });
    }

    fn blackout(&mut self) {
        self.stopped = true;
        loop {
            self.next_dot();
            self.step();
            if self.cgb.drain_blackout(2) {
                break;
            }
        }
        self.stopped = false;
        self.row("blackout over");
    }

    fn vram_is_the_cartridge(&self) -> bool {
        self.chassis.vram_bus.vram.bank(0).0[..2048] == self.chassis.cartridge[..2048]
    }
}

fn title(text: &str) {
    println!("{text}\nline  dot  event        FF55  left");
}

pub fn run() {
    let mut c = Console::power_on();
    title("A frame; FF55 = FF in front of it");
    c.write(0xFF55, 0xFF);
    c.frame(&[0, 1, 127]);
    println!("in the frame: {} commits, {} set-up cells, {} pairs", c.commits, c.set_up_cells, c.pairs);
    assert!(c.vram_is_the_cartridge());

    println!();
    title("A cut; FF55 = 81 in front of the next frame");
    c.shown = true;
    c.write(0xFF55, 0x81);
    c.through(0, 259);
    c.write(0xFF4D, 0x01);
    c.switch();
    c.blackout();

    println!();
    title("A line at double speed; FF55 = 81 in front of the frame after that");
    c.shown = false;
    c.next_dot();
    c.through(153, 455);
    c.next_dot();
    c.shown = true;
    c.write(0xFF55, 0x81);
    c.through(0, 455);
}
