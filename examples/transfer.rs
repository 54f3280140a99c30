//! A General transfer of 16 bytes, from the cartridge to VRAM, printed as it moves (docs/LIBRARY.md). The cause of its last pair says that it
//! was the last.
//!
//!     sh tools/library
//!     (cd rust && cargo run --release --offline --example transfer)
use cgb_vram_dma::{CARTRIDGE_BYTES, Cause, Cgb, Fall, Memory, OAM_BYTES, Refusal, VRAM_BYTES, WRAM_BYTES};

fn main() -> Result<(), Refusal> {
    let cartridge: Vec<u8> = (0..CARTRIDGE_BYTES).map(|i| (i * 3 + 1) as u8).collect();
    let mut wram = vec![0; WRAM_BYTES];
    let mut vram = vec![0; VRAM_BYTES];
    let mut oam = vec![0; OAM_BYTES];
    let mut cgb = Cgb::power_on(false);
    cgb.write(&mut wram, 0xFF55, 0x00, true)?;
    let cause = loop {
        cgb.vram_dma_fall_edge(Fall { mode: 3, ..Fall::default() })?;
        let memory = Memory { cartridge: &cartridge, wram: &mut wram, vram: &mut vram, oam: &mut oam };
        let moved = cgb.vram_dma_commit_bytes(memory, true, false, 0)?;
        let mut last = None;
        for (pair, byte) in moved.pairs.into_iter().flatten() {
            println!("{:04X} -> {:04X}: {byte:02X}", pair.source, pair.destination);
            last = Some(pair.cause);
        }
        if last != Some(Cause::GoingOn) {
            break last;
        }
    };
    // Carried, past FFFFh, would have cut some of the 16 off.
    assert_eq!(cause, Some(Cause::CountedOut));
    assert_eq!(vram[..16], cartridge[..16]);
    println!("16 bytes moved");
    Ok(())
}
