//! The state's fields, as the wrapper reads and prints them, held to docs/STATE-LAYOUT.md and to what the library makes
//! of the same bytes.
use cgb_vram_dma::state::TransferMode;
use cgb_vram_dma::{Cgb, Memory, Status, entry};

const LAYOUT: &str = include_str!("../../docs/STATE-LAYOUT.md");

/// A row of the document's tables. The field is named with its part: `vram_dma.cursor.source`.
struct Row {
    offset: usize,
    size: usize,
    field: String,
    values: &'static str,
}

fn cells(line: &'static str) -> Vec<&'static str> {
    line.trim_matches('|').split('|').map(str::trim).collect()
}

fn quoted(text: &str) -> Option<&str> {
    text.split('`').nth(1)
}

/// The rows in the document's order, which leave no gap, without the spare bytes.
fn rows() -> Vec<Row> {
    let (mut rows, mut part, mut values, mut end) = (Vec::new(), String::new(), 0, 0);
    for line in LAYOUT.lines() {
        let cells = cells(line);
        if let Some(heading) = line.strip_prefix("## ") {
            part = quoted(heading).map(|part| format!("{part}.")).unwrap_or_default();
        } else if cells[0] == "offset" {
            assert_eq!(cells[..3], ["offset", "size", "field"]);
            values = cells.iter().position(|cell| *cell == "values").unwrap();
        } else if let Ok(offset) = cells[0].parse::<usize>() {
            let size = cells[1].parse().unwrap();
            assert_eq!(offset, end, "{line}");
            end = offset + size;
            let Some(name) = quoted(cells[2]) else { continue };
            rows.push(Row { offset, size, field: format!("{part}{name}"), values: cells[values] });
        }
    }
    assert_eq!(end, Cgb::BYTES);
    rows
}

struct Random(u64);

impl Random {
    fn next(&mut self) -> u64 {
        self.0 ^= self.0 << 13;
        self.0 ^= self.0 >> 7;
        self.0 ^= self.0 << 17;
        self.0
    }
}

/// Bytes of a state, at random: each field one of the values that the document gives it.
fn state(rows: &[Row], random: &mut Random) -> [u8; Cgb::BYTES] {
    let mut bytes = [0; Cgb::BYTES];
    for row in rows {
        for at in row.offset..row.offset + row.size {
            let byte = random.next() >> 8;
            bytes[at] = match row.values {
                "flag" | "0 None, 1 Some" => (byte % 2) as u8,
                "0 Idle, 1 General, 2 HBlank" => (byte % 3) as u8,
                "0 where the tag is 0; else any" if bytes[at - 1] == 0 => 0,
                _ => byte as u8,
            };
        }
    }
    bytes
}

/// What the document says of the fields, each in the words of `{:?}`; a tag and its value are one field.
fn told(rows: &[Row], bytes: &[u8; Cgb::BYTES]) -> Vec<(String, String)> {
    let tell = |row: &Row| {
        let own = &bytes[row.offset..row.offset + row.size];
        let number = own.iter().rev().fold(0_u64, |all, byte| (all << 8) | u64::from(*byte));
        let text = match row.values {
            "flag" => (number == 1).to_string(),
            "0 Idle, 1 General, 2 HBlank" => ["Idle", "General", "HBlank"][number as usize].into(),
            "0 None, 1 Some" => {
                (own[0] == 1).then(|| bytes[row.offset + 1]).map_or("None".into(), |n| format!("Some({n},)"))
            }
            "any bytes, the first element first" => own.iter().map(|byte| format!("{byte},")).collect(),
            _ => number.to_string(),
        };
        (row.field.clone(), text)
    };
    rows.iter().filter(|row| row.values != "0 where the tag is 0; else any").map(tell).collect()
}

/// What `{:#?}` prints, a name with its parts for each field.
fn shown(cgb: &Cgb) -> Vec<(String, String)> {
    let (mut fields, mut path): (Vec<(String, String)>, Vec<String>) = (Vec::new(), Vec::new());
    let text = format!("{cgb:#?}");
    for line in text.lines().skip(1).map(|line| line.trim()) {
        match (line.split_once(": "), line) {
            (Some((name, value)), _) if value.ends_with('{') => path.push(format!("{name}.")),
            (Some((name, value)), _) => {
                let value = value.trim_end_matches(',').trim_end_matches('[');
                fields.push((format!("{}{name}", path.concat()), value.into()));
            }
            (None, "}," | "}") => drop(path.pop()),
            (None, "],") => {}
            (None, more) => fields.last_mut().unwrap().1.push_str(if more == ")," { ")" } else { more }),
        }
    }
    fields
}

#[test]
fn the_fields_have_the_document_s_names_and_places() {
    let rows = rows();
    let mut random = Random(0x9E37_79B9_7F4A_7C15);
    for _ in 0..200 {
        let bytes = state(&rows, &mut random);
        assert_eq!(shown(&Cgb::from_bytes(bytes)), told(&rows, &bytes));
    }
}

/// The library's answers about a state that it accepts are those of the fields.
#[test]
fn the_fields_are_what_the_library_answers() {
    let rows = rows();
    let mut random = Random(0x0123_4567_89AB_CDEF);
    let mut asked = 0;
    for _ in 0..2_000 {
        let mut bytes = state(&rows, &mut random);
        // Within the tests of refusal 7, but for no byte left in a mode other than Idle.
        bytes[7] %= 3;
        bytes[9] %= 17;
        bytes[6] %= 8;
        bytes[41] %= 8;
        bytes[80] %= 2;
        bytes[92] %= 0xE0;
        bytes[93] %= 161;
        let cgb = Cgb::from_bytes(bytes);
        let state = cgb.state();
        let Ok(tally) = cgb.tally() else {
            assert!(state.vram_dma.cursor.remaining == 0 && state.vram_dma.cursor.mode != TransferMode::Idle);
            continue;
        };
        asked += 1;
        let cursor = state.vram_dma.cursor;
        let address = 0x8000 + cursor.dest % 0x2000;
        assert_eq!(tally.source, cursor.source);
        assert_eq!(tally.destination_register, cursor.dest);
        assert_eq!((tally.left, tally.escape_owed), (cursor.remaining, cursor.escape_byte));
        let left = cursor.remaining;
        let status = match cursor.mode {
            TransferMode::Idle => Status::Idle,
            TransferMode::General => Status::General { left },
            TransferMode::HBlank => Status::HBlank { left, source: cursor.source, destination: address },
        };
        assert_eq!(cgb.vram_dma_status(), Ok(status));
        assert_eq!(cgb.vram_dma_claim(), Ok(state.console_state.vram_dma_claim));
        assert_eq!(cgb.vram_dma_park_waits_for_fetch(), Ok(state.vram_dma.arb.park_waits_for_fetch));
        let block = state.vram_dma.block.remaining > 0 && left > 0;
        assert_eq!(cgb.vram_dma_request_standing(), Ok(state.vram_dma.arb.pend || block));
        let seizes = state.vram_dma.block.ready_in == 0 && (state.vram_dma.block.setup_cells > 0 || block);
        assert_eq!(cgb.vram_dma_seizes_bus(), Ok(seizes));
        let met = state.double_speed && state.vram_dma.block.seize_falls >= 2 && block;
        assert_eq!(cgb.vram_dma_conflict_source(address), Ok(met.then_some(cursor.source)));
        assert_eq!(cgb.speed_switch_in_progress(), Ok(state.speed_switch_blackout > 0));
        assert_eq!(cgb.double_speed(), Ok(state.double_speed));
        assert_eq!(cgb.svbk_register(), Ok(state.svbk));
        // "from the write until 160 are counted"
        let runs = state.object_dma.running && state.object_dma.counted < 160;
        let said = cgb.object_dma().map(|dma| (dma.runs, dma.counted, dma.page));
        assert_eq!(said, Ok((runs, state.object_dma.counted, state.object_dma.page)));
    }
    assert!(asked > 1_000);
}

/// A record of no call gets 7 where the bytes are no state's, else 6: the library's own word on the bytes.
fn no_state_s(cgb: &Cgb) -> bool {
    let memory = Memory { cartridge: &[], wram: &mut [], vram: &mut [], oam: &mut [] };
    entry::perform(&mut cgb.bytes().clone(), &[0xFF; 16], &mut [0; 24], memory) == 7
}

#[test]
fn unequal_states_are_printed_unequal() {
    let power_on = Cgb::power_on(false);
    let text = format!("{power_on:?}");
    assert!(
        text.starts_with("Cgb { vram_dma: VramDma { cursor: TransferCursor { source: 0, dest: 0, mode: Idle, "),
        "{text}"
    );
    assert!(!text.contains("bytes_of_no_state"), "{text}");
    for at in 0..Cgb::BYTES {
        for byte in 0..=255 {
            let mut bytes = *power_on.bytes();
            bytes[at] = byte;
            let changed = Cgb::from_bytes(bytes);
            let shown = format!("{changed:?}");
            assert_eq!(shown == text, changed == power_on, "{at}: {byte}");
            assert_eq!(
                shown.contains(&format!("bytes_of_no_state: {{{at}: {byte}}}")),
                no_state_s(&changed),
                "{shown}"
            );
        }
    }
}

/// The changes are the lines of the fields that differ, by the document's names and places.
#[test]
fn the_changes_are_those_of_the_document_s_fields() {
    let rows = rows();
    let mut random = Random(0xFEDC_BA98_7654_3210);
    for _ in 0..200 {
        let before = state(&rows, &mut random);
        let mut after = before;
        for row in &rows {
            if random.next() & 3 == 0 {
                let other = state(&rows, &mut random);
                let own = if row.values.contains("tag is 0") { row.offset - 1 } else { row.offset };
                after[own..row.offset + row.size].copy_from_slice(&other[own..row.offset + row.size]);
            }
        }
        // A tag that came without its value.
        if after[49] == 0 {
            after[50] = 0;
        }
        let both = told(&rows, &before).into_iter().zip(told(&rows, &after));
        let differ = both.filter(|(was, is)| was != is);
        let lines: String = differ.map(|((name, was), (_, is))| format!("{name}: {was} -> {is}\n")).collect();
        let changes = Cgb::from_bytes(after).changes_since(&Cgb::from_bytes(before)).to_string();
        assert_eq!(flat(&changes), flat(&lines));
    }
}

/// Without the layout of lists: `{:#?}` has a comma behind the last.
fn flat(text: &str) -> String {
    text.replace([',', '[', ']'], " ").split(' ').filter(|word| !word.is_empty()).collect()
}

#[test]
fn bytes_of_no_state_are_among_the_changes() {
    let before = Cgb::power_on(false);
    assert_eq!(before.changes_since(&before).to_string(), "");
    for (at, byte) in [(8, 2), (91, 2), (102, 1), (247, 255), (50, 1)] {
        let mut bytes = *before.bytes();
        bytes[at] = byte;
        let after = Cgb::from_bytes(bytes);
        assert_eq!(after.changes_since(&before).to_string(), format!("byte {at}, of no state: 0 -> {byte}\n"));
        assert_eq!(before.changes_since(&after).to_string(), format!("byte {at}, of no state: {byte} -> 0\n"));
    }
}
