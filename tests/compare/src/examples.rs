//! The files of the examples folder, by the second reading.

use second::reading::{self, Refusal};
use std::fs;
use std::path::Path;

/// A window that holds the cells of both; what is written does not depend on it.
const CELLS: usize = 65_536;

pub fn hold() -> Result<String, String> {
    let (refusal, text) = canonical(&file("sample.srec")?);
    if refusal != Refusal::default() {
        return Err(format!("sample.srec: {refusal:?}"));
    }
    if text != file("sample.canonical")? {
        let text = String::from_utf8_lossy(&text);
        return Err(format!("sample.canonical should be\n{text}"));
    }
    let (refusal, _) = canonical(&file("lost-bit.srec")?);
    if (refusal.number, refusal.record) != (13, 2) {
        return Err(format!("lost-bit.srec: {refusal:?}"));
    }
    Ok("sample.canonical is right, lost-bit.srec is refused by row 13".to_string())
}

/// What the example program writes: with the text's own header and entry. A refused text has neither.
fn canonical(text: &[u8]) -> (Refusal, Vec<u8>) {
    let (mut memory, mut marks) = (vec![0; CELLS], vec![0; CELLS]);
    let loaded = reading::load(text, 0, &mut memory, &mut marks);
    let header = &loaded.header[..loaded.header_len];
    let text = reading::canonical(0, &memory, &marks, header, loaded.entry.unwrap_or(0));
    (loaded.refusal, text)
}

fn file(name: &str) -> Result<Vec<u8>, String> {
    let folder = Path::new(env!("CARGO_MANIFEST_DIR")).join("../../examples");
    fs::read(folder.join(name)).map_err(|error| format!("{name}: {error}"))
}
