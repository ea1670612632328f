//! Tables as the C calls take them: a cell is two bytes, low byte first.

use crate::table::Table;

const STATE_BYTES: usize = 64;

/// Any byte count but states × 64 gets 4: such a table is left without cells, so that 4 applies in its place of the order.
pub fn from_bytes(header: &Table, bytes: &[u8]) -> Table {
    let fits = header.states.checked_mul(STATE_BYTES) == Some(bytes.len());
    let cells = if fits { bytes.chunks(2).map(|two| u16::from(two[0]) | u16::from(two[1]) << 8).collect() } else { Vec::new() };
    Table { cells, ..header.clone() }
}

pub fn to_bytes(cells: &[u16]) -> Vec<u8> {
    cells.iter().flat_map(|cell| [(cell & 255) as u8, (cell >> 8) as u8]).collect()
}
