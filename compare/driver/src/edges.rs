//! The smallest scores found in which a reading lies past the edge of the map or of the bank.

use model::ROW_WORDS;

const ONE: u32 = 0x3f80_0000;
const NOTE_120: u32 = 0x42f0_0000;

/// A score at 32,000 Hz that holds one reading, in its last row.
pub struct EdgeScore {
    /// The table, and what is past its reach there.
    pub edge: &'static str,
    pub instrument: u32,
    pub frames: u32,
    pub rows: Vec<u32>,
    /// Where map and bank are zero but for this entry (255 of the map, 1024 of the bank): the last sample of out.
    pub entry: usize,
    pub sample: u32,
}

/// High and low notes in turn draw the path far out, with a small radius until the last row. The offset is nearly 0.
fn drawn_out(notes: &[u8], harmonics: u32) -> Vec<u32> {
    let row = |note: &u8| [f32::from(*note).to_bits(), 0, 0x3f07_0000, harmonics, 0];
    let mut rows: Vec<u32> = notes.iter().flat_map(row).collect();
    let timbre = rows.len() - ROW_WORDS + 1;
    rows[timbre] = ONE;
    rows
}

/// Map and bank past each of their edges.
pub fn smallest() -> [EdgeScore; 6] {
    let map_y = [
        [NOTE_120, ONE, ONE, ONE, 0],
        [NOTE_120, ONE, ONE, ONE, 0],
        [NOTE_120, ONE, 0x3f00_0000, ONE, 0],
        [0, ONE, 0, ONE, 0],
    ];
    let bank_x = [
        [NOTE_120, ONE, 0x3f00_0000, 0x3f20_0000, 0],
        [0x41a0_0000, ONE, ONE, 0x3f20_0000, 0],
        [NOTE_120, ONE, 0x3f00_0000, 0x3f20_0000, 0],
        [0x4248_0000, ONE, ONE, 0x3f40_0000, 0],
    ];
    let bank_y = [93, 47, 108, 1, 107, 14, 107, 36, 104, 108, 92, 119, 12];
    let bank_x_and_y = [92, 61, 107, 40, 107, 10, 107, 55, 119, 68, 118, 91, 119, 3];
    let map_x = [94, 61, 107, 38, 107, 27, 107, 18, 103, 108, 93, 117, 86, 119, 16];
    let map_x_and_y =
        [116, 8, 120, 49, 119, 15, 118, 36, 103, 55, 110, 100, 88, 112, 108, 118, 100, 101, 120, 116, 112, 112, 6];
    let on_map = |edge, frames, rows, entry, sample| EdgeScore { edge, instrument: 2, frames, rows, entry, sample };
    let on_bank = |edge, frames, rows, entry, sample| EdgeScore { edge, instrument: 1, frames, rows, entry, sample };
    [
        on_map("map, y alone", 1, map_y.concat(), 3_968, 0x3ee0_f75c),
        on_bank("bank 2, x alone", 2, bank_x.concat(), 25_128, 0x3e34_7b40),
        on_bank("bank 2, y alone", 4, drawn_out(&bank_y, 0x3f40_0000), 25_208, 0xbdbb_748e),
        on_bank("bank 2, x and y", 4, drawn_out(&bank_x_and_y, 0x3f40_0000), 25_208, 0xbe1f_5535),
        on_map("map, x alone", 4, drawn_out(&map_x, ONE), 4_030, 0x3f45_3d43),
        on_map("map, x and y", 6, drawn_out(&map_x_and_y, ONE), 4_030, 0x3f40_876a),
    ]
}
