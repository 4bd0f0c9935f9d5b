//! Bytes around a place, the place marked.

/// Bytes in a row.
const ROW: usize = 16;
/// Rows before and behind that of the place.
const AROUND: usize = 2;

/// The rows around a place: offsets in decimal, bytes in hexadecimal, and a mark below the place.
/// At the end of the bytes the mark is where the next byte would be.
pub fn dump(bytes: &[u8], place: usize) -> String {
    let row_of_place = place / ROW;
    let first = row_of_place.saturating_sub(AROUND);
    let rows = bytes.chunks(ROW).enumerate().skip(first);
    let mut text = String::new();
    for (row, bytes) in rows.take(row_of_place - first + AROUND + 1) {
        text.push_str(&line(row * ROW, bytes));
        if row == row_of_place {
            text.push_str(&mark(place));
        }
    }
    if place >= bytes.len() && place % ROW == 0 {
        text.push_str(&format!("  {place:>9}  (the bytes end here)\n"));
        text.push_str(&mark(place));
    }
    text
}

/// A row: `      432  00 01 .. |..|`.
fn line(offset: usize, bytes: &[u8]) -> String {
    let hex: Vec<String> = bytes.iter().map(|byte| format!("{byte:02x}")).collect();
    let shown = |byte: &u8| match byte {
        b' '..=b'~' => char::from(*byte),
        _ => '.',
    };
    let text: String = bytes.iter().map(shown).collect();
    format!("  {offset:>9}  {:<47}  |{text}|\n", hex.join(" "))
}

/// The line below the row of a place.
fn mark(place: usize) -> String {
    let column = place % ROW * 3;
    format!("{:13}{:column$}^^ {place}\n", "", "")
}
