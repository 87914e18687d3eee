//! Lines and columns.

/// The line and the column of a place, counted from 1. Lines end as XML has it, by CR LF, CR or LF;
/// columns count characters.
pub fn position(text: &[u8], place: usize) -> (usize, usize) {
    let (mut line, mut column) = (1, 1);
    for (at, byte) in text[..place].iter().enumerate() {
        match byte {
            b'\r' if text.get(at + 1) == Some(&b'\n') => {}
            b'\r' | b'\n' => (line, column) = (line + 1, 1),
            // not the first byte of a character
            0x80..=0xBF => {}
            _ => column += 1,
        }
    }
    (line, column)
}
