//! The review sheet (document 02, order 5): one pass over the contents of a
//! checked unit into memory kept from call to call, then one copy.

use crate::format::*;
use crate::ops::{no, with_desk};
use crate::unit::{Content, Part};
use crate::Answer;

const CELLS: usize = 33;
const BLANKS: [u8; CELLS] = [b' '; CELLS];

pub fn sheet(table: &[u8], out: &mut [u8]) -> Answer {
    with_desk(|d| {
        d.unit.check(table)?;
        d.sheet.clear();
        for (i, part) in d.unit.parts.iter().enumerate() {
            put_part(&mut d.sheet, table, i + 1, part);
        }
        let len = d.sheet.len();
        if len > out.len() {
            return no(15);
        }
        out[..len].copy_from_slice(&d.sheet);
        Ok(len)
    })
}

fn put_part(sheet: &mut Vec<u8>, table: &[u8], position: usize, part: &Part) {
    let mut source = Column::of(table, &part.source);
    let mut target = part.target.as_ref().map_or(Column::EMPTY, |t| Column::of(table, &t.content));
    let mut head = *b"            ";
    put_decimal(&mut head[..3], position as u32);
    if part.id != 0 {
        put_decimal(&mut head[4..9], u32::from(part.id));
    }
    if part.segment {
        head[10] = part.state;
    }
    loop {
        sheet.extend_from_slice(&head);
        source.put_row(sheet);
        sheet.push(b' ');
        target.put_row(sheet);
        sheet.push(b'\n');
        if source.is_done() && target.is_done() {
            return;
        }
        head = *b"            ";
    }
}

/// Puts the digits at the end of `field`; how many there are.
fn put_decimal(field: &mut [u8], mut n: u32) -> usize {
    let mut at = field.len();
    loop {
        at -= 1;
        field[at] = b'0' + (n % 10) as u8;
        n /= 10;
        if n == 0 {
            return field.len() - at;
        }
    }
}

/// What is left of a content.
struct Column<'a> {
    /// Bytes of the text that is being shown.
    text: &'a [u8],
    /// Records.
    rest: &'a [u8],
}

impl<'a> Column<'a> {
    const EMPTY: Column<'static> = Column { text: &[], rest: &[] };

    fn of(table: &'a [u8], content: &Content) -> Column<'a> {
        Column { text: &[], rest: &table[content.bytes()] }
    }

    fn is_done(&self) -> bool {
        self.text.is_empty() && self.rest.is_empty()
    }

    /// All that fits a row, and blanks behind it.
    fn put_row(&mut self, sheet: &mut Vec<u8>) {
        let mut left = CELLS;
        loop {
            left -= self.put_text(sheet, left);
            if !self.text.is_empty() {
                break;
            }
            // The content was checked: where no record is left it ends.
            let Some((mark, len)) = frame(self.rest, 0) else { break };
            if mark == Mark::Tx {
                self.text = &self.rest[4..len];
            } else {
                let mut shown = [0; 7];
                let cells = show(&mut shown, mark, self.rest);
                if cells > left {
                    break;
                }
                sheet.extend_from_slice(&shown[..cells]);
                left -= cells;
            }
            self.rest = &self.rest[len..];
        }
        sheet.extend_from_slice(&BLANKS[..left]);
    }

    /// As much of the text as fits; how many cells it takes.
    fn put_text(&mut self, sheet: &mut Vec<u8>, left: usize) -> usize {
        let most = self.text.len().min(left);
        let (bytes, cells) = match nth_code_point(self.text, left) {
            _ if self.text[..most].is_ascii() => (most, most),
            Ok(bytes) => (bytes, left),
            Err(cells) => (self.text.len(), cells),
        };
        let (shown, later) = self.text.split_at(bytes);
        let as_shown = |&b: &u8| if matches!(b, b'\t' | b'\n' | b'\r') { b'.' } else { b };
        sheet.extend(shown.iter().map(as_shown));
        self.text = later;
        cells
    }
}

/// The shown form of a `CP` or a marker at the head of `record`; its cells.
fn show(shown: &mut [u8; 7], mark: Mark, record: &[u8]) -> usize {
    let Mark::Coded(kind) = mark else {
        shown[0] = b'#';
        return 1;
    };
    let mut field = [0; 5];
    let digits = put_decimal(&mut field, u32::from(be16(record, 2)));
    let closes = kind.is_end() || kind == Kind::Ie;
    let before = usize::from(!closes);
    shown[0] = b'{';
    shown[before..before + digits].copy_from_slice(&field[5 - digits..]);
    shown[before + digits] = b'}';
    before + digits + usize::from(closes || kind == Kind::Ph)
}
