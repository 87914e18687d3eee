//! The three units that are measured: a typical one, one of a long text, and a dense one; and one
//! of many chains, whose target is set.

pub struct Unit {
    pub name: &'static str,
    pub table: Vec<u8>,
    /// The content of a target for part 1, as set target takes it.
    pub content: Vec<u8>,
    /// The id of a pair of the source.
    pub pair: u16,
    /// Where part 1 is split: so many items of its source.
    pub cut: u16,
}

pub fn all() -> Vec<Unit> {
    vec![typical(), long_text(), dense()]
}

fn text(length: usize) -> Vec<u8> {
    let words = "Tür öffnet nach 4 s. ".bytes().cycle();
    let mut text: Vec<u8> = words.take(length).collect();
    while std::str::from_utf8(&text).is_err() {
        let last = text.len() - 1;
        text[last] = b'.';
        if std::str::from_utf8(&text).is_err() {
            text[last - 1] = b'.';
        }
    }
    [b"TX".as_slice(), &(length as u16).to_be_bytes(), &text].concat()
}

fn code(mark: &[u8; 2], id: u16, letters: &[u8; 4]) -> Vec<u8> {
    [mark.as_slice(), &id.to_be_bytes(), &[0, 0, 0, 0], letters].concat()
}

fn number(mark: &[u8; 2], number: u16) -> Vec<u8> {
    [mark.as_slice(), &number.to_be_bytes()].concat()
}

/// A pair around a text, and a standalone code.
fn marked(first_id: u16, length: usize) -> Vec<u8> {
    [
        code(b"PO", first_id, b"YYYY"),
        text(length),
        code(b"PC", first_id, b"YYYY"),
        code(b"PH", first_id + 1, b"YN-Y"),
    ]
    .concat()
}

/// Three parts with two targets: 24 records.
fn typical() -> Unit {
    let content = marked(11, 32);
    let table = [
        b"UNY".to_vec(),
        [b"SG\0\x01-T".to_vec(), content.clone(), number(b"TG", 1), content.clone()].concat(),
        [b"IG\0\0".to_vec(), text(1)].concat(),
        [b"SG\0\x02-I".to_vec(), text(24), marked(21, 24)].concat(),
        [number(b"TG", 3), text(20), b"SM\0\x1F-".to_vec(), b"EM\0\x1F".to_vec()].concat(),
        b"UE".to_vec(),
    ]
    .concat();
    Unit { name: "typical", table, content, pair: 11, cut: 3 }
}

/// One text of 8,000 bytes between a pair, cut in its middle.
fn long_text() -> Unit {
    let content = marked(11, 60);
    let table = [
        b"UNYSG\0\x01-T".to_vec(),
        marked(11, 8000),
        b"SG\0\x02-T".to_vec(),
        text(9),
        b"UE".to_vec(),
    ]
    .concat();
    Unit { name: "long text", table, content, pair: 11, cut: 3600 }
}

/// 64 parts, each with a target; 762 records in 8,165 bytes.
fn dense() -> Unit {
    let mut table = b"UNY".to_vec();
    let mut left = 8165 - 3 - 2 - 64 * (6 + 4 + 2 * 40) - 60 * 9;
    for part in 0..64u16 {
        let id = 1000 + 10 * part;
        let share = left / (2 * (64 - usize::from(part)));
        left -= 2 * share;
        table.extend([b"SG\0\0-T".to_vec(), marked(id, share)].concat());
        if part < 60 {
            table.extend([number(b"MO", id + 2), b"-".to_vec(), number(b"MC", id + 2)].concat());
        }
        table.extend([number(b"TG", part + 1), marked(id, share)].concat());
    }
    table.extend(b"UE");
    Unit { name: "dense", table, content: marked(1000, 14), pair: 1000, cut: 3 }
}

/// A segment of 150 chains, each an F and an N, whose target is set with them in place, and with
/// them in reverse sequence.
pub fn chains() -> [Unit; 2] {
    let chain = |id: u16| [code(b"PH", id, b"NN-F"), code(b"PH", id + 1, b"NN-N")].concat();
    let chains: Vec<Vec<u8>> = (0..150).map(|number| chain(10 + 2 * number)).collect();
    let table = [b"UNYSG\0\x01-I".to_vec(), chains.concat(), b"UE".to_vec()].concat();
    let reversed: Vec<u8> = chains.iter().rev().flatten().copied().collect();
    let unit = |name, content| Unit { name, table: table.clone(), content, pair: 0, cut: 0 };
    [unit("chains", chains.concat()), unit("reversed", reversed)]
}
