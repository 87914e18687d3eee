//! Document 01, "Table": one record, read and written.

/// "A record opens with a two-byte mark (ASCII)".
pub type Mark = [u8; 2];

/// Rule 10: "class (standalone, pair, isolated start, isolated end, annotation)".
#[derive(Clone, Copy, Debug, PartialEq, Eq)]
pub enum Class {
    Standalone,
    Pair,
    IsolatedStart,
    IsolatedEnd,
    Annotation,
}

#[derive(Clone, Copy, Debug, PartialEq, Eq, PartialOrd, Ord)]
pub enum Half {
    Start,
    End,
}

/// `PH`, `PO`, `PC`, `SC`, `EC`, `IS`, `IE`.
#[derive(Clone, Debug, PartialEq, Eq)]
pub struct Code {
    pub mark: Mark,
    pub id: u16,
    pub copy_of: u16,
    pub data_ref: u16,
    pub can_copy: u8,
    pub can_delete: u8,
    pub can_overlap: u8,
    pub can_reorder: u8,
}

/// `MO`, `SM` (with translate) and `MC`, `EM` (without).
#[derive(Clone, Debug, PartialEq, Eq)]
pub struct Annotation {
    pub mark: Mark,
    pub id: u16,
    pub translate: Option<u8>,
}

/// An inline record. Text is kept as bytes: whether it is UTF-8 is judged after reading.
#[derive(Clone, Debug, PartialEq, Eq)]
pub enum Inline {
    Text(Vec<u8>),
    Character(u32),
    Code(Code),
    Annotation(Annotation),
}

#[derive(Clone, Debug, PartialEq, Eq)]
pub enum Record {
    Unit { can_resegment: u8 },
    UnitEnd,
    Segment { id: u16, can_resegment: u8, state: u8 },
    Ignorable { id: u16 },
    Target { order: u16 },
    Inline(Inline),
}

/// "Two-byte numbers have the high byte first".
pub fn number_at(bytes: &[u8], offset: usize) -> u16 {
    u16::from_be_bytes([bytes[offset], bytes[offset + 1]])
}

/// The length of the record at the offset by its mark (and a text's length field);
/// nothing for an unknown mark or a cut record.
pub fn record_length(bytes: &[u8], offset: usize) -> Option<usize> {
    let rest = &bytes[offset..];
    let length = match rest.get(..2)? {
        b"UE" => 2,
        b"UN" => 3,
        b"IG" | b"TG" | b"MC" | b"EM" => 4,
        b"MO" | b"SM" => 5,
        b"SG" | b"CP" => 6,
        b"PH" | b"PO" | b"PC" | b"SC" | b"EC" | b"IS" | b"IE" => 12,
        b"TX" if rest.len() >= 4 => 4 + number_at(rest, 2) as usize,
        _ => return None,
    };
    (length <= rest.len()).then_some(length)
}

/// Reads the record at the offset, with its length; nothing for an unknown mark, a cut
/// record or a bad field (number 2). What number 3 says of text is not judged here.
pub fn read_record(bytes: &[u8], offset: usize) -> Option<(Record, usize)> {
    let length = record_length(bytes, offset)?;
    let record = &bytes[offset..offset + length];
    let fields = &record[2..];
    let read = match &record[..2] {
        b"UN" => Record::Unit { can_resegment: letter(fields[0], b"YN")? },
        b"UE" => Record::UnitEnd,
        b"SG" => Record::Segment {
            id: number_at(fields, 0),
            can_resegment: letter(fields[2], b"YN-")?,
            state: letter(fields[3], b"ITRF")?,
        },
        b"IG" => Record::Ignorable { id: number_at(fields, 0) },
        b"TG" => Record::Target { order: number_at(fields, 0) },
        b"TX" => Record::Inline(Inline::Text(fields[2..].to_vec())),
        b"CP" => Record::Inline(Inline::Character(
            u32::from(number_at(fields, 0)) << 16 | u32::from(number_at(fields, 2)),
        )),
        b"MO" | b"SM" | b"MC" | b"EM" => Record::Inline(read_annotation(record)?),
        _ => Record::Inline(read_code(record)?),
    };
    Some((read, length))
}

fn letter(byte: u8, allowed: &[u8]) -> Option<u8> {
    allowed.contains(&byte).then_some(byte)
}

/// "Of ids and references only part ids, copyOf and dataRef may be 0."
fn inline_id(record: &[u8]) -> Option<u16> {
    Some(number_at(record, 2)).filter(|&id| id != 0)
}

fn read_annotation(record: &[u8]) -> Option<Inline> {
    let translate = match record.get(4) {
        Some(&byte) => Some(letter(byte, b"YN-")?),
        None => None,
    };
    Some(Inline::Annotation(Annotation {
        mark: [record[0], record[1]],
        id: inline_id(record)?,
        translate,
    }))
}

/// "canOverlap Y/N (always - in `PH`)"; - elsewhere is a bad field.
fn read_code(record: &[u8]) -> Option<Inline> {
    let overlap_letters: &[u8] = if &record[..2] == b"PH" { b"-" } else { b"YN" };
    Some(Inline::Code(Code {
        mark: [record[0], record[1]],
        id: inline_id(record)?,
        copy_of: number_at(record, 4),
        data_ref: number_at(record, 6),
        can_copy: letter(record[8], b"YN")?,
        can_delete: letter(record[9], b"YN")?,
        can_overlap: letter(record[10], overlap_letters)?,
        can_reorder: letter(record[11], b"YFN")?,
    }))
}

impl Record {
    pub fn write(&self, out: &mut Vec<u8>) {
        match self {
            Record::Unit { can_resegment } => out.extend([b'U', b'N', *can_resegment]),
            Record::UnitEnd => out.extend(b"UE"),
            Record::Segment { id, can_resegment, state } => {
                out.extend(b"SG");
                out.extend(id.to_be_bytes());
                out.extend([*can_resegment, *state]);
            }
            Record::Ignorable { id } => {
                out.extend(b"IG");
                out.extend(id.to_be_bytes());
            }
            Record::Target { order } => {
                out.extend(b"TG");
                out.extend(order.to_be_bytes());
            }
            Record::Inline(inline) => inline.write(out),
        }
    }
}

impl Inline {
    pub fn write(&self, out: &mut Vec<u8>) {
        match self {
            Inline::Text(text) => {
                out.extend(b"TX");
                out.extend((text.len() as u16).to_be_bytes());
                out.extend(text);
            }
            Inline::Character(code_point) => {
                out.extend(b"CP");
                out.extend(code_point.to_be_bytes());
            }
            Inline::Code(code) => {
                out.extend(code.mark);
                for number in [code.id, code.copy_of, code.data_ref] {
                    out.extend(number.to_be_bytes());
                }
                out.extend([code.can_copy, code.can_delete, code.can_overlap, code.can_reorder]);
            }
            Inline::Annotation(annotation) => {
                out.extend(annotation.mark);
                out.extend(annotation.id.to_be_bytes());
                out.extend(annotation.translate);
            }
        }
    }

    /// The mark of a code or of a half of an annotation.
    pub fn mark(&self) -> Option<&Mark> {
        match self {
            Inline::Code(code) => Some(&code.mark),
            Inline::Annotation(annotation) => Some(&annotation.mark),
            _ => None,
        }
    }

    pub fn id(&self) -> Option<u16> {
        match self {
            Inline::Code(code) => Some(code.id),
            Inline::Annotation(annotation) => Some(annotation.id),
            _ => None,
        }
    }

    pub fn code(&self) -> Option<&Code> {
        match self {
            Inline::Code(code) => Some(code),
            _ => None,
        }
    }

    pub fn class(&self) -> Option<Class> {
        Some(match self.mark()? {
            b"PH" => Class::Standalone,
            b"IS" => Class::IsolatedStart,
            b"IE" => Class::IsolatedEnd,
            b"PO" | b"PC" | b"SC" | b"EC" => Class::Pair,
            _ => Class::Annotation,
        })
    }

    /// Which half of a pair or of an annotation this is.
    pub fn half(&self) -> Option<Half> {
        match self.mark()? {
            b"PO" | b"SC" | b"MO" | b"SM" => Some(Half::Start),
            b"PC" | b"EC" | b"MC" | b"EM" => Some(Half::End),
            _ => None,
        }
    }

    /// Rule 6: "starts (`PH PO SC IS IE MO SM`)".
    pub fn is_start(&self) -> bool {
        self.mark().is_some() && self.half() != Some(Half::End)
    }
}
