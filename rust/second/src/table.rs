//! Document 01, "Table" and the check's numbers 1, 4, 2 and 3: a table read as a unit,
//! and a unit written back as bytes.

use crate::record::{read_record, Inline, Record};
use crate::{Refusal, MOST_BYTES, MOST_PARTS, MOST_RECORDS};

/// An inline record and the offset at which it stood in the table it was read from.
#[derive(Clone, Debug, PartialEq, Eq)]
pub struct Placed {
    pub offset: usize,
    pub inline: Inline,
}

#[derive(Clone, Debug, PartialEq, Eq)]
pub struct Target {
    pub offset: usize,
    pub order: u16,
    pub content: Vec<Placed>,
}

#[derive(Clone, Copy, Debug, PartialEq, Eq)]
pub enum PartKind {
    Segment { can_resegment: u8, state: u8 },
    Ignorable,
}

#[derive(Clone, Debug, PartialEq, Eq)]
pub struct Part {
    pub offset: usize,
    pub id: u16,
    pub kind: PartKind,
    pub source: Vec<Placed>,
    pub target: Option<Target>,
}

#[derive(Clone, Debug, PartialEq, Eq)]
pub struct Unit {
    pub can_resegment: u8,
    pub parts: Vec<Part>,
}

/// Where the walk over a table stands: what may come next.
#[derive(Clone, Copy, PartialEq, Eq)]
enum Stand {
    Start,
    AfterUnit,
    Source,
    Target,
    End,
}

/// Numbers 1, 4, 2 and 3 of the check: the unit, or the first bad record.
pub fn read_table(table: &[u8]) -> Result<Unit, Refusal> {
    // "1: over 8,192 bytes", place 0.
    if table.len() > MOST_BYTES {
        return Err(Refusal::without_place(1));
    }
    let mut unit = Unit { can_resegment: b'N', parts: Vec::new() };
    let (mut stand, mut offset, mut records) = (Stand::Start, 0, 0);
    let mut after_text = false;
    while offset < table.len() {
        let bad = |number| Refusal { number, place: offset };
        // "4 if it is the 65th part or 1,025th record": before 2 and 3, whatever begins here.
        let part_mark = matches!(table.get(offset..offset + 2), Some(b"SG") | Some(b"IG"));
        if records == MOST_RECORDS || (part_mark && unit.parts.len() == MOST_PARTS) {
            return Err(bad(4));
        }
        // "else 2 for unknown mark, cut record, bad field or wrong sequence".
        let (record, length) = read_record(table, offset).ok_or(bad(2))?;
        stand = next_stand(stand, &record).ok_or(bad(2))?;
        if !text_fits(&record, after_text) {
            return Err(bad(3));
        }
        after_text = matches!(record, Record::Inline(Inline::Text(_)));
        take(&mut unit, record, offset);
        offset += length;
        records += 1;
    }
    // "a missing record is 2, blamed at the table's end".
    if stand != Stand::End {
        return Err(Refusal { number: 2, place: table.len() });
    }
    Ok(unit)
}

/// "A unit is `UN`, then 1 to 64 parts, then `UE`, nothing after. A part is `SG` or `IG`,
/// its source content, and optionally `TG` with target content."
fn next_stand(stand: Stand, record: &Record) -> Option<Stand> {
    match (stand, record) {
        (Stand::Start, Record::Unit { .. }) => Some(Stand::AfterUnit),
        (Stand::Start | Stand::End, _) => None,
        (_, Record::Segment { .. } | Record::Ignorable { .. }) => Some(Stand::Source),
        (Stand::Source, Record::Target { .. }) => Some(Stand::Target),
        (Stand::Source | Stand::Target, Record::Inline(_)) => Some(stand),
        (Stand::Source | Stand::Target, Record::UnitEnd) => Some(Stand::End),
        _ => None,
    }
}

/// Number 3: "text of length 0, not UTF-8, holding a code point that XML 1.0 forbids,
/// directly after another `TX`, or a `CP` above 10FFFF hexadecimal or of a code point that
/// XML allows".
fn text_fits(record: &Record, after_text: bool) -> bool {
    match record {
        Record::Inline(Inline::Text(text)) => match std::str::from_utf8(text) {
            Ok(text) => {
                !after_text && !text.is_empty() && text.chars().all(|c| xml_allows(c as u32))
            }
            Err(_) => false,
        },
        Record::Inline(Inline::Character(code_point)) => {
            *code_point <= 0x10FFFF && !xml_allows(*code_point)
        }
        _ => true,
    }
}

/// XML 1.0, production 2 (Char).
pub fn xml_allows(code_point: u32) -> bool {
    matches!(code_point,
        0x9 | 0xA | 0xD | 0x20..=0xD7FF | 0xE000..=0xFFFD | 0x10000..=0x10FFFF)
}

fn take(unit: &mut Unit, record: Record, offset: usize) {
    let new_part = |id, kind| Part { offset, id, kind, source: Vec::new(), target: None };
    match record {
        Record::Unit { can_resegment } => unit.can_resegment = can_resegment,
        Record::UnitEnd => {}
        Record::Segment { id, can_resegment, state } => {
            unit.parts.push(new_part(id, PartKind::Segment { can_resegment, state }));
        }
        Record::Ignorable { id } => unit.parts.push(new_part(id, PartKind::Ignorable)),
        Record::Target { order } => {
            last(unit).target = Some(Target { offset, order, content: Vec::new() });
        }
        Record::Inline(inline) => {
            let part = last(unit);
            let content = match &mut part.target {
                Some(target) => &mut target.content,
                None => &mut part.source,
            };
            content.push(Placed { offset, inline });
        }
    }
}

fn last(unit: &mut Unit) -> &mut Part {
    unit.parts.last_mut().expect("the sequence was judged before")
}

/// Set target: "Then 4, 2, 3, place in the content. The new content is judged by the content
/// rules from its own first byte; 4 is its own 1,025th record."
pub fn read_content(bytes: &[u8]) -> Result<Vec<Placed>, Refusal> {
    let mut content: Vec<Placed> = Vec::new();
    let mut offset = 0;
    while offset < bytes.len() {
        let bad = |number| Refusal { number, place: offset };
        if content.len() == MOST_RECORDS {
            return Err(bad(4));
        }
        let (record, length) = read_record(bytes, offset).ok_or(bad(2))?;
        let Record::Inline(inline) = &record else {
            return Err(bad(2));
        };
        let after_text = matches!(content.last(), Some(Placed { inline: Inline::Text(_), .. }));
        if !text_fits(&record, after_text) {
            return Err(bad(3));
        }
        content.push(Placed { offset, inline: inline.clone() });
        offset += length;
    }
    Ok(content)
}

impl Unit {
    /// The unit as its records in table order.
    pub fn records(&self) -> Vec<Record> {
        let mut records = vec![Record::Unit { can_resegment: self.can_resegment }];
        for part in &self.parts {
            records.push(match part.kind {
                PartKind::Segment { can_resegment, state } => {
                    Record::Segment { id: part.id, can_resegment, state }
                }
                PartKind::Ignorable => Record::Ignorable { id: part.id },
            });
            let inline = |placed: &Placed| Record::Inline(placed.inline.clone());
            records.extend(part.source.iter().map(inline));
            if let Some(target) = &part.target {
                records.push(Record::Target { order: target.order });
                records.extend(target.content.iter().map(inline));
            }
        }
        records.push(Record::UnitEnd);
        records
    }

    pub fn write(&self) -> Vec<u8> {
        let mut out = Vec::new();
        for record in self.records() {
            record.write(&mut out);
        }
        out
    }

    /// "canResegment (Y, N, or - for the unit's)"; an ignorable "takes the unit's".
    pub fn is_closed(&self, part: &Part) -> bool {
        match part.kind {
            PartKind::Segment { can_resegment, .. } if can_resegment != b'-' => {
                can_resegment == b'N'
            }
            _ => self.can_resegment == b'N',
        }
    }

    /// The part with this number; "parts count from 1".
    pub fn part(&self, number: u16) -> Option<&Part> {
        self.parts.get((number as usize).checked_sub(1)?)
    }
}
