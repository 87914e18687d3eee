//! Seeded jobs for order 1 of document 02: XML texts to read and tables to write.

mod changes;
mod damage;
mod document;
mod kinds;
mod neighbours;
mod spelling;
mod units;

use super::damage::refused_table;
use super::line_job::{room, InputJob, InputKind, LineKind, LineOperation, ENOUGH};
use super::random::Random;
use crate::table::Unit;
use crate::xml::{unit_of, write_xml};
use crate::MOST_BYTES;

use document::Piece;

pub use kinds::XmlKind;
pub use neighbours::{xml_neighbours, SMALL_TEXT};
pub use units::{deep_unit, valid_unit};

/// A text to read or a table to write.
pub type XmlJob = InputJob<XmlKind>;

/// The XML job of this seed and number.
pub fn xml_job(seed: u64, number: u64) -> XmlJob {
    let random = &mut Random::of_job(seed, number);
    let kind = random.by_share(XmlKind::ALL, XmlKind::SHARES);
    let input = input_of_kind(random, kind);
    let room = room_for(random, kind.operation(), &input);
    XmlJob { kind, room, input }
}

fn input_of_kind(random: &mut Random, kind: XmlKind) -> Vec<u8> {
    match kind {
        XmlKind::Spelled => {
            let unit = valid_unit(random);
            spelled_unit(random, &unit)
        }
        XmlKind::RuleBroken => {
            let unit = units::broken_unit(random);
            spelled_unit(random, &unit)
        }
        XmlKind::Changed => changed_text(random),
        XmlKind::Damaged if random.chance(15) => changes::foreign_text(random),
        XmlKind::Damaged => {
            let mut text = any_text(random);
            (0..1 + random.below(3)).for_each(|_| damage::damage(random, &mut text));
            text
        }
        XmlKind::Cut => {
            let mut text = any_text(random);
            if random.chance(25) {
                damage::damage(random, &mut text);
            }
            damage::cut(random, &mut text);
            text
        }
        XmlKind::Deep => {
            let unit = deep_unit(random);
            spelled_unit(random, &unit)
        }
        XmlKind::Long => {
            let unit = units::long_unit(random);
            spelled_unit(random, &unit)
        }
        XmlKind::Written => valid_unit(random).write(),
        XmlKind::WrittenRefused => refused_table(random),
        XmlKind::WrittenDeep => deep_unit(random).write(),
    }
}

/// The unit in any spelling.
pub fn spelled_unit(random: &mut Random, unit: &Unit) -> Vec<u8> {
    let pieces = document(random, unit);
    spelling::spelled(random, &pieces)
}

/// The unit under any id.
fn document(random: &mut Random, unit: &Unit) -> Vec<Piece> {
    let id = 1 + random.below(65535) as u16;
    document::document(unit, id)
}

/// A valid unit in any spelling, after changes to its document.
fn changed_text(random: &mut Random) -> Vec<u8> {
    let unit = valid_unit(random);
    let mut pieces = document(random, &unit);
    let changes = *random.pick(&[1, 1, 1, 2, 3]);
    (0..changes).for_each(|_| changes::change(random, &mut pieces));
    spelling::spelled(random, &pieces)
}

fn any_text(random: &mut Random) -> Vec<u8> {
    if random.chance(30) {
        return changed_text(random);
    }
    let unit = valid_unit(random);
    spelled_unit(random, &unit)
}

/// The length of the output: enough, or about what the result needs.
fn room_for(random: &mut Random, operation: LineOperation, input: &[u8]) -> usize {
    let (enough, needed) = match operation {
        // The table read, kept by the rules or not.
        LineOperation::ReadXml => (
            *random.pick(&[MOST_BYTES, MOST_BYTES, MOST_BYTES + 1, 65535]),
            unit_of(input).map_or(100, |unit| unit.write().len()),
        ),
        _ => (ENOUGH, write_xml(input, ENOUGH).map_or(100, |text| text.len())),
    };
    room(random, needed, enough)
}
