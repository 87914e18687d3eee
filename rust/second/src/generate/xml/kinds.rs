//! The kinds of XML jobs.

use crate::generate::line_job::{InputKind, LineKind, LineOperation};

#[derive(Clone, Copy, Debug, PartialEq, Eq, PartialOrd, Ord)]
pub enum XmlKind {
    Spelled,
    RuleBroken,
    Changed,
    Damaged,
    Cut,
    Deep,
    Long,
    Written,
    WrittenRefused,
    WrittenDeep,
}

impl LineKind for XmlKind {
    const ALL: &'static [XmlKind] = &[
        XmlKind::Spelled,
        XmlKind::RuleBroken,
        XmlKind::Changed,
        XmlKind::Damaged,
        XmlKind::Cut,
        XmlKind::Deep,
        XmlKind::Long,
        XmlKind::Written,
        XmlKind::WrittenRefused,
        XmlKind::WrittenDeep,
    ];

    const SHARES: &'static [usize] = &[24, 8, 20, 10, 10, 5, 3, 10, 6, 4];

    fn name(self) -> &'static str {
        match self {
            XmlKind::Spelled => "valid units in any spelling",
            XmlKind::RuleBroken => "units that break a rule",
            XmlKind::Changed => "other tags and attributes",
            XmlKind::Damaged => "damaged bytes",
            XmlKind::Cut => "cut texts",
            XmlKind::Deep => "depth about 32",
            XmlKind::Long => "limits of the table read",
            XmlKind::Written => "valid tables written",
            XmlKind::WrittenRefused => "refused tables written",
            XmlKind::WrittenDeep => "depth about 32 written",
        }
    }
}

impl InputKind for XmlKind {
    fn operation(self) -> LineOperation {
        match self {
            XmlKind::Written | XmlKind::WrittenRefused | XmlKind::WrittenDeep => {
                LineOperation::WriteXml
            }
            _ => LineOperation::ReadXml,
        }
    }
}
