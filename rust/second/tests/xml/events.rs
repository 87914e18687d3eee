//! What an XML parser must tell of a table's text: said here anew from the order's words and the
//! table's records. Neither the reader nor the writer is asked.

use second::desk::hexadecimal;
use second::record::{Code, Inline, Record};
use second::rules::check;

/// Names and values; an empty value is none.
type Attributes = Vec<(&'static str, String)>;

/// The events, as expat.py names them.
pub fn events(table: &[u8]) -> Vec<String> {
    let records = check(table).expect("a valid table").records();
    let mut events = Events::default();
    for (at, record) in records.iter().enumerate() {
        match record {
            Record::Inline(Inline::Code(code)) => events.code(code, close(&records[at..], code)),
            Record::Inline(inline) => events.inline(inline),
            other => events.head(other),
        }
    }
    events.told
}

/// The close of a pc: the next one of its id.
fn close<'a>(behind: &'a [Record], open: &Code) -> Option<&'a Code> {
    behind.iter().find_map(|record| match record {
        Record::Inline(Inline::Code(code)) if &code.mark == b"PC" && code.id == open.id => {
            Some(code)
        }
        _ => None,
    })
}

#[derive(Default)]
struct Events {
    told: Vec<String>,
    /// The elements that are open: unit, part, content, and what is inside.
    open: Vec<&'static str>,
}

impl Events {
    fn start(&mut self, name: &'static str, attributes: Attributes) {
        let mut event = format!("start/{name}");
        for (attribute, value) in attributes.iter().filter(|(_, value)| !value.is_empty()) {
            event += &format!("/{attribute}={}", hexadecimal(value.as_bytes()));
        }
        self.told.push(event);
        self.open.push(name);
    }

    fn end(&mut self) {
        let name = self.open.pop().expect("an open element");
        self.told.push(format!("end/{name}"));
    }

    /// Ends what is open, but for so many.
    fn end_but(&mut self, outermost: usize) {
        while self.open.len() > outermost {
            self.end();
        }
    }

    /// The records that are no content: each ends what it cannot stand in.
    fn head(&mut self, record: &Record) {
        match *record {
            Record::Unit { can_resegment } => {
                let id = ("id", number(1));
                self.start("unit", vec![id, ("canResegment", yes_or_no(can_resegment))]);
            }
            Record::Segment { id, can_resegment, state } => {
                self.end_but(1);
                let can_resegment = ("canResegment", yes_or_no(can_resegment));
                let attributes = vec![("id", number(id)), can_resegment, ("state", word(state))];
                self.start("segment", attributes);
                self.start("source", vec![]);
            }
            Record::Ignorable { id } => {
                self.end_but(1);
                self.start("ignorable", vec![("id", number(id))]);
                self.start("source", vec![]);
            }
            Record::Target { order } => {
                self.end_but(2);
                self.start("target", vec![("order", number(order))]);
            }
            _ => self.end_but(0),
        }
    }

    fn inline(&mut self, inline: &Inline) {
        match inline {
            Inline::Text(text) => self.told.push(format!("text/{}", hexadecimal(text))),
            Inline::Character(code_point) => {
                self.start("cp", vec![("hex", format!("{code_point:04X}"))]);
                self.end();
            }
            other => {
                let id = number(other.id().unwrap_or(0));
                let Inline::Annotation(annotation) = other else { return };
                let translate = ("translate", yes_or_no(annotation.translate.unwrap_or(b'-')));
                match &annotation.mark {
                    b"MO" => return self.start("mrk", vec![("id", id), translate]),
                    b"SM" => self.start("sm", vec![("id", id), translate]),
                    b"EM" => self.start("em", vec![("startRef", id)]),
                    _ => {}
                }
                self.end();
            }
        }
    }

    fn code(&mut self, code: &Code, close: Option<&Code>) {
        let attributes = code_attributes(code, close);
        match &code.mark {
            b"PO" => return self.start("pc", attributes),
            b"PH" => self.start("ph", attributes),
            b"SC" | b"IS" => self.start("sc", attributes),
            b"EC" | b"IE" => self.start("ec", attributes),
            _ => {}
        }
        self.end();
    }
}

/// Each attribute of the codes with its value and the marks that have it.
fn code_attributes(code: &Code, close: Option<&Code>) -> Attributes {
    let isolated = if code.mark[0] == b'I' { "yes" } else { "no" };
    let reorder = match code.can_reorder {
        b'F' => "firstNo".to_string(),
        letter => yes_or_no(letter),
    };
    let rows = [
        ("id", number(code.id), "PH PO SC IS IE"),
        ("startRef", number(code.id), "EC"),
        ("copyOf", number(code.copy_of), "PH PO SC EC IS IE"),
        ("dataRef", number(code.data_ref), "PH SC EC IS IE"),
        ("dataRefStart", number(code.data_ref), "PO"),
        ("dataRefEnd", number(close.map_or(0, |close| close.data_ref)), "PO"),
        ("canCopy", yes_or_no(code.can_copy), "PH PO SC EC IS IE"),
        ("canDelete", yes_or_no(code.can_delete), "PH PO SC EC IS IE"),
        ("canOverlap", yes_or_no(code.can_overlap), "PO SC EC IS IE"),
        ("canReorder", reorder, "PH PO SC EC IS IE"),
        ("isolated", isolated.to_string(), "SC EC IS IE"),
    ];
    let has = |marks: &str| marks.split(' ').any(|mark| mark.as_bytes() == code.mark);
    rows.into_iter().filter(|row| has(row.2)).map(|(name, value, _)| (name, value)).collect()
}

fn number(number: u16) -> String {
    if number == 0 {
        return String::new();
    }
    number.to_string()
}

fn yes_or_no(letter: u8) -> String {
    match letter {
        b'Y' => "yes".into(),
        b'N' => "no".into(),
        _ => String::new(),
    }
}

fn word(state: u8) -> String {
    let words = [(b'I', "initial"), (b'T', "translated"), (b'R', "reviewed"), (b'F', "final")];
    words.iter().filter(|(letter, _)| *letter == state).map(|(_, word)| *word).collect()
}
