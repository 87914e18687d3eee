//! What a file holds: a job in notation, or a unit in XML.

use notation::Request;

use crate::table::blamed;
use crate::xml;

/// "lends outputs of 8,192 bytes".
pub const ROOM: usize = 8192;

/// A unit and the requests behind it.
#[derive(Clone, Debug, PartialEq, Eq)]
pub struct Job {
    pub unit: Unit,
    pub requests: Vec<Request>,
}

#[derive(Clone, Debug, PartialEq, Eq)]
pub enum Unit {
    Table(Vec<u8>),
    Xml(Vec<u8>),
}

impl Job {
    /// The job that the bytes of a file hold, or why they hold none. A unit in XML is a whole file:
    /// the desk judges all of its bytes.
    pub fn read(bytes: Vec<u8>) -> Result<Job, String> {
        if is_xml(&bytes) {
            return Ok(Job { unit: Unit::Xml(bytes), requests: Vec::new() });
        }
        let job = notation::read(&text(bytes)?).map_err(|mistake| mistake.to_string())?;
        Ok(Job { unit: Unit::Table(job.table), requests: job.requests })
    }

    /// Puts the requests that the bytes of a second file hold behind its own.
    pub fn add_requests(&mut self, bytes: Vec<u8>) -> Result<(), String> {
        let requests = notation::read_requests(&text(bytes)?);
        self.requests.extend(requests.map_err(|mistake| mistake.to_string())?);
        Ok(())
    }
}

/// Whether the first byte that is no blank is `<`; a byte order mark may stand before it, which the
/// desk refuses.
fn is_xml(bytes: &[u8]) -> bool {
    let bytes = bytes.strip_prefix(b"\xEF\xBB\xBF").unwrap_or(bytes);
    bytes.iter().find(|byte| !b" \t\r\n".contains(byte)) == Some(&b'<')
}

fn text(bytes: Vec<u8>) -> Result<String, String> {
    String::from_utf8(bytes).map_err(|_| "not a text in UTF-8".into())
}

impl Unit {
    /// The table, if the desk accepts it; else the refusal in words, with what it blames.
    pub fn table(&self) -> Result<Vec<u8>, String> {
        match self {
            Unit::Table(table) => match xliff_desk::check(table) {
                Ok(_) => Ok(table.clone()),
                Err(refusal) => Err(blamed(table, refusal)),
            },
            Unit::Xml(text) => {
                let mut out = vec![0; ROOM];
                let length = xliff_desk::read_xml(text, &mut out);
                out.truncate(length.map_err(|refusal| xml::blamed(text, refusal))?);
                Ok(out)
            }
        }
    }
}
