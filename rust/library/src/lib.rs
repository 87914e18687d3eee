//! The proved operations of the XLIFF unit desk, called from Rust. The rules are those of
//! documents 01 and 02; nothing here repeats one.
//!
//! Each operation takes a table's bytes and writes its result at the head of `out`; [`read_xml`]
//! takes a unit in XML and gives its table, [`write_xml`] a table and gives its unit in XML,
//! [`sheet`] a table and gives its review sheet, [`view`] gives what a [`Grant`] lets see of a
//! table, and [`granted_call`] makes a call within a grant. Accepted: the result's length, and the
//! bytes of `out` behind it are as they were. Refused: a [`Refusal`], and all of `out` is as it
//! was. Any bytes of any length get an answer.
//!
//! ```
//! // UN Y, SG 1 - I, TX "A. B", UE
//! let table = b"UNYSG\0\x01-ITX\0\x04A. BUE";
//! let mut out = [0; 8192];
//! let length = xliff_desk::split(table, 1, 2, 0, 2, &mut out)?;
//! assert_eq!(&out[..length], b"UNYSG\0\x01-ITX\0\x02A.SG\0\x02-ITX\0\x02 BUE");
//!
//! // A cut behind the last item is refused, in words.
//! let refusal = xliff_desk::split(table, 1, 4, 0, 2, &mut out).unwrap_err();
//! assert_eq!(refusal.reason, xliff_desk::Reason::BadCut);
//! assert_eq!((refusal.reason.number(), refusal.place), (13, 0));
//! println!("{refusal}");
//! # Ok::<(), xliff_desk::Refusal>(())
//! ```

#![warn(missing_docs)]

use std::cell::RefCell;

mod grants;
mod letters;
mod raw;
mod reason;

pub use grants::{granted_call, view, Grant};
pub use letters::{Form, Role, Side, State};
pub use reason::{Reason, Refusal};

/// "either accepted with a length, or refused with a number and a place".
pub type Answer = Result<usize, Refusal>;

/// Checks a table by the rules 1 to 10; gives an accepted table's length. The place of a refusal
/// is the offset of the blamed record.
///
/// ```
/// use xliff_desk::Reason;
///
/// assert_eq!(xliff_desk::check(b"UNYSG\0\x01-IUE"), Ok(11));
/// // no parts: the end stands where a part must come
/// let refusal = xliff_desk::check(b"UNYUE").unwrap_err();
/// assert_eq!((refusal.reason, refusal.place), (Reason::BadRecord, 3));
/// ```
pub fn check(table: &[u8]) -> Answer {
    answer(|number, value| unsafe {
        raw::xliff_desk_check(table.as_ptr(), table.len(), number, value)
    })
}

/// Splits a part (counted from 1) behind so many items of its source and of its target. The
/// second half gets `new_id` (0: none). The example is at the head of this crate.
pub fn split(
    table: &[u8],
    part: u16,
    source_cut: u16,
    target_cut: u16,
    new_id: u16,
    out: &mut [u8],
) -> Answer {
    answer(|number, value| unsafe {
        raw::xliff_desk_split(
            table.as_ptr(),
            table.len(),
            part,
            source_cut,
            target_cut,
            new_id,
            out.as_mut_ptr(),
            out.len(),
            number,
            value,
        )
    })
}

/// Joins a part with the next.
///
/// ```
/// // "A." and " B" become one text, in one segment
/// let table = b"UNYSG\0\x01-ITX\0\x02A.SG\0\x02-ITX\0\x02 BUE";
/// let mut out = [0; 64];
/// let length = xliff_desk::join(table, 1, &mut out)?;
/// assert_eq!(&out[..length], b"UNYSG\0\x01-ITX\0\x04A. BUE");
/// # Ok::<(), xliff_desk::Refusal>(())
/// ```
pub fn join(table: &[u8], part: u16, out: &mut [u8]) -> Answer {
    answer(|number, value| unsafe {
        let (to, room) = (out.as_mut_ptr(), out.len());
        raw::xliff_desk_join(table.as_ptr(), table.len(), part, to, room, number, value)
    })
}

/// Sets a part's target: the state ([`State::None`] for an ignorable), and the content as records.
/// Its codes with canReorder F or N are the old content's, in whole chains that may change places:
/// a chain is an F and the N that follow it, up to the next F; N before any F stay first.
///
/// ```
/// use xliff_desk::State;
///
/// let table = b"UNYSG\0\x01-ITX\0\x02upUE";
/// let mut out = [0; 64];
/// let length = xliff_desk::set_target(table, 1, State::Translated, b"TX\0\x03auf", &mut out)?;
/// assert_eq!(&out[..length], b"UNYSG\0\x01-TTX\0\x02upTG\0\x01TX\0\x03aufUE");
/// # Ok::<(), xliff_desk::Refusal>(())
/// ```
pub fn set_target(
    table: &[u8],
    part: u16,
    state: impl Into<State>,
    content: &[u8],
    out: &mut [u8],
) -> Answer {
    let state = state.into().letter();
    answer(|number, value| unsafe {
        raw::xliff_desk_set_target(
            table.as_ptr(),
            table.len(),
            part,
            state,
            content.as_ptr(),
            content.len(),
            out.as_mut_ptr(),
            out.len(),
            number,
            value,
        )
    })
}

/// Removes a part's target; a segment's state becomes I.
///
/// ```
/// let table = b"UNYSG\0\x01-TTX\0\x02upTG\0\x01TX\0\x03aufUE";
/// let mut out = [0; 64];
/// let length = xliff_desk::remove_target(table, 1, &mut out)?;
/// assert_eq!(&out[..length], b"UNYSG\0\x01-ITX\0\x02upUE");
/// # Ok::<(), xliff_desk::Refusal>(())
/// ```
pub fn remove_target(table: &[u8], part: u16, out: &mut [u8]) -> Answer {
    answer(|number, value| unsafe {
        let (to, room) = (out.as_mut_ptr(), out.len());
        raw::xliff_desk_remove_target(table.as_ptr(), table.len(), part, to, room, number, value)
    })
}

/// Rewrites the pair or annotation of an id on a side to a form. Only marks change.
///
/// ```
/// use xliff_desk::{Form, Side};
///
/// // MO 7 Y and MC 7 become SM and EM
/// let table = b"UNYSG\0\x01-IMO\0\x07YTX\0\x02upMC\0\x07UE";
/// let mut out = [0; 64];
/// let length = xliff_desk::rewrite(table, Side::Source, 7, Form::StartAndEnd, &mut out)?;
/// assert_eq!(&out[..length], b"UNYSG\0\x01-ISM\0\x07YTX\0\x02upEM\0\x07UE");
/// # Ok::<(), xliff_desk::Refusal>(())
/// ```
pub fn rewrite(
    table: &[u8],
    side: impl Into<Side>,
    id: u16,
    form: impl Into<Form>,
    out: &mut [u8],
) -> Answer {
    let (side, form) = (side.into().letter(), form.into().letter());
    answer(|number, value| unsafe {
        let (to, room) = (out.as_mut_ptr(), out.len());
        let (from, length) = (table.as_ptr(), table.len());
        raw::xliff_desk_rewrite(from, length, side, id, form, to, room, number, value)
    })
}

/// Reads a unit in XML: the result is its table, which the check accepts. A text outside the XML
/// that the desk reads is [`Reason::OutsideXml`] with the place in the text; a table read that a
/// rule refuses has its place in that table.
///
/// ```
/// use xliff_desk::Reason;
///
/// let xml = br#"<unit id="1"><segment id="1"><source>up</source></segment></unit>"#;
/// let mut out = [0; 8192];
/// let length = xliff_desk::read_xml(xml, &mut out)?;
/// assert_eq!(&out[..length], b"UNYSG\0\x01-ITX\0\x02upUE");
///
/// // notes are not read: the tag is blamed
/// let xml = br#"<unit id="1"><notes><note>up</note></notes></unit>"#;
/// let refusal = xliff_desk::read_xml(xml, &mut out).unwrap_err();
/// assert_eq!((refusal.reason, refusal.place), (Reason::OutsideXml, 13));
/// # Ok::<(), xliff_desk::Refusal>(())
/// ```
pub fn read_xml(xml: &[u8], out: &mut [u8]) -> Answer {
    answer(|number, value| unsafe {
        let (to, room) = (out.as_mut_ptr(), out.len());
        raw::xliff_desk_read_xml(xml.as_ptr(), xml.len(), to, room, number, value)
    })
}

/// Writes a table's unit as XML; [`read_xml`] gives the table again, byte for byte. An output of 16
/// times the table's length is enough. A table whose pc and mrk are deeper than 32 is
/// [`Reason::OutsideXml`] with place 0.
///
/// ```
/// let mut out = [0; 200];
/// let length = xliff_desk::write_xml(b"UNYSG\0\x01-ITX\0\x02upUE", &mut out)?;
/// let xml = concat!(
///     r#"<unit id="1" canResegment="yes"><segment id="1" state="initial">"#,
///     "<source>up</source></segment></unit>",
/// );
/// assert_eq!(&out[..length], xml.as_bytes());
/// # Ok::<(), xliff_desk::Refusal>(())
/// ```
pub fn write_xml(table: &[u8], out: &mut [u8]) -> Answer {
    answer(|number, value| unsafe {
        let (to, room) = (out.as_mut_ptr(), out.len());
        raw::xliff_desk_write_xml(table.as_ptr(), table.len(), to, room, number, value)
    })
}

/// Lays a table's unit out as a review sheet: rows of 79 cells, each with a line feed behind it.
/// They show a part's position, id, state, source and target in columns of 3, 5, 1, 33 and 33 cells,
/// one blank between two. A source or target that is longer goes on in further rows. An output of
/// 20 times the table's length is enough.
///
/// ```
/// // SG 7 - T, TX "Floor " and PH 9, translated: TX "Stock " and PH 9
/// let table = [
///     b"UNYSG\0\x07-TTX\0\x06Floor PH\0\x09\0\0\0\0YY-Y".as_slice(),
///     b"TG\0\x01TX\0\x06Stock PH\0\x09\0\0\0\0YY-YUE",
/// ]
/// .concat();
/// let mut out = [0; 80];
/// let length = xliff_desk::sheet(&table, &mut out)?;
/// let row = "  1     7 T Floor {9}                         Stock {9}                        \n";
/// assert_eq!(&out[..length], row.as_bytes());
/// # Ok::<(), xliff_desk::Refusal>(())
/// ```
pub fn sheet(table: &[u8], out: &mut [u8]) -> Answer {
    // Why 20 times is enough: a row has 80 bytes, and what characters have beyond one byte each.
    // - The first row of a part: its SG or IG has at least 4 bytes, and 20 times 4 is 80.
    // - A later row: in the column that needs it, the row before had no place for an item of at
    //   most 7 cells, so that at least 27 of its cells are taken. No item has more than 6 cells for
    //   4 bytes (an annotation's end, id of five digits), so these are at least 18 bytes of the
    //   content: less than 5 bytes of the row for each.
    // - Characters: less than 1 more for each byte of a text.
    answer(|number, value| unsafe {
        let (to, room) = (out.as_mut_ptr(), out.len());
        raw::xliff_desk_sheet(table.as_ptr(), table.len(), to, room, number, value)
    })
}

/// What the desk program prints for a job (a table, then requests): a line for each request, and
/// last the table in hexadecimal.
///
/// ```
/// let printed = xliff_desk::job(b"UNYSG\0\x01-IUERT\0\x01");
/// assert_eq!(printed, b"NO 20 0\n554E59534700012D495545\n");
/// ```
pub fn job(job: &[u8]) -> Vec<u8> {
    // No job prints more than this. The array is kept for the next job: a job writes only what it
    // prints, and only that is read.
    thread_local!(static OUT: RefCell<Vec<u8>> = RefCell::new(vec![0; 1_048_576]));
    OUT.with_borrow_mut(|out| {
        let length = unsafe { raw::xliff_desk_job(job.as_ptr(), job.len(), out.as_mut_ptr()) };
        out[..length].to_vec()
    })
}

fn answer(call: impl FnOnce(*mut u8, *mut usize) -> bool) -> Answer {
    let (mut number, mut value) = (0, 0);
    if call(&mut number, &mut value) {
        return Ok(value);
    }
    let reason = Reason::of_number(number).expect("the proved desk refuses by 1 to 24");
    Err(Refusal { reason, place: value })
}
