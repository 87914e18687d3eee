//! Views, and calls with a grant (document 02, order 6).

use crate::{answer, raw, Answer, Role};

/// "A grant is a role and a set of part positions at the call". [`view`] shows what it lets see,
/// [`granted_call`] makes a call within it.
#[derive(Clone, Copy, Debug, PartialEq, Eq, Hash)]
pub struct Grant<'a> {
    /// What may be done.
    pub role: Role,
    /// Where: each byte is a part's position, counted from 1, in any sequence. One that is there
    /// twice counts once. An engineer's are not looked at.
    pub positions: &'a [u8],
}

/// The table as this grant lets see it: without the targets of parts outside the grant; every
/// segment there is shown in state I. Sources, ids and the orders of the other targets are as they
/// were. An output as long as the table is enough. The view need not pass the check.
///
/// ```
/// use xliff_desk::{Grant, Role};
///
/// // two suppliers: part 1 is translated, part 2 reviewed
/// let table = b"UNYSG\0\x01-TTX\0\x02upTG\0\x01TX\0\x03auf\
///     SG\0\x02-RTX\0\x04downTG\0\x02TX\0\x02abUE";
/// let mut out = [0; 64];
/// let grant = Grant { role: Role::Translator, positions: &[1] };
/// let length = xliff_desk::view(grant, table, &mut out)?;
/// assert_eq!(
///     &out[..length],
///     b"UNYSG\0\x01-TTX\0\x02upTG\0\x01TX\0\x03aufSG\0\x02-ITX\0\x04downUE",
/// );
///
/// // an engineer sees the whole table
/// let grant = Grant { role: Role::Engineer, positions: &[] };
/// let length = xliff_desk::view(grant, table, &mut out)?;
/// assert_eq!(&out[..length], table);
/// # Ok::<(), xliff_desk::Refusal>(())
/// ```
pub fn view(grant: Grant, table: &[u8], out: &mut [u8]) -> Answer {
    let Grant { role, positions } = grant;
    answer(|number, value| unsafe {
        raw::xliff_desk_view(
            role.letter(),
            positions.as_ptr(),
            positions.len(),
            table.as_ptr(),
            table.len(),
            out.as_mut_ptr(),
            out.len(),
            number,
            value,
        )
    })
}

/// One request, in the bytes that it has in a job, with a grant: where the grant does not allow it,
/// it is [`Reason::NotGranted`](crate::Reason::NotGranted), after the table's check and before
/// everything else; else the answer and the result are the call's own. Bytes that are no request,
/// or have more bytes behind it, are [`Reason::BadRecord`](crate::Reason::BadRecord) with place 0,
/// after the table's check.
///
/// ```
/// use xliff_desk::{Grant, Reason, Role};
///
/// let table = b"UNYSG\0\x01-ITX\0\x02upSG\0\x02-ITX\0\x04downUE";
/// let grant = Grant { role: Role::Translator, positions: &[1] };
/// let mut out = [0; 64];
///
/// // ST 1 T, TX "auf"
/// let set = b"ST\0\x01T\0\x07TX\0\x03auf";
/// let length = xliff_desk::granted_call(grant, table, set, &mut out)?;
/// assert_eq!(
///     &out[..length],
///     b"UNYSG\0\x01-TTX\0\x02upTG\0\x01TX\0\x03aufSG\0\x02-ITX\0\x04downUE",
/// );
///
/// // ST 2 T, TX "ab": part 2 is another supplier's
/// let set = b"ST\0\x02T\0\x06TX\0\x02ab";
/// let refusal = xliff_desk::granted_call(grant, table, set, &mut out).unwrap_err();
/// assert_eq!((refusal.reason, refusal.place), (Reason::NotGranted, 0));
/// # Ok::<(), xliff_desk::Refusal>(())
/// ```
pub fn granted_call(grant: Grant, table: &[u8], request: &[u8], out: &mut [u8]) -> Answer {
    let Grant { role, positions } = grant;
    answer(|number, value| unsafe {
        raw::xliff_desk_granted_call(
            role.letter(),
            positions.as_ptr(),
            positions.len(),
            table.as_ptr(),
            table.len(),
            request.as_ptr(),
            request.len(),
            out.as_mut_ptr(),
            out.len(),
            number,
            value,
        )
    })
}
