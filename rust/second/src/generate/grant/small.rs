//! Every role, call and set of positions of a small unit.

use super::{GrantJob, GrantKind};
use crate::generate::cuts::{code, text};
use crate::grant::{view, Grant};
use crate::MOST_BYTES;

/// The three roles and letters of none.
const ROLES: &[u8; 9] = b"TREtreX-0";

/// Those of the unit's parts, 0, and one beyond.
const POSITIONS: [u8; 5] = [0, 1, 2, 3, 4];

/// Three parts: pair 11 stands in the first and the third, pair 12 in the first, annotation 13 in
/// the second; in the targets, whose orders are not their positions, pair 14 in the third.
fn table() -> Vec<u8> {
    let pair = |start: &[u8; 2], end: &[u8; 2], id: u16, inside: &str| {
        [code(start, id, b"YYYY"), text(inside), code(end, id, b"YYYY")].concat()
    };
    let start = || code(b"SC", 11, b"YYYY");
    let end = || code(b"EC", 11, b"YYYY");
    [
        b"UNYSG\0\x01-R".to_vec(),
        [start(), text("a"), pair(b"PO", b"PC", 12, "b")].concat(),
        [b"TG\0\x02".to_vec(), text("A"), end()].concat(),
        b"IG\0\x02MO\0\x0D-TX\0\x01cMC\0\x0D".to_vec(),
        b"TG\0\x03SM\0\x0D-TX\0\x01CEM\0\x0D".to_vec(),
        [b"SG\0\x03-F".to_vec(), text("d"), end()].concat(),
        [b"TG\0\x01".to_vec(), start(), pair(b"PO", b"PC", 14, "D")].concat(),
        b"UE".to_vec(),
    ]
    .concat()
}

/// Each call of each part, of part 0, of one beyond and of 257, whose low byte is 1; each rewrite
/// of a pair or annotation, and some of none or with wrong letters.
fn requests() -> Vec<Vec<u8>> {
    let set = |part: u16, state: u8, content: &[u8]| {
        let length = (content.len() as u16).to_be_bytes();
        [b"ST".as_slice(), &part.to_be_bytes(), &[state], &length, content].concat()
    };
    let mut requests = Vec::new();
    for part in [0, 1, 2, 3, 4, 257u16] {
        let number = part.to_be_bytes();
        requests.push([b"SP".as_slice(), &number, b"\0\x01\0\0\0\x09"].concat());
        requests.push([b"JN", number.as_slice()].concat());
        requests.push([b"RT", number.as_slice()].concat());
        requests.push(match part {
            1 => set(part, b'T', &[text("x"), code(b"EC", 11, b"YYYY")].concat()),
            2 => set(part, b'-', &text("x")),
            3 => set(part, b'I', &[code(b"SC", 11, b"YYYY"), text("x")].concat()),
            _ => set(part, b'T', &text("x")),
        });
    }
    requests.push(set(1, b'X', &text("x")));
    for side in *b"ST" {
        for id in [11, 12, 13, 14, 1u8] {
            requests.extend(
                [[b'R', b'W', side, 0, id, b'P'], [b'R', b'W', side, 0, id, b'S']].map(Vec::from),
            );
        }
    }
    requests.extend([b"RWX\0\x0CS", b"RWs\0\x0CS", b"RWS\0\x0CX", b"RWS\0\x0Bp"].map(Vec::from));
    requests
}

/// Every set of positions.
fn grants() -> Vec<(u8, Vec<u8>)> {
    let sets = (0..1 << POSITIONS.len()).map(|set: u32| {
        let chosen = |place: &usize| set >> place & 1 == 1;
        (0..POSITIONS.len()).filter(chosen).map(|place| POSITIONS[place]).collect::<Vec<u8>>()
    });
    sets.flat_map(|positions| ROLES.map(|role| (role, positions.clone()))).collect()
}

/// Each call with enough output; each view with just enough, one byte less and none.
pub fn small_grants() -> Vec<GrantJob> {
    let (table, requests) = (table(), requests());
    let mut jobs = Vec::new();
    for (role, positions) in grants() {
        let job = |kind, room, request| GrantJob {
            kind,
            role,
            positions: positions.clone(),
            room,
            table: table.clone(),
            request,
        };
        let grant = Grant { role, positions: &positions };
        let length = view(&grant, &table, MOST_BYTES).expect("a valid unit").len();
        jobs.extend([length, length - 1, 0].map(|room| job(GrantKind::View, room, None)));
        let call = |request: &Vec<u8>| job(GrantKind::Target, MOST_BYTES, Some(request.clone()));
        jobs.extend(requests.iter().map(call));
    }
    jobs
}
