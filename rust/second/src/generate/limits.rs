//! Tables and jobs at the limits of document 01 and one step beyond.

use super::chains::{move_chains, spoil_chains};
use super::damage::bytes;
use super::inline::{code, placed};
use super::random::Random;
use super::requests::request_list;
use super::set_target::written;
use super::unit::valid_table;
use crate::record::Inline;
use crate::rules::check;

/// A job at a limit; where its table is valid, requests often follow.
pub fn at_limit(random: &mut Random) -> Vec<u8> {
    let table = match random.below(15) {
        0..=2 => many_parts(random),
        3..=5 => many_records(random),
        6..=8 => many_bytes(random),
        9 => text_lengths(random),
        10..=12 => return many_chains(random),
        _ => return long_job(random),
    };
    if check(&table).is_err() || random.chance(20) {
        return table;
    }
    let count = 1 + random.below(3);
    request_list(random, table, count)
}

/// 63 to 66 parts; the last of them sometimes cut or with a bad field.
pub fn many_parts(random: &mut Random) -> Vec<u8> {
    let parts = 63 + random.below(4);
    let mut table = b"UNY".to_vec();
    for part in 0..parts {
        table.extend(if random.chance(30) { b"IG\0\0".as_slice() } else { b"SG\0\0-T" });
        // Two items each, the second sometimes an accent.
        let text: &[u8] = if random.chance(20) { b"TX\0\x03e\xCC\x81" } else { b"TX\0\x02ab" };
        table.extend(text);
        if random.chance(50) {
            table.extend([b'T', b'G', 0, part as u8 + 1]);
        }
    }
    if random.chance(30) {
        table.extend(random.pick(&[b"SG".as_slice(), b"SG\0\0XX", b"IG\0", b"SG\0\0-"]).iter());
    }
    if random.chance(85) {
        table.extend(b"UE");
    }
    table
}

/// 1,023 to 1,026 records, sometimes with a stray byte or without the end.
pub fn many_records(random: &mut Random) -> Vec<u8> {
    let mut table = b"UNYSG\0\0-T".to_vec();
    let inside = 1020 + random.below(4);
    for record in 0..inside {
        if record % 40 == 39 && random.chance(50) {
            table.extend(b"TX\0\x02ab");
        } else {
            table.extend(b"CP\0\0\0\x01");
        }
    }
    match random.below(6) {
        0 => table.extend(bytes(random, 1)),
        1 => {}
        _ => table.extend(b"UE"),
    }
    table
}

/// 8,180 to 8,194 bytes, most of them text.
fn many_bytes(random: &mut Random) -> Vec<u8> {
    let wanted = if random.chance(60) { 8190 + random.below(5) } else { 8180 + random.below(14) };
    let mut table = if random.chance(60) { valid_table(random) } else { b"UNYSG\0\0-TUE".to_vec() };
    table.truncate(table.len() - 2);
    // One more part, closed or open, with a long text and sometimes a short second one.
    let parts: [&[u8]; 3] = [b"SG\0\0-T", b"SG\0\0YT", b"IG\0\0"];
    table.extend(random.pick(&parts).iter());
    let room = wanted.saturating_sub(table.len() + 6);
    table.extend(b"TX");
    table.extend((room as u16).to_be_bytes());
    table.extend(std::iter::repeat_n(b'a', room));
    table.extend(b"UE");
    table
}

/// A `TX` of length 0, beyond the end, or up to it.
fn text_lengths(random: &mut Random) -> Vec<u8> {
    let mut table = b"UNYSG\0\0-ITX".to_vec();
    let length = *random.pick(&[0, 1, 2, 3, 4, 5, 6, 255, 8192, 65535u16]);
    table.extend(length.to_be_bytes());
    table.extend(b"ab");
    if random.chance(70) {
        table.extend(b"UE");
    }
    table
}

/// A part of up to 681 codes with canReorder F or N, which fill a table, and its target set with
/// their chains moved or wrong: of up to 340 the result fits too.
fn many_chains(random: &mut Random) -> Vec<u8> {
    let codes = if random.chance(70) { 200 + random.below(141) } else { 341 + random.below(341) };
    let letters = *random.pick(&[b"NNNNNNNF".as_slice(), b"NF", b"NFFFFFFF", b"F"]);
    let mut content: Vec<Inline> = (1..=codes).map(|id| code(b"PH", id as u16, random)).collect();
    for (place, inline) in content.iter_mut().enumerate() {
        let Inline::Code(code) = inline else { continue };
        (code.can_copy, code.can_delete) = (b'N', b'N');
        code.can_reorder = if place == 0 { b'F' } else { random.letter(letters) };
    }
    let mut job = [b"UNYSG\0\0-I".as_slice(), &written(&placed(content.clone())), b"UE"].concat();
    match random.below(8) {
        0..=2 => spoil_chains(random, &mut content),
        3 | 4 => {
            let records = *random.pick(&[1024, 1024, 1024, 1025]);
            content = content.into_iter().cycle().take(records).collect();
        }
        _ => move_chains(random, &mut content),
    }
    let set = written(&placed(content));
    job.extend(b"ST\0\x01T");
    job.extend((set.len() as u16).to_be_bytes());
    job.extend(set);
    job
}

/// Jobs of about 65,535 bytes: later input is not read.
fn long_job(random: &mut Random) -> Vec<u8> {
    let length = 65530 + random.below(12);
    let mut job = if random.chance(80) { valid_table(random) } else { bytes(random, 9000) };
    match random.below(4) {
        0 if random.chance(10) => {
            while job.len() < length {
                job.extend(random.pick(&[b"JN\0\x09", b"RT\0\x01", b"RT\0\x41"]).iter());
            }
        }
        1 => {
            // One set target over the rest, its content a long text.
            let rest = 65535usize.saturating_sub(job.len() + 7);
            let content = (rest as u16).saturating_add(random.below(3) as u16);
            job.extend(b"ST\0\x01T");
            job.extend(content.to_be_bytes());
            job.extend(b"TX");
            job.extend(content.saturating_sub(4).to_be_bytes());
            job.resize(length.max(job.len()), b'a');
        }
        0 | 2 => {
            // Set targets with contents of many records and bytes.
            while job.len() < length {
                let records = 900 + random.below(600);
                job.extend([b'S', b'T', 0, 1 + random.below(9) as u8, random.letter(b"IT-")]);
                job.extend((6 * records as u16).to_be_bytes());
                job.extend(b"CP\0\0\0\x02".repeat(records));
            }
        }
        _ => job.resize(length, b'x'),
    }
    job
}
