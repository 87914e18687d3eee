//! Requests for calls with a grant, each with the parts that it is about.

use super::rewrites::rewrite_call;
use super::GrantKind;
use crate::generate::random::Random;
use crate::generate::requests::{join_request, remove_request, split_request, unreadable};
use crate::generate::set_target::set_target_request;
use crate::record::number_at;
use crate::table::Unit;

/// A request, none where the view is asked for, and the parts that a grant for it should have.
pub struct Call {
    pub request: Option<Vec<u8>>,
    pub parts: Vec<u16>,
}

impl Call {
    pub fn new(request: Vec<u8>, parts: Vec<u16>) -> Call {
        Call { request: Some(request), parts }
    }
}

pub fn call(random: &mut Random, kind: GrantKind, unit: &Unit) -> Call {
    match kind {
        GrantKind::View => view(random, unit),
        GrantKind::Target => target_call(random, unit),
        GrantKind::Rewrite => rewrite_call(random, unit),
        GrantKind::SplitOrJoin => split_or_join(random, unit),
        GrantKind::ManyParts | GrantKind::Refused => {
            let kinds = [GrantKind::View, GrantKind::View, GrantKind::Target, GrantKind::Rewrite];
            let any = *random.pick(&[kinds.as_slice(), &[GrantKind::SplitOrJoin]].concat());
            call(random, any, unit)
        }
        GrantKind::Unreadable => {
            let request = unreadable_request(random, unit);
            let parts = (1..=unit.parts.len() as u16).collect();
            Call::new(request, parts)
        }
    }
}

/// A few parts, mostly such as have a target.
fn view(random: &mut Random, unit: &Unit) -> Call {
    let all = 1..=unit.parts.len() as u16;
    let percent = *random.pick(&[10, 40, 70]);
    let with_target = |position: &u16| unit.part(*position).is_some_and(|p| p.target.is_some());
    let parts = all.filter(|position| random.chance(percent) && with_target(position)).collect();
    Call { request: None, parts }
}

/// Of any part, and of parts that no table has: 0, beyond the last, beyond every byte.
fn target_call(random: &mut Random, unit: &Unit) -> Call {
    let sets = random.chance(50);
    let mut request =
        if sets { set_target_request(random, unit) } else { remove_request(random, unit) };
    if random.chance(50) {
        let all = unit.parts.len();
        let other = match random.below(20) {
            0..=6 => 0,
            7..=12 => all + 1,
            13 => 255,
            _ => 256 * (1 + random.below(255)) + random.below(all + 1),
        };
        request[2..4].copy_from_slice(&(other as u16).to_be_bytes());
    }
    let part = number_at(&request, 2);
    Call::new(request, vec![part])
}

fn split_or_join(random: &mut Random, unit: &Unit) -> Call {
    let splits = random.chance(50);
    let request = if splits { split_request(random, unit) } else { join_request(random, unit) };
    let part = number_at(&request, 2);
    let parts = if splits { vec![part] } else { vec![part, part.saturating_add(1)] };
    Call::new(request, parts)
}

/// A request with an unknown mark or cut short, or a readable one with bytes behind it.
fn unreadable_request(random: &mut Random, unit: &Unit) -> Vec<u8> {
    if random.chance(60) {
        return unreadable(random, unit);
    }
    let mut request = target_call(random, unit).request.unwrap_or_default();
    let behind: [&[u8]; 4] = [b"\0", b"X", b"RT\0\x01", b"\xFF\xFF"];
    request.extend(random.pick(&behind).iter());
    request
}
