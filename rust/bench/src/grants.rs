//! Views, and calls with a grant.

use second::desk::read_request;
use second::operations::Outcome;
use xliff_desk::{Grant, Role};

use crate::units::Unit;
use crate::{accepted, ok, row, set_request, Row, ROOM};

/// What a translator of part 1 sees, and its setting of that target. The three results are equal
/// too.
pub fn measure(unit: &Unit) -> [Row; 2] {
    let Unit { table, content, .. } = unit;
    let (out, tuned_out) = (&mut vec![0; ROOM], &mut vec![0; ROOM]);
    let grant = Grant { role: Role::Translator, positions: &[1] };
    let plain_grant = second::grant::Grant { role: b'T', positions: &[1] };
    let same = |out: &[u8], tuned_out: &[u8], plain_out: Outcome, name: &str| {
        let same = out == tuned_out && plain_out.is_ok_and(|plain_out| out.starts_with(&plain_out));
        assert!(same, "the results of {name} differ on {}", unit.name);
    };
    let view_row = row(
        unit,
        "view",
        || ok(xliff_desk::view(grant, table, out)),
        || second::grant::view(&plain_grant, table, ROOM).is_ok(),
        || accepted(tuned::view(b'T', &[1], table, tuned_out)),
    );
    same(out, tuned_out, second::grant::view(&plain_grant, table, ROOM), "view");
    let request = set_request(content);
    let plain_call = || {
        let (read, _) = read_request(&request, 0).expect("a readable request");
        second::grant::granted_call(&plain_grant, table, &read, ROOM)
    };
    let set_row = row(
        unit,
        "granted set",
        || ok(xliff_desk::granted_call(grant, table, &request, out)),
        || plain_call().is_ok(),
        || accepted(tuned::granted_call(b'T', &[1], table, &request, tuned_out)),
    );
    same(out, tuned_out, plain_call(), "the granted set target");
    [view_row, set_row]
}
