//! Letters and numbers as documents 01 and 02 have them, and any other byte handed on.

use std::collections::HashSet;

use xliff_desk::{Form, Grant, Reason, Refusal, Role, Side, State};

/// `UN Y`, `SG` 1 - I, `MO` 7 -, `MC` 7, `UE`.
const TABLE: &[u8] = b"UNYSG\0\x01-IMO\0\x07-MC\0\x07UE";

#[test]
fn each_letter_has_its_name() {
    let states = [State::Initial, State::Translated, State::Reviewed, State::Final, State::None];
    assert_eq!(states.map(State::letter), *b"ITRF-");
    assert_eq!([Side::Source, Side::Target].map(Side::letter), *b"ST");
    assert_eq!([Form::PcOrMrk, Form::StartAndEnd].map(Form::letter), *b"PS");
    let roles = [Role::Translator, Role::Reviewer, Role::Engineer];
    assert_eq!(roles.map(Role::letter), *b"TRE");
    // and the name of a letter is found again, not `Raw`
    assert_eq!(b"ITRF-".map(State::from), states);
    assert_eq!(b"ST".map(Side::from), [Side::Source, Side::Target]);
    assert_eq!(b"PS".map(Form::from), [Form::PcOrMrk, Form::StartAndEnd]);
    assert_eq!(b"TRE".map(Role::from), roles);
}

#[test]
fn every_byte_is_handed_on() {
    for byte in 0..=255 {
        assert_eq!(State::from(byte).letter(), byte);
        assert_eq!(Side::from(byte).letter(), byte);
        assert_eq!(Form::from(byte).letter(), byte);
        assert_eq!(Role::from(byte).letter(), byte);
    }
}

/// "2: state unfit" and "2: other letters" are the operation's to say.
#[test]
fn other_letters_are_refused_by_the_operation() {
    let out = &mut [0; 64];
    let refused = Err(Refusal { reason: Reason::BadRecord, place: 0 });
    assert_eq!(xliff_desk::set_target(TABLE, 1, State::None, b"", out), refused);
    assert_eq!(xliff_desk::set_target(TABLE, 1, State::Raw(b'X'), b"", out), refused);
    assert_eq!(xliff_desk::rewrite(TABLE, Side::Raw(0), 7, Form::StartAndEnd, out), refused);
    assert_eq!(xliff_desk::rewrite(TABLE, Side::Source, 7, Form::Raw(b's'), out), refused);
    assert_eq!(xliff_desk::rewrite(TABLE, Side::Source, 7, Form::StartAndEnd, out), Ok(20));
    assert_eq!(&out[..20], b"UNYSG\0\x01-ISM\0\x07-EM\0\x07UE");
}

/// "any other letter grants nothing", which is the operation's to say too.
#[test]
fn other_roles_are_granted_nothing() {
    let out = &mut [0; 64];
    let refused = Err(Refusal { reason: Reason::NotGranted, place: 0 });
    for role in [Role::Raw(b't'), Role::Raw(b'e'), Role::Raw(0), Role::Raw(255)] {
        let grant = Grant { role, positions: &[1] };
        assert_eq!(xliff_desk::granted_call(grant, TABLE, b"ST\0\x01T\0\0", out), refused);
    }
    let grant = Grant { role: Role::Raw(b'T'), positions: &[1] };
    assert_eq!(xliff_desk::granted_call(grant, TABLE, b"ST\0\x01T\0\0", out), Ok(24));
    assert_eq!(&out[..24], b"UNYSG\0\x01-TMO\0\x07-MC\0\x07TG\0\x01UE");
}

#[test]
fn reasons_have_their_numbers() {
    let all: Vec<Reason> = (0..=255).filter_map(Reason::of_number).collect();
    assert_eq!(all, Reason::all().collect::<Vec<_>>());
    let numbers: Vec<u8> = all.iter().map(|reason| reason.number()).collect();
    assert_eq!(numbers, (1..=24).collect::<Vec<u8>>());
    let some = [Reason::Overlap, Reason::OrdersNotInSequence, Reason::AccentParted];
    assert_eq!(some.map(Reason::number), [9, 16, 23]);
    assert_eq!(Reason::NotGranted.number(), 24);
    let texts: HashSet<&str> = all.iter().map(|reason| reason.text()).collect();
    assert_eq!(texts.len(), all.len(), "two reasons have the same words");
}
