//! The letters that requests and grants take. `Raw` hands on any other byte: what it means, the
//! proved operation says.

/// The state of a segment, as set target takes it.
#[derive(Clone, Copy, Debug, PartialEq, Eq, Hash)]
pub enum State {
    /// I
    Initial,
    /// T
    Translated,
    /// R
    Reviewed,
    /// F
    Final,
    /// `-`: an ignorable has no state.
    None,
    /// Any byte.
    Raw(u8),
}

impl State {
    /// Its byte in a request.
    pub fn letter(self) -> u8 {
        match self {
            State::Initial => b'I',
            State::Translated => b'T',
            State::Reviewed => b'R',
            State::Final => b'F',
            State::None => b'-',
            State::Raw(letter) => letter,
        }
    }
}

impl From<u8> for State {
    fn from(letter: u8) -> State {
        match letter {
            b'I' => State::Initial,
            b'T' => State::Translated,
            b'R' => State::Reviewed,
            b'F' => State::Final,
            b'-' => State::None,
            _ => State::Raw(letter),
        }
    }
}

/// A side of the unit, as rewrite takes it.
#[derive(Clone, Copy, Debug, PartialEq, Eq, Hash)]
pub enum Side {
    /// S
    Source,
    /// T
    Target,
    /// Any byte.
    Raw(u8),
}

impl Side {
    /// Its byte in a request.
    pub fn letter(self) -> u8 {
        match self {
            Side::Source => b'S',
            Side::Target => b'T',
            Side::Raw(letter) => letter,
        }
    }
}

impl From<u8> for Side {
    fn from(letter: u8) -> Side {
        match letter {
            b'S' => Side::Source,
            b'T' => Side::Target,
            _ => Side::Raw(letter),
        }
    }
}

/// The form of a pair or annotation, as rewrite takes it.
#[derive(Clone, Copy, Debug, PartialEq, Eq, Hash)]
pub enum Form {
    /// P: `PO` and `PC`, or `MO` and `MC`.
    PcOrMrk,
    /// S: `SC` and `EC`, or `SM` and `EM`.
    StartAndEnd,
    /// Any byte.
    Raw(u8),
}

impl Form {
    /// Its byte in a request.
    pub fn letter(self) -> u8 {
        match self {
            Form::PcOrMrk => b'P',
            Form::StartAndEnd => b'S',
            Form::Raw(letter) => letter,
        }
    }
}

impl From<u8> for Form {
    fn from(letter: u8) -> Form {
        match letter {
            b'P' => Form::PcOrMrk,
            b'S' => Form::StartAndEnd,
            _ => Form::Raw(letter),
        }
    }
}

/// The role of a [`Grant`](crate::Grant).
#[derive(Clone, Copy, Debug, PartialEq, Eq, Hash)]
pub enum Role {
    /// T: sets and removes the targets of the granted parts.
    Translator,
    /// R: also rewrites pairs and annotations whose halves both stand in granted parts.
    Reviewer,
    /// E: does everything anywhere.
    Engineer,
    /// Any byte; any other letter grants nothing.
    Raw(u8),
}

impl Role {
    /// Its byte in a grant.
    pub fn letter(self) -> u8 {
        match self {
            Role::Translator => b'T',
            Role::Reviewer => b'R',
            Role::Engineer => b'E',
            Role::Raw(letter) => letter,
        }
    }
}

impl From<u8> for Role {
    fn from(letter: u8) -> Role {
        match letter {
            b'T' => Role::Translator,
            b'R' => Role::Reviewer,
            b'E' => Role::Engineer,
            _ => Role::Raw(letter),
        }
    }
}
