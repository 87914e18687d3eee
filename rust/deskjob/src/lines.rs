//! The line protocol of vectors/README.md: a line `OP ARGS` asks, a line answers. Each operation
//! is a function of its words; all answers are the proved desk's.

use notation::{from_hexadecimal, hexadecimal, Request};
use xliff_desk::{Answer, Grant, Role};

use crate::requests::ask;

/// The answer to a line, or why the line is not of the protocol.
pub fn answer(line: &str) -> Result<String, String> {
    if line.contains(" = ") {
        return Err("an answer stands on the line".into());
    }
    let words: Vec<&str> = line.split(' ').collect();
    let (operation, words) = (words[0], &words[1..]);
    match operation {
        "check" => check(words),
        "job" => job(words),
        "call" => call(words),
        "xmlread" => with_input(xliff_desk::read_xml, words),
        "xmlwrite" => with_input(xliff_desk::write_xml, words),
        "sheet" => with_input(xliff_desk::sheet, words),
        "view" => view(words),
        "grantcall" => granted_call(words),
        _ => Err(format!("\"{operation}\" is no operation of the line protocol")),
    }
}

/// `check T`
fn check(words: &[&str]) -> Result<String, String> {
    let [table] = exactly(words)?;
    Ok(match xliff_desk::check(&bytes(table)?) {
        Ok(length) => format!("OK {length}"),
        Err(refusal) => refused(refusal),
    })
}

/// `job J`
fn job(words: &[&str]) -> Result<String, String> {
    let [job] = exactly(words)?;
    Ok(format!("TEXT {}", in_digits(&xliff_desk::job(&bytes(job)?))))
}

/// `call CAP T REQ`
fn call(words: &[&str]) -> Result<String, String> {
    let [room, table, request] = exactly(words)?;
    let (mut out, table, request) = (lent(room)?, bytes(table)?, bytes(request)?);
    let Some(request) = one_request(&request) else { return Ok("BAD".into()) };
    Ok(with_output(ask(&request, &table, &mut out), &out))
}

/// `xmlread CAP X`, `xmlwrite CAP T`, `sheet CAP T`
fn with_input(operation: fn(&[u8], &mut [u8]) -> Answer, words: &[&str]) -> Result<String, String> {
    let [room, input] = exactly(words)?;
    let (mut out, input) = (lent(room)?, bytes(input)?);
    Ok(with_output(operation(&input, &mut out), &out))
}

/// `view ROLE POSITIONS CAP T`
fn view(words: &[&str]) -> Result<String, String> {
    let [role, positions, room, table] = exactly(words)?;
    let (role, positions) = (role_of(role)?, bytes(positions)?);
    let (mut out, table) = (lent(room)?, bytes(table)?);
    let grant = Grant { role, positions: &positions };
    Ok(with_output(xliff_desk::view(grant, &table, &mut out), &out))
}

/// `grantcall ROLE POSITIONS CAP T REQ`
fn granted_call(words: &[&str]) -> Result<String, String> {
    let [role, positions, room, table, request] = exactly(words)?;
    let (role, positions) = (role_of(role)?, bytes(positions)?);
    let (mut out, table, request) = (lent(room)?, bytes(table)?, bytes(request)?);
    if one_request(&request).is_none() {
        return Ok("BAD".into());
    }
    let grant = Grant { role, positions: &positions };
    Ok(with_output(xliff_desk::granted_call(grant, &table, &request, &mut out), &out))
}

/// "ROLE is a letter".
fn role_of(word: &str) -> Result<Role, String> {
    match word.as_bytes() {
        [letter] if letter.is_ascii_graphic() => Ok(Role::from(*letter)),
        _ => Err(format!("\"{word}\" is no letter of a role")),
    }
}

/// The request that these bytes are, none behind it.
fn one_request(bytes: &[u8]) -> Option<Request> {
    let (request, length) = Request::first(bytes)?;
    (length == bytes.len()).then_some(request)
}

/// `OK n HEX` or `NO number place`.
fn with_output(answer: Answer, out: &[u8]) -> String {
    match answer {
        Ok(length) => format!("OK {length} {}", in_digits(&out[..length])),
        Err(refusal) => refused(refusal),
    }
}

fn refused(refusal: xliff_desk::Refusal) -> String {
    format!("NO {} {}", refusal.reason.number(), refusal.place)
}

/// The words of an operation that takes so many.
fn exactly<'a, const COUNT: usize>(words: &[&'a str]) -> Result<[&'a str; COUNT], String> {
    words.try_into().map_err(|_| format!("{} words behind the operation, not {COUNT}", words.len()))
}

/// "Bytes are upper hexadecimal, `-` for none."
fn bytes(word: &str) -> Result<Vec<u8>, String> {
    let upper = !word.is_empty() && !word.bytes().any(|byte| byte.is_ascii_lowercase());
    let read = match word {
        "-" => Some(Vec::new()),
        _ => from_hexadecimal(word).filter(|_| upper),
    };
    read.ok_or(format!("\"{word}\" is neither upper hexadecimal nor -"))
}

fn in_digits(bytes: &[u8]) -> String {
    if bytes.is_empty() {
        "-".into()
    } else {
        hexadecimal(bytes)
    }
}

fn number(word: &str) -> Result<usize, String> {
    let digits = word.bytes().all(|byte| byte.is_ascii_digit());
    let read = word.parse().ok().filter(|_| digits);
    read.ok_or(format!("\"{word}\" is no decimal number"))
}

/// An output of so many bytes.
fn lent(room: &str) -> Result<Vec<u8>, String> {
    let length = number(room)?;
    let mut out = Vec::new();
    out.try_reserve_exact(length).map_err(|_| format!("no room for an output of {room} bytes"))?;
    out.resize(length, 0);
    Ok(out)
}
