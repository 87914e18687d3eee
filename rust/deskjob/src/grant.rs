//! A grant, as the options `--role` and `--parts` say it.

use xliff_desk::{Grant, Role};

/// As many parts as a unit may have.
const MOST_PARTS: u8 = 64;

#[derive(Clone, Debug, PartialEq, Eq)]
pub struct Given {
    pub role: Role,
    pub positions: Vec<u8>,
}

impl Given {
    pub fn grant(&self) -> Grant<'_> {
        Grant { role: self.role, positions: &self.positions }
    }
}

/// Takes the options out of the words: the grant, if one is given, and the other words. Else what
/// is wrong with the options.
pub fn taken<'a>(words: &[&'a str]) -> Result<(Option<Given>, Vec<&'a str>), String> {
    let (mut role, mut parts, mut others) = (None, None, Vec::new());
    let mut words = words.iter().copied();
    while let Some(word) = words.next() {
        let (option, needed) = match word {
            "--role" => (&mut role, "translator, reviewer or engineer"),
            "--parts" => (&mut parts, "the positions of parts, as in --parts 1,3"),
            _ if word.starts_with("--") => return Err(format!("{word} is no option here")),
            _ => {
                others.push(word);
                continue;
            }
        };
        let value = words.next().ok_or(format!("behind {word} must stand {needed}"))?;
        if option.replace(value).is_some() {
            return Err(format!("{word} stands twice"));
        }
    }
    let given = match (role, parts) {
        (None, None) => None,
        (None, Some(_)) => return Err("--parts stands without --role".into()),
        (Some(role), parts) => Some(Given {
            role: role_of(role)?,
            positions: parts.map_or(Ok(Vec::new()), positions)?,
        }),
    };
    Ok((given, others))
}

fn role_of(name: &str) -> Result<Role, String> {
    match name {
        "translator" => Ok(Role::Translator),
        "reviewer" => Ok(Role::Reviewer),
        "engineer" => Ok(Role::Engineer),
        _ => Err(format!("\"{name}\" is no role: translator, reviewer or engineer")),
    }
}

/// Positions with commas between them.
fn positions(list: &str) -> Result<Vec<u8>, String> {
    list.split(',').map(position).collect()
}

fn position(word: &str) -> Result<u8, String> {
    let digits = word.bytes().all(|byte| byte.is_ascii_digit());
    let read = word.parse().ok().filter(|position| digits && (1..=MOST_PARTS).contains(position));
    read.ok_or(format!("\"{word}\" is no position of a part: 1 to {MOST_PARTS}, as in --parts 1,3"))
}
