//! "With output enough a valid table within depth 32, written and read, must come back in every
//! byte."

use second::generate::{deep_unit, valid_unit, Random, ENOUGH};
use second::rules::check;

use super::*;

/// The text that the writer writes for the table is as long as it says, and is read as the table.
fn comes_back(table: &[u8]) {
    let text = write_xml(table, ENOUGH).expect("a valid table within depth 32");
    assert_eq!(write_xml(table, text.len()).as_ref(), Ok(&text));
    assert_eq!(write_xml(table, text.len() - 1), refused(15, 0));
    let shown = || String::from_utf8_lossy(&text).into_owned();
    assert_eq!(read_xml(&text, table.len()).as_deref(), Ok(table), "{}", shown());
    assert_eq!(read_xml(&text, table.len() - 1), refused(15, 0), "{}", shown());
}

#[test]
fn generated_tables_come_back() {
    let random = &mut Random::new(1);
    for _ in 0..3000 {
        comes_back(&valid_unit(random).write());
    }
}

#[test]
fn deep_tables_come_back_or_are_refused() {
    let random = &mut Random::new(2);
    let (mut back, mut deeper) = (0, 0);
    for _ in 0..1000 {
        let table = deep_unit(random).write();
        assert!(check(&table).is_ok());
        if write_xml(&table, ENOUGH) == refused(22, 0) {
            deeper += 1;
        } else {
            comes_back(&table);
            back += 1;
        }
    }
    println!("{back} tables came back, {deeper} are deeper");
    assert!(back > 300 && deeper > 300);
}

/// Every character of text that XML allows, and every `CP` that it forbids.
#[test]
fn all_characters_come_back() {
    let allowed = |code_point: &u32| second::table::xml_allows(*code_point);
    let characters: Vec<char> = (0..0x110000).filter(allowed).filter_map(char::from_u32).collect();
    for run in characters.chunks(2000) {
        let text: String = run.iter().collect();
        let length = (text.len() as u16).to_be_bytes();
        comes_back(&[b"UNYSG\0\0-ITX", &length[..], text.as_bytes(), b"UE"].concat());
    }
    let forbidden: Vec<u32> = (0..0x110000).filter(|code_point| !allowed(code_point)).collect();
    for run in forbidden.chunks(1000) {
        let records: Vec<u8> =
            run.iter().flat_map(|c| [b"CP".as_slice(), &c.to_be_bytes()].concat()).collect();
        comes_back(&[b"UNYSG\0\0-I", &records[..], b"UE"].concat());
    }
}
