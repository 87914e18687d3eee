//! Points 14 and 15 of the readings: the writer.

use super::*;

#[test]
fn point_14_writer() {
    let table = |depth: usize| {
        let mut records = b"UNYSG\0\0-I".to_vec();
        (1..=depth).for_each(|id| records.extend([b'M', b'O', 0, id as u8, b'-']));
        (1..=depth).rev().for_each(|id| records.extend([b'M', b'C', 0, id as u8]));
        records.extend(b"UE");
        records
    };
    let text = write_xml(&table(32), 10_000).expect("depth 32");
    assert_eq!(read(&text), Ok(table(32)));
    assert_eq!(write_xml(&table(32), text.len() - 1), refused(15, 0));
    assert_eq!(write_xml(&table(33), 0), refused(22, 0));
    // The check goes before the depth.
    let mut deep_and_bad = table(33);
    deep_and_bad[2] = b'X';
    assert_eq!(write_xml(&deep_and_bad, 10_000), refused(2, 0));
    // The draft asks for a target where the state is not initial; document 01 does not.
    assert!(write_xml(b"UNYSG\0\0-FUE", 10_000).is_ok());
}

#[test]
fn point_15_the_writers_spelling() {
    let table = [
        b"UNYSG\0\x03NITX\0\x07a&<>\r\n\tCP\0\0\0\x1A".as_slice(),
        b"PH\0\x05\0\0\0\x09YN-YPO\0\x06\0\0\0\x01NNYFMO\0\x07-MC\0\x07PC\0\x06\0\0\0\x02NNYN",
        b"SC\0\x08\0\0\0\0YYNYEC\0\x08\0\0\0\0YYNYIS\0\x09\0\0\0\0YYYYIE\0\x0A\0\0\0\0YYYY",
        b"TG\0\x02PH\0\x0B\0\x05\0\0YN-YSM\0\x0CYEM\0\x0CIG\0\x04UE",
    ]
    .concat();
    let text = [
        r#"<unit id="1" canResegment="yes"><segment id="3" canResegment="no" state="initial">"#,
        "<source>a&amp;&lt;&gt;&#13;\n\t",
        r#"<cp hex="001A"/>"#,
        r#"<ph id="5" dataRef="9" canCopy="yes" canDelete="no" canReorder="yes"/>"#,
        r#"<pc id="6" dataRefStart="1" dataRefEnd="2" canCopy="no" canDelete="no""#,
        r#" canOverlap="yes" canReorder="firstNo"><mrk id="7"></mrk></pc>"#,
        r#"<sc id="8" canCopy="yes" canDelete="yes" canOverlap="no" canReorder="yes""#,
        r#" isolated="no"/>"#,
        r#"<ec startRef="8" canCopy="yes" canDelete="yes" canOverlap="no" canReorder="yes""#,
        r#" isolated="no"/>"#,
        r#"<sc id="9" canCopy="yes" canDelete="yes" canOverlap="yes" canReorder="yes""#,
        r#" isolated="yes"/>"#,
        r#"<ec id="10" canCopy="yes" canDelete="yes" canOverlap="yes" canReorder="yes""#,
        r#" isolated="yes"/></source><target order="2">"#,
        r#"<ph id="11" copyOf="5" canCopy="yes" canDelete="no" canReorder="yes"/>"#,
        r#"<sm id="12" translate="yes"/><em startRef="12"/></target></segment>"#,
        r#"<ignorable id="4"><source></source></ignorable></unit>"#,
    ]
    .concat();
    let written = write_xml(&table, 10_000).map(|text| String::from_utf8_lossy(&text).into_owned());
    assert_eq!(written.as_deref(), Ok(text.as_str()));
    assert_eq!(read(text.as_bytes()), Ok(table));
}
