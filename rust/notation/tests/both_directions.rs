//! Lines to bytes and bytes to lines.

use notation::{
    from_hexadecimal, job, least_length, read, read_requests, records, Job, Line, Request,
};

/// The printed job of document 01, and a request of each other operation.
const LINES: &str = r#"UN Y
SG 1 - I
TX "A. B"
UE
SP 1 2 0 2
JN 1
ST 1 T
  TX "x"
  CP 1
RT 1
RW S 5 P
"#;

const BYTES: &[u8] = b"UNYSG\0\x01-ITX\0\x04A. BUESP\0\x01\0\x02\0\0\0\x02JN\0\x01\
    ST\0\x01T\0\x0BTX\0\x01xCP\0\0\0\x01RT\0\x01RWS\0\x05P";

fn texts(lines: Vec<Line>) -> Vec<String> {
    lines.into_iter().map(|line| line.text).collect()
}

/// The requests of these bytes, all of them readable.
fn requests(bytes: &[u8]) -> Vec<Request> {
    let (mut requests, mut at) = (Vec::new(), 0);
    while at < bytes.len() {
        let (request, length) = Request::first(&bytes[at..]).expect("a readable request");
        requests.push(request);
        at += length;
    }
    requests
}

#[test]
fn each_request_is_read_and_shown() {
    let (table, behind) = BYTES.split_at(19);
    let content = b"TX\0\x01xCP\0\0\0\x01".to_vec();
    let expected = vec![
        Request::Split { part: 1, source_cut: 2, target_cut: 0, new_id: 2 },
        Request::Join { part: 1 },
        Request::SetTarget { part: 1, state: b'T', content },
        Request::RemoveTarget { part: 1 },
        Request::Rewrite { side: b'S', id: 5, form: b'P' },
    ];
    assert_eq!(requests(behind), expected);
    assert_eq!(read(LINES), Ok(Job { table: table.to_vec(), requests: expected }));
    assert_eq!(texts(job(BYTES)), LINES.lines().collect::<Vec<_>>());
}

/// A list of requests with no table: they are those of a job.
#[test]
fn requests_are_read_alone() {
    let (_, behind) = LINES.split_once("UE\n").unwrap();
    assert_eq!(read_requests(behind), Ok(read(LINES).unwrap().requests));
    assert_eq!(read_requests("# none\n"), Ok(vec![]));
    let mistake = read_requests("\nUN Y\n").unwrap_err();
    assert_eq!(mistake.to_string(), "line 2, column 1: UN stands behind the table");
}

#[test]
fn lengths_of_records() {
    let lengths = ["UN", "UE", "SG", "IG", "TX", "CP", "IE", "SM", "EM"].map(least_length);
    assert_eq!(lengths, [3, 2, 6, 4, 4, 6, 12, 5, 4].map(Some));
    assert_eq!(least_length("SP"), None);
}

/// Of a content, offsets count from its own first byte.
#[test]
fn lines_have_offsets() {
    let offsets: Vec<usize> = job(BYTES).into_iter().map(|line| line.offset).collect();
    assert_eq!(offsets, [0, 3, 9, 17, 19, 29, 33, 0, 5, 51, 55]);
}

#[test]
fn a_request_cut_short_is_none() {
    for request in [b"SP\0\x01\0\x02\0\0\0\x02".as_slice(), b"JN\0\x01", b"RWS\0\x05P"] {
        assert_eq!(Request::first(request).map(|(_, length)| length), Some(request.len()));
        for length in 0..request.len() {
            assert_eq!(Request::first(&request[..length]), None);
        }
    }
    assert_eq!(Request::first(b"ST\0\x01T\0\x02T"), None);
    assert_eq!(Request::first(b"XX\0\x01"), None);
}

/// What the notation cannot say stands in hexadecimal, and the lines behind it are shown.
#[test]
fn odd_bytes_are_shown() {
    let table = b"UN\x07SG\0\x01#ITX\0\x02\xFFATX\0\x09A";
    let expected = [
        "UN 07 (no letter)",
        "SG 1 23 (no letter) I",
        "TX FF41 (not UTF-8)",
        "5458000941 (no record)",
    ];
    assert_eq!(texts(records(table)), expected);
    assert_eq!(texts(job(b"UEXXA")), ["UE", "585841 (no request)"]);
    assert_eq!(texts(job(b"UERT\0\x01RT\0")), ["UE", "RT 1", "525400 (no request)"]);
    // and with no table before them
    let shown = texts(notation::requests(b"ST\0\x01T\0\x05TX\0\x01aRT\0\x01RT"));
    assert_eq!(shown, ["ST 1 T", "  TX \"a\"", "RT 1", "5254 (no request)"]);
    assert!(notation::requests(b"").is_empty());
}

/// An accent that is a code point of its own, U+0300 to U+036F, is shown as such, so that items can
/// be counted; é in one code point stays é.
#[test]
fn accents_are_shown_by_number() {
    for accent in '\u{300}'..='\u{36F}' {
        let table = [b"TX\0\x06e", accent.to_string().as_bytes(), "é ".as_bytes()].concat();
        let shown = format!("TX \"e\\u{{{:x}}}é \"", accent as u32);
        assert_eq!(texts(records(&table)), [shown.as_str()]);
        assert_eq!(read(&shown).map(|job| job.table), Ok(table.clone()));
        // and may be written as it is
        assert_eq!(read(&format!("TX \"e{accent}é \"")).map(|job| job.table), Ok(table));
    }
}

#[test]
fn mistakes_have_line_and_column() {
    let mistake = |text| read(text).unwrap_err().to_string();
    assert_eq!(mistake("UN Y\nXX 1\n"), "line 2, column 1: XX is neither a record nor a request");
    assert_eq!(mistake("UN Y\nSG 1 -\n"), "line 2, column 7: SG has 3 fields, not 2");
    assert_eq!(mistake("SP 1 2 0 2 3"), "line 1, column 12: SP has 4 fields, not 5");
    assert_eq!(mistake("SP 1 x y z"), "line 1, column 6: x is no number from 0 to 65535");
    assert_eq!(mistake("IG 70000"), "line 1, column 4: 70000 is no number from 0 to 65535");
    assert_eq!(mistake("UN  YN"), "line 1, column 5: YN is no letter");
    assert_eq!(mistake("TX \"a"), "line 1, column 4: the text has no closing quotation mark");
    assert_eq!(mistake("TX a"), "line 1, column 4: a is no text in quotation marks");
    assert_eq!(mistake("TX \"\\q\""), "line 1, column 4: an unknown escape in the text");
    assert_eq!(mistake("UN Y\nUE\nIG 1"), "line 3, column 1: IG stands behind the table");
    assert_eq!(mistake("CP Z"), "line 1, column 4: Z is no code point in hexadecimal");
    let long = format!("TX \"{}\"", "é".repeat(32768));
    assert_eq!(mistake(&long), "line 1, column 4: the text has over 65,535 bytes");
    // two records of 32,767 bytes, and a third
    let text = format!("TX \"{}\"\n", "a".repeat(32763));
    let content = ["UE\nST 1 T\n", &text, &text].concat();
    assert_eq!(read(&content).map(|job| job.requests[0].bytes().len()), Ok(7 + 65534));
    let mistaken = mistake(&[&content, "  MC 7\n"].concat());
    assert_eq!(mistaken, "line 5, column 3: the content has over 65,535 bytes");
}

#[test]
fn hexadecimal_goes_there_and_back() {
    assert_eq!(from_hexadecimal("00fF"), Some(vec![0, 255]));
    assert_eq!(notation::hexadecimal(&[0, 255]), "00FF");
    assert_eq!(from_hexadecimal("0"), None);
    assert_eq!(from_hexadecimal("0g"), None);
}

/// Jobs of the vectors go to notation and back, where it can say all of their bytes.
#[test]
fn jobs_go_there_and_back() {
    let vectors = concat!(env!("CARGO_MANIFEST_DIR"), "/../../vectors/jobs.txt");
    let vectors = std::fs::read_to_string(vectors).unwrap();
    let (mut tables, mut with_requests) = (0, 0);
    for line in vectors.lines() {
        let bytes = from_hexadecimal(line.split(' ').next().unwrap()).unwrap();
        let text = texts(job(&bytes)).join("\n");
        if text.contains(" (no") {
            continue;
        }
        let read = read(&text).unwrap_or_else(|mistake| panic!("{mistake}: {text}"));
        let (table, behind) = bytes.split_at(read.table.len());
        assert_eq!(read.table, table, "{text}");
        assert_eq!(read.requests, requests(behind), "{text}");
        let bytes: Vec<u8> = read.requests.iter().flat_map(|request| request.bytes()).collect();
        assert_eq!(bytes, behind, "{text}");
        tables += 1;
        with_requests += usize::from(!behind.is_empty());
    }
    assert!(tables > 500 && with_requests > 300, "only {tables} jobs, {with_requests} of them ask");
}
