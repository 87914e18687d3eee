//! Units in XML at the bench: what is a text in XML, and what a refusal tells of the text.

mod generated;
mod inputs;
mod records;
mod words;

use xliff_desk::Refusal;

const TO_SOURCE: &str = r#"<unit id="1"><segment><source>"#;

fn refusal(text: &[u8]) -> Option<Refusal> {
    xliff_desk::read_xml(text, &mut [0; 8192]).err()
}

/// What is told of a refused text below the refusal: lines that are set in.
fn told(text: &[u8]) -> Vec<String> {
    let refusal = refusal(text).expect("a refused text");
    let told = deskjob::xml::blamed(text, refusal);
    let mut lines = told.lines();
    assert_eq!(lines.next(), Some(refusal.to_string().as_str()));
    lines.map(|line| line.strip_prefix("  ").expect("a line that is set in").to_string()).collect()
}
