//! A sheet read back by the order's words: "Each row ends in a line feed and counts 79 cells, and
//! the cells of the source and target columns, read down without padding, are the items' shown
//! forms in order".

use std::ops::Range;

use second::operations::content::items;
use second::record::Inline;
use second::table::{Part, PartKind, Placed, Unit};

/// An item and its shown form, a character for each cell.
pub struct Form {
    pub item: Inline,
    pub cells: Vec<char>,
}

/// A row of a column: the forms that stand in it, and those that are left for later rows.
pub struct Row<'a> {
    pub here: &'a [Form],
    pub left: &'a [Form],
}

fn forms(content: &[Placed]) -> Vec<Form> {
    let form = |item| Form { cells: shown(&item).chars().collect(), item };
    items(content).into_iter().map(form).collect()
}

fn shown(item: &Inline) -> String {
    match (item, item.mark(), item.id()) {
        (Inline::Text(text), ..) => String::from_utf8_lossy(text).replace(['\t', '\n', '\r'], "."),
        (_, Some(b"PH"), Some(id)) => format!("{{{id}}}"),
        (_, Some(b"PC" | b"EC" | b"IE" | b"MC" | b"EM"), Some(id)) => format!("{id}}}"),
        (_, Some(_), Some(id)) => format!("{{{id}"),
        _ => "#".to_string(),
    }
}

/// The sheet is the unit's; `seen` gets each part with the rows of its source and its target.
pub fn read_back(sheet: &[u8], unit: &Unit, mut seen: impl FnMut(&Part, &[Row], &[Row])) {
    let rows = rows(sheet);
    // A part begins where a position stands.
    let parts: Vec<&[Vec<char>]> = rows.chunk_by(|_, next| is_blank(&next[..3])).collect();
    assert_eq!(parts.len(), unit.parts.len());
    for (position, (rows, part)) in (1..).zip(parts.into_iter().zip(&unit.parts)) {
        assert_eq!(rows[0][..12].iter().collect::<String>(), head(part, position));
        assert!(rows[1..].iter().all(|row| is_blank(&row[..12])));
        let source = forms(&part.source);
        let target = part.target.as_ref().map_or(Vec::new(), |target| forms(&target.content));
        let (source, target) = (read_down(rows, 12..45, &source), read_down(rows, 46..79, &target));
        // "a part has only the rows it needs, at least one"
        let is_needed = |row: usize| !source[row].here.is_empty() || !target[row].here.is_empty();
        assert!(rows.len() == 1 || is_needed(rows.len() - 1));
        seen(part, &source, &target);
    }
}

/// The cells of each row, 79 and a line feed behind them; one blank stands between columns.
fn rows(sheet: &[u8]) -> Vec<Vec<char>> {
    let sheet = std::str::from_utf8(sheet).expect("UTF-8");
    let rows = sheet.split_inclusive('\n').map(|row| {
        let row: Vec<char> = row.strip_suffix('\n').expect("a line feed").chars().collect();
        assert_eq!(row.len(), 79, "{sheet}");
        assert!([3, 9, 11, 45].iter().all(|&blank| row[blank] == ' '), "{sheet}");
        row
    });
    rows.collect()
}

fn is_blank(cells: &[char]) -> bool {
    cells.iter().all(|cell| *cell == ' ')
}

/// "Positions and ids are right-aligned decimals, id 0 blank; an ignorable's state is blank."
fn head(part: &Part, position: u16) -> String {
    let aligned = |number: u16, cells: usize| {
        let digits = if number > 0 { number.to_string() } else { String::new() };
        [" ".repeat(cells - digits.len()), digits].concat()
    };
    let state = match part.kind {
        PartKind::Segment { state, .. } => state as char,
        PartKind::Ignorable => ' ',
    };
    [aligned(position, 3), aligned(part.id, 5), state.to_string(), String::new()].join(" ")
}

/// "A column's row takes all that fits": as many of the forms that are left as 33 cells hold, and
/// blanks behind them. No form is left below the last row.
fn read_down<'a>(rows: &[Vec<char>], cells: Range<usize>, forms: &'a [Form]) -> Vec<Row<'a>> {
    let mut left = forms;
    let read = rows.iter().map(|row| {
        let ends = left.iter().scan(0, |end, form| {
            *end += form.cells.len();
            Some(*end)
        });
        let here;
        (here, left) = left.split_at(ends.take_while(|end| *end <= 33).count());
        let mut shown: Vec<char> = here.iter().flat_map(|form| form.cells.clone()).collect();
        shown.resize(33, ' ');
        assert_eq!(row[cells.clone()], shown);
        Row { here, left }
    });
    let read = read.collect();
    assert!(left.is_empty());
    read
}
