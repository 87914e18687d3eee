//! The cases that must occur in the generated jobs.

/// Cases in pieces, with `|` between the choices for a piece.
type Pieces = &'static [&'static str];

/// Every case: each choice with each.
pub fn put_together(pieces: Pieces) -> Vec<String> {
    pieces.iter().fold(vec![String::new()], |begun, piece| {
        let choices = |start: &String| {
            piece.split('|').map(|choice| format!("{start}{choice}")).collect::<Vec<_>>()
        };
        begun.iter().flat_map(choices).collect()
    })
}

/// Each role with each call, and with each place of a target.
pub const CALLS: &[Pieces] = &[
    &[
        "translator|reviewer|small letter|other letter",
        ", split|, join|, split of a listed part|, join of two listed parts",
        ": 24",
    ],
    &["translator|small letter|other letter", ", rewrite: 24"],
    &["small letter|other letter", ", set target|, remove target", ": 24"],
    &[
        "engineer",
        ", split|, join|, set target|, remove target|, rewrite",
        ": accepted|: refused by its own number",
    ],
    &["reviewer, rewrite", ": accepted|: refused by its own number|: 24"],
    &[
        "translator|reviewer",
        ", set target|, remove target",
        ": accepted|: refused by its own number|, own part: its own answer|, other part: 24\
         |, part 0, listed: 11|, part 0, not listed: 24|, part beyond, listed: 11\
         |, part beyond, not listed: 24|, part above 255, its low byte listed: 24",
    ],
    &["engineer, target", ", own part|, other part", ": its own answer"],
    &[
        "engineer, target",
        ", part 0, listed|, part 0, not listed|, part beyond, listed|, part beyond, not listed\
         |, part above 255, its low byte listed",
        ": 11",
    ],
    &[
        "small letter, target|other letter, target",
        ", own part|, other part|, part 0, listed|, part 0, not listed|, part beyond, listed\
         |, part beyond, not listed|, part above 255, its low byte listed",
        ": 24",
    ],
];

/// A reviewer's.
pub const REWRITES: &[Pieces] = &[
    &[
        "rewrite, source|rewrite, target",
        " pair| annotation",
        " in one part, listed: its own answer| in one part, not listed: 24\
         | in two parts, both listed: its own answer| in two parts, the first listed: 24\
         | in two parts, the second listed: 24| in two parts, none listed: 24",
    ],
    &["rewrite, target lone half", ", listed|, not listed", ": 24"],
    &[
        "rewrite, source|rewrite, target",
        " without the id, or a code without halves| without the id, the other side has it",
        ": 24",
    ],
    &["rewrite, wrong", " side letter: 24| form letter, granted: 2| form letter, not granted: 24"],
    &[
        "rewrite, target listed by position, not by order|rewrite, target listed, source not\
         |rewrite, source listed, target not",
        ": its own answer",
    ],
    &[
        "rewrite, target listed by order, not by position\
         |rewrite, source listed, target not, target asked\
         |rewrite, target listed, source not, source asked",
        ": 24",
    ],
];

pub const VIEWS: &[Pieces] = &[
    &["view of a role: ", "translator|reviewer|engineer|small letter|other letter"],
    &["state ", "I|T|R|F", " hidden, with target| hidden, without target"],
    &["an ignorable ", "with|without", " target outside"],
    &["an empty target hidden|every target hidden|targets hidden and targets shown"],
    &["no part outside|parts outside, nothing to hide|an engineer without positions"],
    &["a view of 64 parts|some of 64 targets hidden|a shown order above a hidden one"],
    &["the view passes the check|the view fails the check"],
    &["an output shorter than the table is enough"],
];

/// Whatever is asked.
pub const ANY: &[Pieces] = &[
    &[
        "view: |call: ",
        "no position|every position|a position twice|position 0|a position beyond the unit\
         |more positions than a unit has parts|positions not rising",
    ],
    &[
        "view: |granted: |not granted: ",
        "output just long enough|output one byte longer|output far longer|15 by one byte\
         |15 with no output|15 by more",
    ],
    &["view refused by |call refused by ", "1|2|3|4|5|6|7|8|9|10"],
    &["BAD"],
];
