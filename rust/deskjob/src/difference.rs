//! Two lists of lines beside each other: ` ` kept, `-` gone, `+` new.

pub fn marked(before: &[String], after: &[String]) -> String {
    let mut text = String::new();
    let (mut left, mut right) = (0, 0);
    for (at_left, at_right) in common(before, after) {
        push(&mut text, '-', &before[left..at_left]);
        push(&mut text, '+', &after[right..at_right]);
        push(&mut text, ' ', &before[at_left..=at_left]);
        (left, right) = (at_left + 1, at_right + 1);
    }
    push(&mut text, '-', &before[left..]);
    push(&mut text, '+', &after[right..]);
    text
}

fn push(text: &mut String, mark: char, lines: &[String]) {
    for line in lines {
        *text += &format!("  {mark} {line}\n");
    }
}

/// The places of a longest common subsequence.
fn common(before: &[String], after: &[String]) -> Vec<(usize, usize)> {
    let width = after.len() + 1;
    let mut longest = vec![0usize; (before.len() + 1) * width];
    for left in (0..before.len()).rev() {
        for right in (0..after.len()).rev() {
            longest[left * width + right] = if before[left] == after[right] {
                1 + longest[(left + 1) * width + right + 1]
            } else {
                longest[(left + 1) * width + right].max(longest[left * width + right + 1])
            };
        }
    }
    let mut places = Vec::new();
    let (mut left, mut right) = (0, 0);
    while left < before.len() && right < after.len() {
        if before[left] == after[right] {
            places.push((left, right));
            (left, right) = (left + 1, right + 1);
        } else if longest[(left + 1) * width + right] >= longest[left * width + right + 1] {
            left += 1;
        } else {
            right += 1;
        }
    }
    places
}
