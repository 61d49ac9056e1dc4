//! How an object is laid out: its tokens, and the blanks between them.

use peer::object::MAX_OBJECT;

use crate::random::Random;

/// The tokens of a text without blanks: each mark, each quoted text, each run of other bytes.
pub fn tokens_in(text: &[u8]) -> Vec<Vec<u8>> {
    const MARKS: &[u8] = b"{}[]:,";
    let (mut tokens, mut at) = (Vec::new(), 0);
    while at < text.len() {
        let rest = &text[at..];
        let length = match rest[0] {
            b'"' => rest[1..].iter().position(|b| *b == b'"').map_or(rest.len(), |end| end + 2),
            b if MARKS.contains(&b) => 1,
            _ => rest.iter().position(|b| *b == b'"' || MARKS.contains(b)).unwrap_or(rest.len()),
        };
        tokens.push(rest[..length].to_vec());
        at += length;
    }
    tokens
}

fn blanks(random: &mut Random, most: usize) -> Vec<u8> {
    (0..random.within(0, most)).map(|_| *random.pick(b"  \t\r\n")).collect()
}

/// The guide's layout: a member a line, two blanks more inside each bracket.
fn as_in_the_guide(tokens: &[Vec<u8>]) -> Vec<u8> {
    let (mut text, mut depth) = (Vec::new(), 0);
    let line = |text: &mut Vec<u8>, depth: usize| text.extend([&b"\n"[..], &b"  ".repeat(depth)].concat());
    for token in tokens {
        match &token[..] {
            b"{" | b"[" => {
                depth += 1;
                text.extend(token);
                line(&mut text, depth);
            }
            b"}" | b"]" => {
                depth -= depth.min(1);
                line(&mut text, depth);
                text.extend(token);
            }
            b"," => {
                text.extend(token);
                line(&mut text, depth);
            }
            b":" => text.extend(b" : "),
            _ => text.extend(token),
        }
    }
    text
}

/// The tokens without blanks, as in the guide, with the same blanks in each step, with such but for one place, or with any.
pub fn laid_out(random: &mut Random, tokens: &[Vec<u8>]) -> Vec<u8> {
    let kind = random.below(10);
    if kind < 4 {
        return tokens.concat();
    }
    if kind < 6 {
        return as_in_the_guide(tokens);
    }
    // What stands before each token: a step and the comma after it have 14 of them.
    let most = *random.pick(&[1, 1, 2, 3, 8]);
    let each: Vec<Vec<u8>> =
        (0..14).map(|_| if random.one_in(2) { blanks(random, most) } else { Vec::new() }).collect();
    let mut before: Vec<Vec<u8>> = match kind {
        6..9 => (0..=tokens.len()).map(|i| each[i % 14].clone()).collect(),
        _ => (0..=tokens.len()).map(|_| if random.one_in(3) { blanks(random, 2) } else { Vec::new() }).collect(),
    };
    if kind == 8 {
        let at = random.below(before.len());
        before[at] = blanks(random, 9);
    }
    let mut text: Vec<u8> =
        before.iter().zip(tokens).flat_map(|(before, token)| [&before[..], token].concat()).collect();
    text.extend(before.last().into_iter().flatten());
    if random.one_in(12) {
        fill(random, &mut text);
    }
    text
}

/// Blanks at one place of the text, or at its start or end, so that it is about as long as an object may be.
pub fn fill(random: &mut Random, text: &mut Vec<u8>) {
    let most = MAX_OBJECT;
    let length: usize = *random.pick(&[most - 1, most, most, most, most + 1, most + 1, most + 2, most + 1000]);
    let marks: Vec<usize> = (0..text.len()).filter(|at| b"{}[]:,".contains(&text[*at])).collect();
    let at = match random.below(3) {
        0 => 0,
        1 => text.len(),
        _ if marks.is_empty() => 0,
        _ => *random.pick(&marks),
    };
    let blank = *random.pick(b"  \t\r\n");
    text.splice(at..at, vec![blank; length.saturating_sub(text.len())]);
}
