//! Objects with mistakes.

use super::change;
use super::values::{wrong_of_its_form, wrong_value, Token};
use crate::layouts::{fill, laid_out};
use crate::random::Random;
use crate::requests::{step_labels, tokens_of, Member, Request, Value};

/// The object of a request with one mistake, or more, laid out in some way.
pub fn damaged_object(random: &mut Random, mut request: Request) -> Vec<u8> {
    let zeros = random.one_in(6);
    if zeros {
        request.note.powers.fill(0);
    }
    let mut members = request.members();
    let mistakes = random.below(3).max(!zeros as usize);
    let (in_tokens, in_text) = (random.below(3 * mistakes + 1) / 3, random.below(4 * mistakes + 1) / 4);
    for _ in 0..mistakes.saturating_sub(in_tokens + in_text) {
        in_members(random, &mut members);
    }
    let mut tokens = tokens_of(&members);
    for _ in 0..in_tokens {
        mistake_in_tokens(random, &mut tokens);
    }
    let mut text = laid_out(random, &tokens);
    for _ in 0..in_text {
        mistake_in_text(random, &mut text);
    }
    text
}

fn in_members(random: &mut Random, members: &mut Vec<Member>) {
    let at = random.below(members.len().max(1));
    match random.below(12) {
        0..2 => mistake_in_names(random, members),
        2..5 if at < members.len() => {
            let value = wrong_value(random, &members[at].name);
            members[at].value = Value::Token(value);
        }
        5 => {
            let mut dates = members.iter_mut().filter(|member| member.name.starts_with(b"\"Date"));
            if let Some(member) = dates.nth(random.below(2)) {
                member.value = Value::Token(wrong_value(random, &member.name));
            }
        }
        _ => {
            for member in members {
                if let Value::Series(steps) = &mut member.value {
                    mistake_in_series(random, steps);
                }
            }
        }
    }
}

/// A member renamed, dropped, doubled or exchanged with its neighbour.
fn mistake_in_names(random: &mut Random, members: &mut Vec<Member>) {
    if members.len() < 2 {
        return;
    }
    let (at, other) = (random.below(members.len()), random.below(members.len()));
    let next = (at + 1) % members.len();
    match random.below(6) {
        0 => drop(members.remove(at)),
        1 => members.insert(at, members[other].clone()),
        2 => members.swap(at, next),
        3 => members[at].name = members[other].name.clone(),
        // A letter of the other case, or another one.
        4 => {
            let name = &mut members[at].name;
            let letter = random.below(name.len());
            name[letter] ^= if random.one_in(2) { 32 } else { 1 };
        }
        _ => {
            let name = *random.pick::<Token>(&[b"\"\"", b"\"debut\"", b"\"Origine\"", b"Statut", b"\"\\u0044ebut\""]);
            members[at].name = name.to_vec();
        }
    }
}

/// The steps: one out, one twice, two exchanged, none, many more; or a mistake in one of them.
fn mistake_in_series(random: &mut Random, steps: &mut Vec<Vec<Member>>) {
    if steps.is_empty() {
        return;
    }
    let (at, other) = (random.below(steps.len()), random.below(steps.len()));
    match random.below(16) {
        0 => drop(steps.remove(at)),
        1 => steps.insert(at, steps[other].clone()),
        2 => steps.swap(at, other),
        3 => match random.below(4) {
            0 => steps.clear(),
            1 => steps.truncate(*random.pick(&[1, 46, 48])),
            _ => {
                let more = vec![steps[at].clone(); *random.pick(&[1, 2, 4, 10, 60])];
                steps.extend(more);
            }
        },
        4 => mistake_in_names(random, &mut steps[at]),
        // A label of another step, or of another day.
        5..7 => {
            let labels = step_labels(*random.pick(&[46, 48, 50]), random.below(46));
            let which = random.below(2);
            if let Some(member) = steps[at].get_mut(which) {
                member.value = Value::Token([b"\"", &labels[random.below(2)][..], b"\""].concat());
            }
        }
        // Wrong labels and powers that are of their form, in one step or in two.
        7..9 => {
            for k in [at, if random.one_in(2) { at } else { other }] {
                let which = random.below(3);
                if let Some(member) = steps[k].get_mut(which) {
                    member.value = Value::Token(wrong_of_its_form(random, &member.name));
                }
            }
        }
        _ => {
            let which = if random.one_in(2) { 2 } else { random.below(2) };
            if let Some(member) = steps[at].get_mut(which) {
                member.value = Value::Token(wrong_value(random, &member.name));
            }
        }
    }
}

/// A token dropped, doubled, replaced or exchanged, a comma too many, a blank or another byte inside a token.
fn mistake_in_tokens(random: &mut Random, tokens: &mut Vec<Vec<u8>>) {
    const MARKS: [Token; 12] =
        [b",", b":", b"{", b"}", b"[", b"]", b"\"", b";", b"null", b"\"C\"", b"0", b"\"CodeEicActeurOrigine\""];
    // The members before the series are as likely as all the steps.
    let end = if random.one_in(2) { tokens.len().min(33) } else { tokens.len() };
    let (at, any) = (random.below(end), random.below(tokens.len()));
    let next = (at + 1) % tokens.len();
    match random.below(8) {
        0 => drop(tokens.remove(at)),
        1 => tokens.insert(at, tokens[at].clone()),
        2 => tokens[at] = random.pick(&MARKS).to_vec(),
        3 => tokens.insert(at, random.pick(&MARKS).to_vec()),
        4 => tokens.swap(at, if random.one_in(2) { any } else { next }),
        5 => {
            let inside = random.below(tokens[at].len() + 1);
            tokens[at].insert(inside, *random.pick(b"  \t\n\r\0\\\"\x1f\x7f"));
        }
        // After the last step, after the series, or after any step's power.
        _ => {
            let ends: Vec<usize> = (0..tokens.len()).filter(|i| matches!(&tokens[*i][..], b"}" | b"]")).collect();
            if let Some(last) = ends.len().checked_sub(1) {
                let which = if random.one_in(3) { random.below(last + 1) } else { last - random.below(3).min(last) };
                tokens.insert(ends[which], b",".to_vec());
            }
        }
    }
}

/// Text before or after the object, blanks up to the greatest length and past it, a cut, or another byte.
fn mistake_in_text(random: &mut Random, text: &mut Vec<u8>) {
    const AROUND: [Token; 14] = [
        b"x",
        b",",
        b"}",
        b"]",
        b"{}",
        b"null",
        b"\0",
        b"\x0b",
        b"\x0c",
        b"\xc2\xa0",
        b"\xef\xbb\xbf",
        b"//",
        b" \n",
        b"\"",
    ];
    match random.below(8) {
        0 | 1 => text.extend_from_slice(random.pick::<Token>(&AROUND)),
        2 => drop(text.splice(..0, random.pick(&AROUND).to_vec())),
        3 => fill(random, text),
        4 | 5 => text.truncate(random.below(text.len() + 1)),
        6 => {
            let copy = text.clone();
            text.extend(copy);
        }
        _ => change(random, text),
    }
}
