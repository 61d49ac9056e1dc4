//! Files and objects with mistakes.

mod objects;
mod values;

pub use objects::damaged_object;

use crate::notes::{code, Note};
use crate::random::Random;

/// The file of a note with one mistake, or more.
pub fn damaged(random: &mut Random, mut note: Note) -> (Vec<u8>, Vec<u8>) {
    let zeros = random.one_in(8);
    if zeros {
        note.powers.fill(0);
    }
    let (mut name, mut body) = note.file();
    for _ in 0..random.below(3).max(!zeros as usize) {
        match random.below(17) {
            0 => change(random, &mut name),
            1 => change(random, &mut body),
            // Nothing, too much, or another end.
            2 => match random.below(4) {
                0 => body.clear(),
                1 => drop(body.pop()),
                2 => body.resize(*random.pick(&[4095, 4096, 4097, 5000]), b'\n'),
                _ => body.extend_from_slice(random.pick::<&[u8]>(&[b"\n", b"x\n", b"\r\n", b" "])),
            },
            // Another header, valid or not.
            3 | 4 => {
                let mut other = note.clone();
                match random.below(4) {
                    0 => other.ceder = code(9),
                    1 => (other.ceder, other.acquirer) = (other.acquirer, other.ceder),
                    2 => {
                        other.date =
                            random.pick::<&[u8]>(&[b"20210120", b"20210229", b"21000101", b"00000000"]).to_vec()
                    }
                    _ => other.category = random.pick::<&[u8]>(&[b"99999", b"99999C", b"9999", b"99999D"]).to_vec(),
                }
                let lines = body.iter().position(|b| *b == b'\n').map_or(0, |at| at + 1);
                let (_, others) = Note { powers: Vec::new(), ..other }.file();
                body.splice(..lines, others);
            }
            // The lines: one out, one twice, two exchanged.
            5..9 => {
                let mut lines: Vec<Vec<u8>> = body.split_inclusive(|b| *b == b'\n').map(<[u8]>::to_vec).collect();
                if lines.len() > 2 {
                    let (i, j) = (random.below(lines.len()), random.below(lines.len()));
                    match random.below(4) {
                        0 => drop(lines.remove(i)),
                        1 => lines.insert(i, lines[j].clone()),
                        2 => lines[i] = b"\n".to_vec(),
                        _ => lines.swap(i, j),
                    }
                }
                body = lines.concat();
            }
            // A step's power.
            9..14 => {
                let lines: Vec<&[u8]> = body.split_inclusive(|b| *b == b'\n').collect();
                if lines.len() > 1 {
                    let at = random.within(1, lines.len() - 1);
                    let labels = lines[at].splitn(3, |b| *b == b';').take(2).map(<[u8]>::len).sum::<usize>() + 2;
                    let power = *random.pick::<&[u8]>(&[
                        b"07;",
                        b"00;",
                        b"10000;",
                        b"99999;",
                        b"4294967297;",
                        b"-1;",
                        b"+1;",
                        b" 1;",
                        b"1 ;",
                        b";",
                        b"",
                        b"1",
                        b"1;;",
                        b"1;1;",
                        b"1.0;",
                        b"1;\r",
                        b"0x1;",
                        b"9999;",
                        b"0;",
                    ]);
                    let line = [&lines[at][..labels.min(lines[at].len())], power, b"\n"].concat();
                    body = [&lines[..at].concat()[..], &line, &lines[at + 1..].concat()].concat();
                }
            }
            14 => note.date = b"20210230".to_vec(),
            // A long line.
            15 => {
                let at = random.below(body.len() + 1);
                let more = vec![*random.pick(b"0;9 "); random.within(40, 200)];
                body.splice(at..at, more);
            }
            _ => {
                let cut = random.below(body.len() + 1);
                body.truncate(cut);
            }
        }
    }
    if note.date == b"20210230" {
        name = note.file().0;
    }
    (name, body)
}

/// One byte changed, put in or taken out.
fn change(random: &mut Random, text: &mut Vec<u8>) {
    let at = random.below(text.len() + 1);
    let byte = match random.below(3) {
        0 => random.next() as u8,
        _ => *random.pick(b"0912AZ-_;:\n\r .C\0"),
    };
    match random.below(3) {
        0 => text.insert(at, byte),
        1 if at < text.len() => drop(text.remove(at)),
        _ if at < text.len() => text[at] = byte,
        _ => {}
    }
}
