//! The JSON object of the machine interface (K3 of 02): its members, its reader, its writer. The reader walks the bytes
//! and copies none but those of the codes and the category that it gives.

use crate::calendar::{date_text, day_in, steps, Label, LAST_DAY, STEPS};
use crate::notification::{code_of, decimal, is_category, is_code, put, Category, Code, Notification, Powers};
use crate::{hold, no, Refusal};

pub const MAX_OBJECT: usize = 8192;
const DAY_SECONDS: u32 = 86_400;

/// A submission moment: the day number and the second of the day.
#[derive(Clone, Copy, Debug, PartialEq, Eq)]
pub struct Moment {
    pub day: u32,
    pub second: u32,
}

/// What an object says.
#[derive(Clone, Debug, PartialEq)]
pub struct Object {
    pub notification: Notification,
    pub origin: Code,
    pub moment: Moment,
}

// What stands before a member's value, without blanks: a mark, the name in quotes and a colon.
const CEDER: &[u8; 23] = br#"{"CodeEicActeurCedant":"#;
const ACQUIRER: &[u8; 26] = br#","CodeEicActeurAcquereur":"#;
const ORIGIN: &[u8; 24] = br#","CodeEicActeurOrigine":"#;
const CATEGORY: &[u8; 26] = br#","NomCategorieEngagement":"#;
const DELIVERY: &[u8; 20] = br#","DateExploitation":"#;
const SUBMISSION: &[u8; 18] = br#","DateSoumission":"#;
const STATUS: &[u8; 10] = br#","Statut":"#;
const SERIES: &[u8; 13] = br#","Chronique":"#;
const START: &[u8; 9] = br#"{"Debut":"#;
const END: &[u8; 7] = br#","Fin":"#;
const POWER: &[u8; 13] = br#","Puissance":"#;

/// Each byte of a date member is at least the one here and at most that of one of the next two, which have their quotes
/// too. "the delivery day is the date part of DateExploitation and its time is 00:00:00".
const LOWEST: &[u8; 22] = br#""2000-00-00T00:00:00Z""#;
const HIGHEST_DAY: &[u8; 22] = br#""2099-19-39T00:00:00Z""#;
const HIGHEST: &[u8; 22] = br#""2099-19-39T29:59:59Z""#;

/// What stands between the powers of two steps without blanks: the first one's end and the second one's labels.
type Plain = Label<53, 45>;

static PLAIN: [[Plain; STEPS]; 3] = {
    let (mut table, mut i) = ([[Plain::EMPTY; STEPS]; 3], 0);
    while i < 3 * STEPS {
        let (kind, k) = (i / STEPS, i % STEPS);
        let start = Plain::EMPTY.with(b"},").with(START).with(b"\"").with_boundary(46 + 2 * kind, k, b'h', 0);
        let end = start.with(b"\"").with(END).with(b"\"").with_boundary(46 + 2 * kind, k + 1, b'h', 0);
        table[kind][k] = end.with(b"\"").with(POWER);
        i += 1;
    }
    table
};

/// A label with its closing quote.
type Quoted = Label<10, 6>;

static QUOTED: [[Quoted; STEPS + 1]; 3] = {
    let (mut table, mut i) = ([[Quoted::EMPTY; STEPS + 1]; 3], 0);
    while i < 3 * (STEPS + 1) {
        let (kind, k) = (i / (STEPS + 1), i % (STEPS + 1));
        table[kind][k] = Quoted::EMPTY.with_boundary(46 + 2 * kind, k, b'h', 0).with(b"\"");
        i += 1;
    }
    table
};

// Each function of the reader passes a part of the text and gives what follows it, or nothing where 42 is due.

#[inline]
fn blanks(text: &[u8]) -> &[u8] {
    match text {
        [..=b' ', ..] => pass_blanks(text),
        _ => text,
    }
}

#[inline(never)]
fn pass_blanks(mut text: &[u8]) -> &[u8] {
    while let [b' ' | b'\t' | b'\r' | b'\n', rest @ ..] = text {
        text = rest;
        if let Some(word) = text.first_chunk() {
            // Up to eight spaces at once.
            text = &text[(u64::from_le_bytes(*word) ^ u64::from_le_bytes([b' '; 8])).trailing_zeros() as usize / 8..];
        }
    }
    text
}

#[inline]
fn token<'a, const N: usize>(text: &'a [u8], token: &[u8; N]) -> Option<&'a [u8]> {
    blanks(text).strip_prefix(token)
}

/// Passes a mark, a name and a colon: at once, or with blanks one by one.
#[inline]
fn name<'a, const N: usize>(text: &'a [u8], tokens: &[u8; N]) -> Option<&'a [u8]> {
    text.strip_prefix(tokens).or_else(|| {
        let rest = blanks(text).strip_prefix(&tokens[..1])?;
        let rest = blanks(rest).strip_prefix(&tokens[1..N - 1])?;
        token(rest, b":")
    })
}

fn code(text: &[u8]) -> Option<(Code, &[u8])> {
    let (code, rest) = token(text, b"\"")?.split_first_chunk()?;
    is_code(code).then_some((*code, rest.strip_prefix(b"\"")?))
}

fn category(text: &[u8]) -> Option<(Category, &[u8])> {
    let (category, rest) = match *token(text, b"\"")? {
        [a, b, c, d, e, b'"', ref rest @ ..] => ([a, b, c, d, e, 0], rest),
        [a, b, c, d, e, b'C', b'"', ref rest @ ..] => ([a, b, c, d, e, b'C'], rest),
        _ => return None,
    };
    is_category(&category).then_some((category, rest))
}

fn moment<'a>(text: &'a [u8], highest: &[u8; 22]) -> Option<(Moment, &'a [u8])> {
    let (text, rest) = blanks(text).split_first_chunk::<22>()?;
    // Sixteen bytes are tested at once, those in the middle twice.
    let within = |i: usize| (i..i + 16).fold(true, |ok, i| ok & (LOWEST[i] <= text[i]) & (text[i] <= highest[i]));
    if !(within(0) & within(6)) {
        return None;
    }
    let two = |i: usize| 10 * text[i] as u32 + text[i + 1] as u32 - 11 * b'0' as u32;
    let day = day_in(2000 + two(3), two(6), two(9))? as u32;
    let second = 3600 * two(12) + 60 * two(15) + two(18);
    (second < DAY_SECONDS).then_some((Moment { day, second }, rest))
}

/// Whether a label is the right one, the text that begins with it and the text after its closing quote.
struct Found<'a> {
    right: bool,
    text: &'a [u8],
    rest: &'a [u8],
}

/// "a label is any quoted text without quote, backslash or byte below 32".
#[inline]
fn label<'a>(text: &'a [u8], right: &Quoted) -> Option<Found<'a>> {
    let text = token(text, b"\"")?;
    if let Some(rest) = right.strip(text) {
        return Some(Found { right: true, text, rest });
    }
    let len = text.iter().position(|&b| b == b'"' || b == b'\\' || b < b' ')?;
    Some(Found { right: false, text, rest: text[len..].strip_prefix(b"\"")? })
}

/// A power: one to four digits without a needless zero.
#[inline(always)]
fn power(text: &[u8]) -> Option<(i16, &[u8])> {
    let [a, b, c, d] = *text.first_chunk()?;
    let digit = |byte: u8| (byte as u32).wrapping_sub(b'0' as u32);
    let (value, len) = match (digit(a), digit(b), digit(c), digit(d)) {
        (a @ 1..=9, 10.., ..) => (a, 1),
        (a @ 1..=9, b, 10.., _) => (10 * a + b, 2),
        (a @ 1..=9, b, c, 10..) => (100 * a + 10 * b + c, 3),
        (a @ 1..=9, b, c, d) if !text.get(4)?.is_ascii_digit() => (1000 * a + 100 * b + 10 * c + d, 4),
        (0, 10.., ..) => (0, 1),
        _ => return None,
    };
    Some((value as i16, &text[len..]))
}

/// "a power is any run of one or more digits"; its value, if it's right.
fn digits(text: &[u8]) -> Option<(Option<i16>, &[u8])> {
    if let Some((power, rest)) = power(text) {
        return Some((Some(power), rest));
    }
    let len = text.iter().position(|b| !b.is_ascii_digit()).filter(|&len| len > 0)?;
    Some((None, &text[len..]))
}

/// The text up to one of its ends.
fn up_to<'a>(text: &'a [u8], end: &[u8]) -> &'a [u8] {
    &text[..text.len() - end.len()]
}

/// Passes what stands in a layout before a label or a power, 8 bytes at least. Its two ends, which overlap, are compared;
/// they have a known size, so that is no call.
#[inline(always)]
fn part<'a>(text: &'a [u8], part: &[u8]) -> Option<&'a [u8]> {
    #[inline(always)]
    fn same<const N: usize>(a: &[u8], b: &[u8]) -> bool {
        a.first_chunk::<N>() == b.first_chunk() && a.last_chunk::<N>() == b.last_chunk()
    }
    let (head, rest) = text.split_at_checked(part.len())?;
    let same = match part.len() {
        16..=32 => same::<16>(head, part),
        33..=64 => same::<32>(head, part),
        8..=15 => same::<8>(head, part),
        _ => false,
    };
    same.then_some(rest)
}

/// Passes steps as long as `step` gives their powers, and tells how many. As a function of its own the loop has registers
/// enough.
#[inline(never)]
fn run<'a, L>(
    labels: impl Iterator<Item = L>, powers: &mut [i16], mut text: &'a [u8],
    step: impl Fn(L, &'a [u8]) -> Option<(i16, &'a [u8])>,
) -> (usize, &'a [u8]) {
    let mut count = 0;
    for (label, slot) in labels.zip(powers) {
        let Some((power, rest)) = step(label, text) else { break };
        (*slot, text, count) = (power, rest, count + 1);
    }
    (count, text)
}

/// How many steps there are, their powers, and the first wrong label or power.
struct Series {
    len: usize,
    powers: Powers,
    fault: Option<Refusal>,
}

/// Passes a series that should have `count` steps.
fn series(text: &[u8], count: usize) -> Option<(Series, &[u8])> {
    let (plain, labels) = (&PLAIN[(count - 46) / 2][..count], &QUOTED[(count - 46) / 2][..=count]);
    let mut s = Series { len: 0, powers: [0; STEPS], fault: None };
    let (mut text, mut after_power) = (token(text, b"[")?, None);
    if let Some(rest) = token(text, b"]") {
        return Some((s, rest));
    }
    loop {
        // A step token by token. Beyond the day's steps labels don't matter, since 5 comes first.
        let start = label(name(text, START)?, &labels[s.len.min(count)])?;
        let end = label(name(start.rest, END)?, &labels[count.min(s.len + 1)])?;
        let at_power = blanks(name(end.rest, POWER)?);
        let (value, rest) = digits(at_power)?;
        let fault = if start.right && end.right { value.is_none().then_some(7) } else { Some(6) };
        s.fault = s.fault.or(fault.map(|number| no(number, s.len + 1)));
        if let (Some(slot), Some(power)) = (s.powers.get_mut(s.len), value) {
            *slot = power;
        }
        s.len += 1;
        text = rest;

        // After it, as long as nothing is wrong, the steps without blanks, or else those laid out as it is: the text
        // before each label and the power is the same, where the first such text begins after the power before.
        if s.len < count {
            let (n, rest) =
                run(plain[s.len..].iter(), &mut s.powers[s.len..], text, |step, text| power(step.strip(text)?));
            s.len += n;
            let before_start = after_power.map_or(br#"},{"Debut":""#.as_slice(), |text| up_to(text, start.text));
            let (before_end, before_power) = (up_to(start.rest, end.text), up_to(end.rest, at_power));
            let pairs = labels[s.len..].iter().zip(&labels[s.len + 1..]);
            let (n, rest) = run(pairs, &mut s.powers[s.len..], rest, |(start, end), text| {
                let rest = start.strip(part(text, before_start)?)?;
                let rest = end.strip(part(rest, before_end)?)?;
                power(part(rest, before_power)?)
            });
            s.len += n;
            text = rest;
        }

        after_power = Some(text);
        match blanks(token(text, b"}")?) {
            [b',', rest @ ..] => text = rest,
            [b']', rest @ ..] => return Some((s, rest)),
            _ => return None,
        }
    }
}

fn object(text: &[u8]) -> Option<Result<Object, Refusal>> {
    let (ceder, rest) = code(name(text, CEDER)?)?;
    let (acquirer, rest) = code(name(rest, ACQUIRER)?)?;
    let (origin, rest) = code(name(rest, ORIGIN)?)?;
    let (category, rest) = category(name(rest, CATEGORY)?)?;
    let (delivery, rest) = moment(name(rest, DELIVERY)?, HIGHEST_DAY)?;
    let (moment, rest) = moment(name(rest, SUBMISSION)?, HIGHEST)?;
    let rest = token(name(rest, STATUS)?, br#""C""#)?;
    let day = delivery.day as u16;
    let count = steps(day);
    let (Series { len, powers, fault }, rest) = series(name(rest, SERIES)?, count)?;
    if !blanks(token(rest, b"}")?).is_empty() {
        return None;
    }
    Some(match fault {
        _ if len != count => Err(no(5, 0)),
        Some(refusal) => Err(refusal),
        None if powers == [0; STEPS] => Err(no(8, 0)),
        None => {
            let notification = Notification { ceder, acquirer, category, day, steps: count as u8, powers };
            Ok(Object { notification, origin, moment })
        }
    })
}

/// Reads an object in one pass, or refuses by 42, then by 5 to 8.
pub fn read(body: &[u8]) -> Result<Object, Refusal> {
    hold(body.len() <= MAX_OBJECT, 42)?;
    object(body).unwrap_or(Err(no(42, 0)))
}

/// A moment as a date member has it, its quotes included.
fn moment_text(moment: Moment) -> [u8; 22] {
    let (mut text, date) = (*LOWEST, date_text(moment.day as u16));
    for (at, two) in [3, 6, 9].into_iter().zip(date[2..].chunks_exact(2)) {
        text[at..at + 2].copy_from_slice(two);
    }
    for (at, n) in [(12, moment.second / 3600), (15, moment.second / 60 % 60), (18, moment.second % 60)] {
        text[at..at + 2].copy_from_slice(&[b'0' + (n / 10) as u8, b'0' + (n % 10) as u8]);
    }
    text
}

/// Writes the object without blanks into the lent buffer and gives its length, or refuses by 9, 10, 8 or 36.
pub fn write(n: &Notification, origin: &[u8], moment: Moment, buffer: &mut [u8]) -> Result<usize, Refusal> {
    hold(n.is_well_formed() && code_of(origin).is_some(), 9)?;
    hold(n.is_in_range() && moment.day <= LAST_DAY && moment.second < DAY_SECONDS, 10)?;
    hold(!n.is_zero(), 8)?;
    let (delivery, submission) = (moment_text(Moment { day: n.day as u32, second: 0 }), moment_text(moment));
    let mut text = [0; 2737]; // the longest there is
    let codes: [&[u8]; 9] = [CEDER, b"\"", &n.ceder, b"\"", ACQUIRER, b"\"", &n.acquirer, b"\"", ORIGIN];
    let mut len = put(&mut text, 0, &codes);
    len = put(&mut text, len, &[b"\"", origin, b"\"", CATEGORY, b"\"", n.category_text(), b"\"", DELIVERY, &delivery]);
    len = put(&mut text, len, &[SUBMISSION, &submission, STATUS, br#""C""#, SERIES, b"["]);
    for (k, (step, &power)) in PLAIN[(n.steps as usize - 46) / 2].iter().zip(n.series()).enumerate() {
        let step = if k == 0 { &step.text()[2..] } else { step.text() };
        len = put(&mut text, len, &[step, decimal(power as u64, &mut [0; 20])]);
    }
    len = put(&mut text, len, &[b"}]}"]);
    hold(len <= buffer.len(), 36)?;
    buffer[..len].copy_from_slice(&text[..len]);
    Ok(len)
}
