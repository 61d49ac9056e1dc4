//! Filing by the machine interface: the object of the guide's section 5.3, its reader, its writer, its filing.

use peer::calendar::{day_of, steps, LAST_DAY};
use peer::notification::{self, Code, Notification};
use peer::object::{read, write, Moment, Object};
use peer::register::{Filed, Register, Status};
use peer::Refusal;

const A: Code = *b"17X100A100R00000";
const B: Code = *b"17X100A100R00001";
const D: Code = *b"17X100A100R00002";
/// Of 46, 48 and 50 steps.
const DATES: [&str; 3] = ["2020-03-29", "2020-04-28", "2020-10-25"];
/// 2020-04-25T07:00:00Z.
const MOMENT: Moment = Moment { day: 7420, second: 7 * 3600 };

fn day(date: &str) -> u16 {
    day_of(date.replace('-', "").as_bytes()).unwrap()
}

/// The labels at the boundaries between the steps, as the documents have them.
fn labels(count: usize) -> Vec<String> {
    let mut labels: Vec<String> = (0..48).map(|k| format!("{:02}h{:02}", k / 2, k % 2 * 30)).collect();
    match count {
        46 => _ = labels.drain(4..6),
        50 => _ = labels.splice(7..7, ["02h30_BIS", "03h00_BIS"].map(String::from)),
        _ => {}
    }
    labels.push("00h00".into());
    assert_eq!(labels.len(), count + 1);
    labels
}

fn power(k: usize) -> i16 {
    [0, 0, 10, 10, 12, 305, 9999][k % 7]
}

fn notification(date: &str) -> Notification {
    let (day, count) = (day(date), steps(day(date)));
    let mut n = Notification { ceder: A, acquirer: B, category: *b"09120\0", day, steps: count as u8, powers: [0; 50] };
    (0..count).for_each(|k| n.powers[k] = power(k));
    n
}

/// What the guide's example says.
fn said(date: &str) -> Result<Object, Refusal> {
    Ok(Object { notification: notification(date), origin: B, moment: MOMENT })
}

/// The guide's example made whole and laid out as it is there: the first step has no blanks after its colons.
fn guide(date: &str) -> String {
    let mut text = format!(
        r#"{{
  "CodeEicActeurCedant" : "17X100A100R00000",
  "CodeEicActeurAcquereur" : "17X100A100R00001",
  "CodeEicActeurOrigine" : "17X100A100R00001",
  "NomCategorieEngagement" : "09120",
  "DateExploitation" : "{date}T00:00:00Z",
  "DateSoumission": "2020-04-25T07:00:00Z",
  "Statut": "C",
  "Chronique":["#
    );
    for (k, pair) in labels(steps(day(date))).windows(2).enumerate() {
        let (comma, blank) = if k == 0 { ("", "") } else { (",", " ") };
        text +=
            &format!("{comma}\n    {{\n      \"Debut\":{blank}\"{}\",\n      \"Fin\":{blank}\"{}\",", pair[0], pair[1]);
        text += &format!("\n      \"Puissance\":{blank}{}\n    }}", power(k));
    }
    text + "\n  ]\n}"
}

fn without_blanks(text: &str) -> String {
    text.replace([' ', '\n'], "")
}

/// The example in both layouts, on days of 46, 48 and 50 steps.
fn examples() -> impl Iterator<Item = (&'static str, String)> {
    DATES.into_iter().flat_map(|date| [(date, guide(date)), (date, without_blanks(&guide(date)))])
}

/// The text with `new` in place of the n-th `old`, counted from 0.
fn with_nth(text: &str, n: usize, old: &str, new: &str) -> String {
    let (at, _) = text.match_indices(old).nth(n).unwrap_or_else(|| panic!("no {old} in {text}"));
    [&text[..at], new, &text[at + old.len()..]].concat()
}

fn with(text: &str, old: &str, new: &str) -> String {
    with_nth(text, 0, old, new)
}

/// The number and place of the refusal, 0 and 0 without one.
fn verdict(body: impl AsRef<[u8]>) -> (u8, u8) {
    read(body.as_ref()).map_or_else(|refusal| (refusal.number, refusal.place), |_| (0, 0))
}

#[track_caller]
fn is_42(body: impl AsRef<[u8]>) {
    assert_eq!(verdict(&body), (42, 0), "{}", String::from_utf8_lossy(body.as_ref()));
}

#[test]
fn guides_example() {
    for (date, text) in examples() {
        assert_eq!(read(text.as_bytes()), said(date), "{text}");
    }
    // As the guide prints it, with commas before `]` and `}`.
    let text = without_blanks(&guide(DATES[1]));
    [",]}", "],}", ",],}"].into_iter().for_each(|end| is_42(with(&text, "]}", end)));
}

/// Where each token begins.
fn tokens(text: &str) -> Vec<usize> {
    let (mut starts, mut quoted, mut digit) = (vec![], false, false);
    for (at, b) in text.bytes().enumerate() {
        if !(quoted || b" \n".contains(&b) || digit && b.is_ascii_digit()) {
            starts.push(at);
        }
        digit = !quoted && b.is_ascii_digit();
        quoted ^= b == b'"';
    }
    starts
}

#[test]
fn blanks() {
    for (date, text) in examples() {
        let before = |at: usize, new: &str| [&text[..at], new, &text[at..]].concat();
        let places = [vec![0, text.len()], tokens(&text)].concat();
        for blanks in [" ", "\t", "\r", "\n", "\r\n\t  \n", "\n          ", "                 "] {
            places.iter().for_each(|&at| assert_eq!(read(before(at, blanks).as_bytes()), said(date), "{at}"));
        }
        // What is none.
        for other in ["\x0b", "\x0c", "\0", "\u{a0}", "\u{feff}", "/**/", "//\n", "x"] {
            places.iter().for_each(|&at| is_42(before(at, other)));
        }
        // Within a token.
        for (old, new) in
            [("Cedant", "Ced ant"), ("\"C\"", "\"C \""), ("09120", " 09120"), ("T07", " T07"), ("305", "3 05")]
        {
            is_42(with(&text, old, new));
        }
        assert_eq!(verdict(with(&text, "\"01h00", "\" 01h00")), (6, 2));
    }
}

#[test]
fn layouts() {
    for (date, line, indent, colon) in [
        (DATES[0], "\n", "\t", ": "),
        (DATES[1], "\r\n", "    ", ":"),
        (DATES[2], "\n", "  ", ": "),
        (DATES[2], "", "", ": "),
        (DATES[2], " ", "", " : "),
        (DATES[2], "\n", "                ", ":"),
    ] {
        // Alike in every step, or with one blank more in each second, third, seventh.
        for each in [usize::MAX, 2, 3, 7] {
            let (mut text, mut depth, mut step) = (String::new(), 0, 0);
            for c in without_blanks(&guide(date)).chars() {
                if "}]".contains(c) {
                    depth -= 1;
                    text += &[line, &indent.repeat(depth)].concat();
                }
                text += &if c == ':' && text.ends_with('"') { colon.to_string() } else { c.to_string() };
                if "{[,".contains(c) {
                    depth += (c != ',') as usize;
                    step += (c == '{') as usize;
                    text += &[line, &indent.repeat(depth), if step % each == 0 { " " } else { "" }].concat();
                }
            }
            assert_eq!(read(text.as_bytes()), if text.len() > 8192 { read(b"") } else { said(date) }, "{text}");
            // What the step before has, but this one lacks.
            for k in [1, 2, 3, 20, 44].into_iter().filter(|_| text.len() <= 8192) {
                for (old, new) in [("{", ""), ("}", ""), (",", ""), (":", ""), ("\"Debut", "Debut"), ("\"Fin", "\"Fim")]
                {
                    let at = text.match_indices("{").nth(k + 1).unwrap().0;
                    is_42([&text[..at], &with(&text[at..], old, new)].concat());
                }
            }
        }
    }
}

#[test]
fn members() {
    let names = "CodeEicActeurCedant CodeEicActeurAcquereur CodeEicActeurOrigine NomCategorieEngagement";
    let names = format!("{names} DateExploitation DateSoumission Statut Chronique");
    let names: Vec<&str> = names.split(' ').collect();
    for (_, text) in examples() {
        let starts: Vec<usize> = names.iter().map(|name| text.find(&format!("\"{name}\"")).unwrap()).collect();
        let (start, end) = (starts[0], text.len() - 1);
        let part = |i: usize| text[starts[i]..*starts.get(i + 1).unwrap_or(&end)].trim_end().trim_end_matches(',');
        let parts: Vec<&str> = (0..8).map(part).collect();
        let joined = |parts: &[&str]| [&text[..start], &parts.join(","), "}"].concat();
        assert_eq!(verdict(joined(&parts)), (0, 0));
        is_42(joined(&[]));
        for (i, name) in names.iter().enumerate() {
            // Missing, doubled, one more before or after it, another order.
            is_42(joined(&[&parts[..i], &parts[i + 1..]].concat()));
            for more in [parts[i], r#""Autre":"C""#, r#""Autre":1"#, r#""Autre":null"#, r#""":"""#, "", "1", "{}"] {
                is_42(joined(&[&parts[..i], &[more], &parts[i..]].concat()));
                is_42(joined(&[&parts[..=i], &[more], &parts[i + 1..]].concat()));
            }
            for j in i + 1..8 {
                let mut other = parts.clone();
                other.swap(i, j);
                is_42(joined(&other));
            }
            // In other letters or none, with an escape, without quotes.
            let (first, rest) = name.split_at(1);
            let escaped = format!("\\u00{:x}{rest}", first.as_bytes()[0]);
            for other in [&name.to_lowercase(), &name.to_uppercase(), rest, &format!("{name}s"), "", &escaped] {
                is_42(with(&text, &format!("\"{name}\""), &format!("\"{other}\"")));
            }
            is_42(with(&text, &format!("\"{name}\""), name));
            is_42(with(&text, &format!("\"{name}\""), &format!("'{name}'")));
        }
        // A mark that is missing, doubled or another one.
        for (at, mark) in text.match_indices(|c| "{}[]:,\"".contains(c)) {
            let changed = |new: &str| [&text[..at], new, &text[at + 1..]].concat();
            is_42(changed(""));
            is_42(changed(&mark.repeat(2)));
            "{ } [ ] : , ; ' =".split(' ').filter(|other| *other != mark).for_each(|other| is_42(changed(other)));
        }
        // No object, or something besides.
        ["", " ", "{}", "[]", "null", "{", "\"", "{\"\"}"].into_iter().for_each(is_42);
        for (before, after) in [("[", "]"), ("", "{}"), ("", ","), ("", "}"), ("\u{feff}", ""), ("", "\0"), ("", "x")] {
            is_42([before, &text, after].concat());
        }
        is_42(text.repeat(2));
    }
}

#[test]
fn codes_category_status() {
    for (_, text) in examples() {
        // Ceder, acquirer, origin.
        for (nth, code) in [(0, "17X100A100R00000"), (0, "17X100A100R00001"), (1, "17X100A100R00001")] {
            let given = |new: &str| with_nth(&text, nth, &format!("\"{code}\""), new);
            for good in "0123456789ABCDEF GHIJKLMNOPQRSTUV WXYZ------------".split(' ') {
                assert_eq!(verdict(given(&format!("\"{good}\""))), (0, 0));
            }
            for bad in
                "17X100A100R0000 17X100A100R000000 17x100A100R00000 17X100A100R0000_ 17X100A100R000\\u0030".split(' ')
            {
                is_42(given(&format!("\"{bad}\"")));
            }
            for bad in "\"\" \"17X100A100R0000é\" 17X100A100R00000 '17X100A100R00000' null 1234567890123456".split(' ')
            {
                is_42(given(bad));
            }
            for i in 0..16 {
                for other in [b' ', b',', b'/', b':', b'@', b'[', b'`', b'a', b'\\', b'"', 0, 127, 128, 255] {
                    let mut body = text.clone().into_bytes();
                    body[text.match_indices(code).nth(nth).unwrap().0 + i] = other;
                    is_42(body);
                }
            }
        }
        let category = |new: &str| with(&text, "\"09120\"", new);
        for good in ["\"13120C\"", "\"00000\"", "\"99999C\""] {
            assert_eq!(verdict(category(good)), (0, 0));
        }
        for bad in "0912 091200 09120c 09120CC C9120 0912C 0912é 09120\\u0043 09120\0 091:0 09/20".split(' ') {
            is_42(category(&format!("\"{bad}\"")));
        }
        "\"\" 09120 null \"09120 09120\" \"09120C '09120'".split(' ').for_each(|bad| is_42(category(bad)));
        for bad in "\"c\" \"\" \"CC\" \"V\" \"\\u0043\" \"Ç\" C null [\"C\"] 'C' 1 {\"C\"}".split(' ') {
            is_42(with(&text, "\"C\"", bad));
        }
    }
}

#[test]
fn dates() {
    for (date, text) in examples() {
        let delivery = format!("{date}T00:00:00Z");
        // Its time is 00:00:00.
        for time in "T00:00:01Z T00:01:00Z T01:00:00Z T22:00:00Z T23:59:59Z T24:00:00Z".split(' ') {
            is_42(with(&text, &delivery, &[date, time].concat()));
        }
        for member in [&delivery, "2020-04-25T07:00:00Z"] {
            let given = |new: &str| with(&text, &format!("\"{member}\""), new);
            // Impossible, outside the range, in another form.
            let impossible = "2021-02-29 2020-02-30 2020-04-31 2020-00-10 2020-13-01 2020-19-01 2020-01-00 2020-01-32";
            let outside = "1999-12-31 2100-01-01 0000-01-01 9999-01-01 1020-01-01 3020-01-01";
            let other = "20200101 2020-1-1 20-01-01 2020/01/01 2020-01/01 2020-0101 202001-01 ";
            for date in [impossible, outside, other].iter().flat_map(|dates| dates.split(' ')) {
                is_42(given(&format!("\"{date}T00:00:00Z\"")));
            }
            let short = "T00:00:00 t00:00:00Z T00:00:00z T00:00Z T000000Z T0:00:00Z Z ";
            let other = "T00:00:00+00:00 T00:00:00.0Z T00-00-00Z T00:00:0/Z T00:00:0:Z T00h00:00Z T00:00:00ZZ";
            for time in [short, other, "T00:00:00\\u005a"].iter().flat_map(|times| times.split(' ')) {
                is_42(given(&format!("\"2020-01-01{time}\"")));
            }
            for bad in ["\"\"", "null", "20200101", "\"2020-01-01T00:00:00Z", "2020-01-01T00:00:00Z", "{}", "[]"] {
                is_42(given(bad));
            }
            // A digit may become another, no other byte may change.
            for (i, b) in member.bytes().enumerate() {
                for other in (0..=255).filter(|other| *other != b && !(b.is_ascii_digit() && other.is_ascii_digit())) {
                    let mut body = text.clone().into_bytes();
                    body[text.find(member).unwrap() + i] = other;
                    is_42(body);
                }
            }
        }
        for time in "24:00:00 23:60:00 23:59:60 29:59:59 30:00:00 00:00:99 00:99:00".split(' ') {
            is_42(with(&text, "07:00:00", time));
        }
        for (date, day) in [("2000-01-01", 0), ("2000-02-29", 59), ("2020-04-25", 7420), ("2099-12-31", LAST_DAY)] {
            for (time, second) in
                [("00:00:00", 0), ("00:00:59", 59), ("00:59:00", 3540), ("19:08:07", 68_887), ("23:59:59", 86_399)]
            {
                let body = with(&text, "2020-04-25T07:00:00", &format!("{date}T{time}"));
                assert_eq!(read(body.as_bytes()).unwrap().moment, Moment { day, second });
            }
        }
    }
    for date in ["2000-01-01", "2099-12-31"] {
        assert_eq!(read(guide(date).as_bytes()), said(date));
    }
    // The count of steps is that of the day.
    for (i, j) in [(0, 1), (0, 2), (1, 0), (1, 2), (2, 0), (2, 1)] {
        assert_eq!(verdict(with(&guide(DATES[i]), DATES[i], DATES[j])), (5, 0));
    }
}

/// An object's text in parts: what stands before the steps, each from after its `[` or `,` to its `}`, and its labels in
/// quotes.
struct Parts {
    head: String,
    steps: Vec<String>,
    labels: Vec<String>,
}

impl Parts {
    fn all() -> impl Iterator<Item = Parts> {
        examples().map(|(date, text)| {
            let (head, series) = text.split_at(text.find('[').unwrap() + 1);
            let count = steps(day(date));
            let steps =
                series.split_inclusive('}').take(count).map(|step| step.trim_start_matches(',').into()).collect();
            let labels = labels(count).iter().map(|label| format!("\"{label}\"")).collect();
            Parts { head: head.into(), steps, labels }
        })
    }

    fn of(&self, steps: &[String]) -> String {
        [&self.head, &steps.join(","), "]}"].concat()
    }

    /// With another k-th step.
    fn with(&self, k: usize, step: &str) -> String {
        self.of(&[&self.steps[..k], &[step.into()], &self.steps[k + 1..]].concat())
    }

    /// The k-th step with another power.
    fn powered(&self, k: usize, new: &str) -> String {
        let (before, _) = self.steps[k].rsplit_once(':').unwrap();
        format!("{before}: {new}}}")
    }
}

#[test]
fn counts() {
    for parts in Parts::all() {
        let count = parts.steps.len();
        assert_eq!(verdict(parts.of(&parts.steps)), (0, 0));
        for n in (0..60).filter(|n| *n != count) {
            let mut steps: Vec<String> = (0..n).map(|k| parts.steps[k % count].clone()).collect();
            assert_eq!(verdict(parts.of(&steps)), (5, 0));
            // Before 6, 7 and 8, wherever they are; after 42.
            for k in 0..n {
                for (step, number) in [
                    (with(&parts.steps[k % count], "h", "H"), 5),
                    (parts.powered(k % count, "007"), 5),
                    (parts.powered(k % count, "-7"), 42),
                    (with(&parts.steps[k % count], "Fin", "fin"), 42),
                ] {
                    let right = std::mem::replace(&mut steps[k], step);
                    assert_eq!(verdict(parts.of(&steps)), (number, 0));
                    steps[k] = right;
                }
            }
            let zeros: Vec<String> = (0..n).map(|k| parts.powered(k % count, "0")).collect();
            assert_eq!(verdict(parts.of(&zeros)), (5, 0));
        }
        // As many as there is room for.
        let many = vec![r#"{"Debut":"","Fin":"","Puissance":0}"#.to_string(); 217];
        let body = parts.of(&many);
        assert_eq!((body.len() <= 8192, verdict(&body)), (true, (5, 0)));
    }
}

#[test]
fn labels_of_steps() {
    for parts in Parts::all() {
        for (k, step) in parts.steps.iter().enumerate() {
            let place = k as u8 + 1;
            let (first, second) = step.split_at(step.find("\"Fin\"").unwrap());
            let (debut, fin) = (&parts.labels[k], &parts.labels[k + 1]);
            let given =
                |new: &str| [[&with(first, debut, new), second].concat(), [first, &with(second, fin, new)].concat()];
            // Any quoted text is a label.
            let others =
                "| |24h00|00:00|0h00|00h000|00H00|00h15|00h00 |00h00_BIS|02h30_bis|02h30_BI|02h30_BISS|é|\u{7f}";
            let others = [others, "{}[]:,", "'", "//"].join("|");
            let others = others.split('|').map(|text| format!("\"{text}\"")).chain(parts.labels.iter().cloned());
            for other in others {
                for (step, right) in given(&other).iter().zip([debut, fin]) {
                    let expected = if other == *right { (0, 0) } else { (6, place) };
                    assert_eq!(verdict(parts.with(k, step)), expected, "{step}");
                }
            }
            for (byte, number) in
                (0..=255).map(|b| (b, if b < 32 || b == b'"' || b == b'\\' { (42, 0) } else { (6, place) }))
            {
                for (i, step) in given("\"00h0~\"").iter().enumerate() {
                    let mut body = parts.with(k, step).into_bytes();
                    let at = body.iter().position(|b| *b == b'~').unwrap();
                    body[at] = byte;
                    let right = *[debut, fin][i] == format!("\"00h0{}\"", byte as char);
                    assert_eq!(verdict(body), if right { (0, 0) } else { number }, "{byte}");
                }
            }
            for bad in
                "\"00h\\u0030\"|\"\\\"\"|\"00h00\n\"|\"\t\"|null|0|00h00|\"00h00|00h00\"|'00h00'|[\"00h00\"]".split('|')
            {
                given(bad).iter().for_each(|step| is_42(parts.with(k, step)));
            }
        }
    }
}

#[test]
fn powers() {
    for parts in Parts::all() {
        let count = parts.steps.len();
        for k in 0..count {
            let given = |new: &str| parts.with(k, &parts.powered(k, new));
            for good in "0 1 9 10 19 99 100 109 999 1000 1009 9999".split(' ') {
                for after in ["", " ", "\n", "\t  "] {
                    let object = read(given(&[good, after].concat()).as_bytes()).unwrap();
                    assert_eq!(object.notification.powers[k].to_string(), good);
                }
            }
            // Any run of digits is a power.
            for bad in
                "00 01 02 09 000 001 010 0000 0123 00000 01234 10000 12345 99999 100000 12345678901234567890".split(' ')
            {
                assert_eq!(verdict(given(bad)), (7, k as u8 + 1), "{bad}");
            }
            for bad in
                "|-2|+2|-0|1.5|1.|.5|1e3|2E1|0x1|\"2\"|null|[2]|1 2|2,|é|true|12345x|1_0|\u{b2}|\u{ff11}|:|/".split('|')
            {
                is_42(given(bad));
            }
        }
        let zeros: Vec<String> = (0..count).map(|k| parts.powered(k, "0")).collect();
        assert_eq!(verdict(parts.of(&zeros)), (8, 0));
        is_42(with(&parts.of(&zeros), "\"C\"", "\"V\""));
        for k in 0..count {
            let one = [&zeros[..k], &[parts.powered(k, "1")], &zeros[k + 1..]].concat();
            assert_eq!(verdict(parts.of(&one)), (0, 0));
            let wrong = [&zeros[..k], &[with(&zeros[k], &parts.labels[k], "\"\"")], &zeros[k + 1..]].concat();
            assert_eq!(verdict(parts.of(&wrong)), (6, k as u8 + 1));
        }
    }
}

#[test]
fn members_of_steps() {
    for parts in Parts::all() {
        for k in 0..parts.steps.len() {
            let given = |step: &str| parts.with(k, step);
            let (d, f) = (format!("\"Debut\":{}", parts.labels[k]), format!("\"Fin\":{}", parts.labels[k + 1]));
            let p = "\"Puissance\":7";
            assert_eq!(verdict(given(&format!("{{{d},{f},{p}}}"))), (0, 0));
            // Another order, missing, doubled, more.
            for members in "dpf fdp fpd pdf pfd df dp fp d f p ddfp dffp dfpp dfpx xdfp dfxp dxfp dfp, ,dfp".split(' ')
            {
                let member = |c| match c {
                    'd' => &d,
                    'f' => &f,
                    'p' => p,
                    'x' => "\"x\":1",
                    _ => "",
                };
                is_42(given(&format!("{{{}}}", members.chars().map(member).collect::<Vec<_>>().join(","))));
            }
            // In other letters, with an escape, without quotes.
            for (name, others) in [
                ("\"Debut\"", "\"debut\" \"DEBUT\" \"Fin\" \"D\\u0065but\" Debut \"\" 'Debut' \"Debu\" \"Debuts\""),
                ("\"Fin\"", "\"fin\" \"FIN\" \"Debut\" \"F\\u0069n\" Fin \"\" 'Fin' \"Fi\" \"Fins\""),
                (
                    "\"Puissance\"",
                    "\"puissance\" \"PUISSANCE\" \"Fin\" \"\\u0050uissance\" Puissance \"\" \"Puissances\"",
                ),
            ] {
                others.split(' ').for_each(|other| is_42(given(&with(&parts.steps[k], name, other))));
            }
            // Another thing than a step.
            "|{}|[]|null|1|\"\"|{{}}|[{}]|,".split('|').for_each(|bad| is_42(given(bad)));
        }
    }
}

#[test]
fn order_of_refusals() {
    for parts in Parts::all() {
        let count = parts.steps.len();
        let wrong = |k: usize, number: u8| match number {
            6 => with(&parts.steps[k], &parts.labels[k + 1], "\"x\""),
            7 => parts.powered(k, "00"),
            67 => with(&parts.powered(k, "00"), &parts.labels[k + 1], "\"x\""),
            _ => with(&parts.steps[k], "Puissance", "puissance"),
        };
        // Step by step, 6 first, whatever comes later.
        for (i, j) in (0..count).flat_map(|i| (i + 1..count).map(move |j| (i, j))) {
            for (earlier, later, number) in [(6, 7, 6), (7, 6, 7), (67, 6, 6), (7, 67, 7), (6, 6, 6), (7, 7, 7)] {
                let mut steps = parts.steps.clone();
                (steps[i], steps[j]) = (wrong(i, earlier), wrong(j, later));
                assert_eq!(verdict(parts.of(&steps)), (number, i as u8 + 1));
                // The form comes before, later in the text too.
                steps[j] = wrong(j, 42);
                is_42(parts.of(&steps));
            }
        }
        for k in 0..count {
            for number in [6, 7, 67] {
                let body = parts.with(k, &wrong(k, number));
                assert_eq!(verdict(&body), (number.min(7) - (number == 67) as u8, k as u8 + 1));
                is_42(body.clone() + ",");
                is_42(&body[..body.len() - 1]);
                is_42(with(&body, "]}", "]]}"));
            }
        }
    }
}

#[test]
fn lengths() {
    for (date, text) in examples() {
        let room = 8192 - text.len();
        for (blank, n) in ["\n", " ", "\t", "\r"].iter().flat_map(|blank| [(blank, room), (blank, room + 1)]) {
            let blanks = blank.repeat(n);
            for body in [[&blanks, &*text], [&*text, &blanks]].map(|body| body.concat()) {
                assert_eq!(read(body.as_bytes()), if n == room { said(date) } else { read(b"") });
            }
            let inside = with_nth(&text, 20, "\"Fin\"", &["\"Fin\"", &blanks].concat());
            assert_eq!(verdict(inside), if n == room { (0, 0) } else { (42, 0) });
        }
        // A label or a power as long as there is room for.
        let (label, power) = (["\"00h00", &"x".repeat(room)].concat(), ["305", &"0".repeat(room)].concat());
        assert_eq!(verdict(with(&text, "\"00h00", &label)), (6, 1));
        assert_eq!(verdict(with(&text, "305", &power)), (7, 6));
        is_42(with(&text, "\"00h00", &(label + "x")));
        is_42(with(&text, "305", &(power + "0")));
        is_42([0; 8193]);
    }
}

#[test]
fn cut() {
    for (_, text) in examples() {
        for at in 0..text.len() {
            is_42(&text[..at]);
            is_42(&text[at + 1..]);
            is_42([&text[..at], "\0", &text[at + 1..]].concat());
        }
    }
}

#[test]
fn written() {
    for date in DATES {
        let mut buffer = [b'#'; 4096];
        let len = write(&notification(date), &B, MOMENT, &mut buffer).unwrap();
        assert_eq!(buffer[..len], *without_blanks(&guide(date)).as_bytes());
        assert!(buffer[len..].iter().all(|b| *b == b'#'));
        // A buffer that just suffices.
        assert_eq!(write(&notification(date), &B, MOMENT, &mut vec![0; len]), Ok(len));
    }
    // Every day and an origin that is no party.
    let (ceder, acquirer, origin) = (*b"-ABCDEFGHIJKLMNO", *b"PQRSTUVWXYZ01234", *b"56789-0000000000");
    for day in 0..=LAST_DAY as u16 {
        let (count, mut powers, mut buffer) = (steps(day), [0; 50], [0; 2737]);
        (0..count).for_each(|k| powers[k] = [0, 7, 42, 305, 9999][(day as usize + k * k) % 5]);
        let category = if day % 2 == 0 { *b"13120C" } else { *b"30090\0" };
        let notification = Notification { ceder, acquirer, category, day, steps: count as u8, powers };
        let moment = Moment { day: LAST_DAY - day as u32, second: day as u32 * 7919 % 86_400 };
        let len = write(&notification, &origin, moment, &mut buffer).unwrap();
        assert_eq!(read(&buffer[..len]), Ok(Object { notification, origin, moment }));
    }
    // Every second of the day.
    for second in 0..86_400 {
        let (moment, mut buffer) = (Moment { day: 0, second }, [0; 2737]);
        let len = write(&notification(DATES[0]), &A, moment, &mut buffer).unwrap();
        assert_eq!(read(&buffer[..len]).unwrap().moment, moment);
    }
    // The longest there is.
    let n = Notification { category: *b"13120C", powers: [9999; 50], ..notification(DATES[2]) };
    assert_eq!(write(&n, &A, MOMENT, &mut [0; 2737]), Ok(2737));
}

#[test]
fn writers_refusals() {
    for date in DATES {
        let n = notification(date);
        let refused = |n: &Notification, origin: &[u8], moment: Moment, len: usize| {
            let mut buffer = [b'#'; 4096];
            let Err(Refusal { number, place: 0 }) = write(n, origin, moment, &mut buffer[..len]) else {
                panic!("written")
            };
            assert!(buffer.iter().all(|b| *b == b'#'));
            number
        };
        // Each with room enough, and in the company of those after it.
        let (fits, zeros) =
            (write(&n, &A, MOMENT, &mut [0; 4096]).unwrap(), Notification { powers: [0; 50], ..n.clone() });
        [0, 1, fits - 1].into_iter().for_each(|len| assert_eq!(refused(&n, &A, MOMENT, len), 36));
        [0, 4096].into_iter().for_each(|len| assert_eq!(refused(&zeros, &A, MOMENT, len), 8));
        for (day, second) in
            [(LAST_DAY + 1, 0), (65_536, 0), (u32::MAX, 0), (0, 86_400), (0, u32::MAX), (LAST_DAY, 86_400)]
        {
            assert_eq!(refused(&n, &A, Moment { day, second }, 4096), 10);
            assert_eq!(refused(&zeros, &A, Moment { day, second }, 0), 10);
        }
        let faulty = |f: &dyn Fn(&mut Notification)| {
            [&n, &zeros].map(|n| {
                let mut n = n.clone();
                f(&mut n);
                n
            })
        };
        for count in [0, 45, 46, 47, 48, 49, 50, 51, 255].into_iter().filter(|count| *count != n.steps) {
            faulty(&|n| n.steps = count).iter().for_each(|n| assert_eq!(refused(n, &A, MOMENT, 0), 10));
        }
        for day in [LAST_DAY as u16 + 1, u16::MAX] {
            faulty(&|n| n.day = day).iter().for_each(|n| assert_eq!(refused(n, &A, MOMENT, 0), 10));
        }
        for (k, power) in (0..n.steps as usize).flat_map(|k| [-1, 10_000, i16::MIN, i16::MAX].map(|power| (k, power))) {
            faulty(&|n| n.powers[k] = power).iter().for_each(|n| assert_eq!(refused(n, &A, MOMENT, 0), 10));
        }
        let late = Moment { day: LAST_DAY + 1, second: 0 };
        for origin in
            [&b""[..], b"17X100A100R0000", b"17X100A100R000000", b"17x100A100R00000", b"17X100A100R0000\"", &[0; 16]]
        {
            assert_eq!(refused(&n, origin, MOMENT, 4096), 9);
            faulty(&|n| n.steps = 0).iter().for_each(|n| assert_eq!(refused(n, origin, late, 0), 9));
        }
        for code in [*b"17X100A100R0000 ", *b"17X100A100R0000a", [0; 16], [255; 16]] {
            faulty(&|n| n.ceder = code).iter().for_each(|n| assert_eq!(refused(n, &A, late, 0), 9));
            faulty(&|n| n.acquirer = code).iter().for_each(|n| assert_eq!(refused(n, &A, late, 0), 9));
        }
        for category in [*b"13120D", *b"1312\0\0", *b"C13120", [0; 6], *b"13120c"] {
            faulty(&|n| n.category = category).iter().for_each(|n| assert_eq!(refused(n, &A, late, 0), 9));
        }
    }
}

/// A with 50 of 100, B and D with 0 of 100 on the day; the clock is on its eve.
fn loaded(date: &str) -> Register {
    let (mut r, day) = (Register::default(), day(date) as u32);
    [A, B, D].iter().for_each(|code| assert!(r.enrol_actor(code, 0, LAST_DAY).is_ok()));
    r.enrol_category(b"09120").unwrap();
    for (actor, power) in [(A, 50), (B, 0), (D, 0)] {
        r.load(&actor, b"09120", day, 100, &[power; 50][..steps(day as u16)]).unwrap();
    }
    r.advance(day - 1, 600).unwrap();
    r
}

/// From A to B, the same power at every step.
fn exchange(date: &str, power: i16) -> Notification {
    let mut n = notification(date);
    n.powers[..n.steps as usize].fill(power);
    n
}

fn object(n: &Notification, origin: &Code) -> String {
    let mut buffer = [0; 2737];
    let len = write(n, origin, MOMENT, &mut buffer).unwrap();
    String::from_utf8(buffer[..len].into()).unwrap()
}

fn file(r: &mut Register, n: &Notification, by: &Code, as_object: bool) -> Result<Filed, Refusal> {
    if as_object {
        return r.file_object(by, object(n, by).as_bytes());
    }
    let (mut name, mut body) = ([0; 64], [0; 1024]);
    let (a, b) = notification::write(n, &mut name, &mut body).unwrap();
    r.file(by, &name[..a], &body[..b])
}

/// Status, from and until of each record, the first id first.
fn records(r: &Register) -> Vec<(char, u8, u8)> {
    (1..).map_while(|id| r.record(&A, id).ok()).map(|r| (r.status as u8 as char, r.from, r.until)).collect()
}

#[test]
fn either_form() {
    for date in DATES {
        let (day, count) = (day(date) as u32, steps(day(date)) as u8);
        // Which party's filings are objects.
        for (a, b) in [(false, false), (true, true), (false, true), (true, false)] {
            let mut r = loaded(date);
            let pair = |r: &mut Register, power| {
                let [created, valid] =
                    [(A, a), (B, b)].map(|(by, form)| file(r, &exchange(date, power), &by, form).unwrap());
                assert_eq!((created.status, valid.status, created.from), (Status::Created, Status::Valid, valid.from));
                (created.id, valid.id, valid.from)
            };
            // Paired and replaced on the eve, replaced at noon.
            assert_eq!((pair(&mut r, 10), pair(&mut r, 20)), ((1, 2, 0), (3, 4, 0)));
            r.advance(day, 720).unwrap();
            assert_eq!(pair(&mut r, 30), (5, 6, 26));
            let expected =
                [('A', 0, count), ('O', 0, count), ('A', 0, count), ('P', 0, 26), ('A', 26, count), ('V', 26, count)];
            assert_eq!(records(&r), expected);
            for k in 0..count as u32 {
                let power = if k < 26 { 20 } else { 30 };
                let engaged = |actor| r.engagement(actor, b"09120", day, k);
                assert_eq!((engaged(&A), engaged(&B)), (Ok(50 - power), Ok(power)));
            }
            // Another power pairs with nothing; one's own created record is deleted, whatever its form.
            for (a, b) in [(a, b), (!a, !b)] {
                assert_eq!(file(&mut r, &exchange(date, 40), &A, a).unwrap().status, Status::Created);
                assert_eq!(file(&mut r, &exchange(date, 41), &B, b).unwrap().status, Status::Created);
            }
            assert_eq!(records(&r)[6..], ['S', 'S', 'C', 'C'].map(|status| (status, 26, count)));
        }
    }
}

#[test]
fn laid_out_filing() {
    let mut r = loaded(DATES[1]);
    let body = guide(DATES[1]).replace("305", "30").replace("9999", "50");
    assert_eq!(r.file_object(&B, body.as_bytes()), Ok(Filed { id: 1, status: Status::Created, from: 0 }));
    let mut n = notification(DATES[1]);
    n.powers = n.powers.map(|p| if p == 305 { 30 } else { p.min(50) });
    assert_eq!(file(&mut r, &n, &A, false), Ok(Filed { id: 2, status: Status::Valid, from: 0 }));
}

#[test]
fn filings_refusals() {
    let date = DATES[1];
    let mut r = loaded(date);
    let refused = |r: &mut Register, by: &[u8], body: &str| {
        let Refusal { number, place } = r.file_object(by, body.as_bytes()).unwrap_err();
        (number, place)
    };
    // 42, 5 to 8, 43, then 20: each in the company of those after it.
    let nobody = *b"17X100A100R00009";
    let faulty = object(&Notification { ceder: nobody, acquirer: nobody, ..exchange(date, 99) }, &B);
    assert_eq!(refused(&mut r, &A, &with(&faulty, "\"C\"", "\"V\"")), (42, 0));
    assert_eq!(refused(&mut r, &A, &with(&faulty, r#"{"Debut":"00h00","Fin":"00h30","Puissance":99},"#, "")), (5, 0));
    assert_eq!(refused(&mut r, &A, &with(&faulty, "23h30", "23h3O")), (6, 47));
    assert_eq!(refused(&mut r, &A, &with_nth(&faulty, 47, ":99", ":099")), (7, 48));
    assert_eq!(refused(&mut r, &A, &faulty.replace(":99}", ":0}")), (8, 0));
    assert_eq!(refused(&mut r, &A, &faulty), (43, 0));
    assert_eq!(refused(&mut r, &B, &faulty), (20, 0));
    let good = object(&exchange(date, 10), &A);
    for by in [&b""[..], &A[..15], &[&A[..], b"0"].concat(), &B, b"17x100A100R00000", &[0; 16]] {
        assert_eq!(refused(&mut r, by, &good), (43, 0));
    }
    // Those of the ledger are a file's.
    let ten = || exchange(date, 10);
    for (n, by, number) in [
        (Notification { acquirer: nobody, ..ten() }, A, 21),
        (ten(), nobody, 22),
        (Notification { category: *b"09120C", ..ten() }, A, 23),
        (ten(), D, 24),
        (Notification { acquirer: A, ..ten() }, A, 25),
        (Notification { day: day(date) - 2, ..ten() }, A, 26),
        (Notification { day: day(date) + 7, ..ten() }, A, 27),
        (Notification { day: day(date) + 6, ..ten() }, A, 31),
        (exchange(date, 51), B, 32),
        (Notification { ceder: B, acquirer: A, ..ten() }, B, 32),
    ] {
        for as_object in [false, true] {
            assert_eq!(file(&mut r, &n, &by, as_object), Err(Refusal { number, place: 0 }));
        }
    }
    assert!(records(&r).is_empty());
    // Every place is taken.
    (1..=256).for_each(|id| assert_eq!(file(&mut r, &ten(), &A, id % 2 == 0).unwrap().id, id));
    assert_eq!(refused(&mut r, &A, &good), (36, 0));
}
