//! A file whose body comes in pieces is read as the whole body is, however it is cut.

use std::io::Write;

use register::{Day, FileReader, Notification, Refusal, BODY_LENGTH, NAME_LENGTH};

/// A file of a day with the same power at every step.
fn file(day: &str, power: u16) -> (Vec<u8>, Vec<u8>) {
    let day = Day::of(day).unwrap();
    let powers = vec![power; day.steps().unwrap() as usize];
    let n = Notification::new(
        "17X100A100R0000L".parse().unwrap(),
        "17X100A100R0001J".parse().unwrap(),
        "13120C".parse().unwrap(),
        day,
        &powers,
    );
    let (mut name, mut body) = ([0; NAME_LENGTH], [0; BODY_LENGTH]);
    let (a, b) = n.write(&mut name, &mut body).unwrap();
    (name[..a].to_vec(), body[..b].to_vec())
}

fn read<'a>(name: &[u8], pieces: impl IntoIterator<Item = &'a [u8]>) -> Result<Notification, Refusal> {
    let mut reader = FileReader::begin(name);
    pieces.into_iter().for_each(|piece| reader.feed(piece));
    reader.end()
}

/// Good files of short, plain and long days, and damaged ones: each refusal, lines longer than what is held, too long a body, no last LF.
fn files() -> Vec<(Vec<u8>, Vec<u8>)> {
    let (name, body) = file("20210120", 40);
    let with = |from: usize, to: usize, text: &[u8]| {
        let mut other = body.clone();
        other.splice(from..to, text.iter().copied());
        (name.clone(), other)
    };
    let line = |text: &[u8]| body.windows(text.len()).position(|at| at == text).unwrap();
    let fifth = line(b"\n01:30;") + 1;
    let end = body.len();
    vec![
        (name.clone(), body.clone()),
        file("20210328", 7),
        file("20211031", 9999),
        (b"NER_.csv".to_vec(), body.clone()),
        with(0, end, b""),
        with(end - 1, end, b""),
        with(end, end, &[b'\n'; 4096]),
        with(0, 1, b"x"),
        with(15, 16, b"1"),
        with(50, 50, &[b';'; 60]),
        with(fifth, fifth, b"\n"),
        with(end, end, b"\n"),
        with(fifth, fifth + 5, b"01:00"),
        with(fifth + 12, fifth + 12, b"0"),
        with(fifth + 12, fifth + 12, &[b'1'; 100]),
        with(fifth + 3, fifth + 3, &[b' '; 100]),
        with(fifth + 12, fifth + 12, &[b'1'; 4096]),
        (name.clone(), String::from_utf8(body.clone()).unwrap().replace(";40;", ";0;").into_bytes()),
    ]
}

#[test]
fn cut_in_two_anywhere() {
    for (name, body) in files() {
        let whole = Notification::read(&name, &body);
        for at in 0..=body.len() {
            let (a, b) = body.split_at(at);
            assert_eq!(read(&name, [a, b]), whole, "cut at {at}");
            assert_eq!(read(&name, [a, b"", b]), whole, "cut at {at}, with an empty piece");
        }
    }
}

#[test]
fn in_pieces_of_every_length() {
    for (name, body) in files() {
        let whole = Notification::read(&name, &body);
        for length in 1..=body.len().max(1) {
            assert_eq!(read(&name, body.chunks(length)), whole, "pieces of {length}");
        }
    }
}

#[test]
fn each_refusal_is_among_them() {
    let mut numbers: Vec<u32> =
        files().iter().map(|(name, body)| Notification::read(name, body).map_or_else(|r| r.number, |_| 0)).collect();
    numbers.sort_unstable();
    numbers.dedup();
    assert_eq!(numbers, [0, 1, 2, 3, 4, 5, 6, 7, 8]);
}

#[test]
fn written_into() {
    for (name, body) in files() {
        let mut reader = FileReader::begin(&name);
        reader.write_all(&body).unwrap();
        reader.flush().unwrap();
        let whole = Notification::read(&name, &body);
        assert_eq!(reader.clone().end(), whole);
        let mut copied = FileReader::begin(&name);
        assert_eq!(std::io::copy(&mut &body[..], &mut copied).unwrap(), body.len() as u64);
        assert_eq!(copied.end(), whole);
        // A copy goes on by itself.
        reader.feed("x");
        assert_ne!(reader.end().err().map(|r| r.number), None);
    }
}
