//! The object's reader beside the peer's: objects without blanks, and laid out as the guide's example (source document 003, section 5.3).

use peer::notification::Notification;
use peer::object::{read, write, Moment, Object};
use register::ffi::{self, ObjectRead};

#[inline(never)]
pub fn proved_object(body: &[u8]) -> ObjectRead {
    ffi::read_object(body)
}

#[inline(never)]
pub fn peer_object(body: &[u8]) -> Result<Object, peer::Refusal> {
    read(body)
}

/// The object of a notification that its acquirer submits, without blanks.
pub fn without_blanks(n: &Notification) -> Vec<u8> {
    let mut buffer = [0; 4096];
    let length = write(n, &n.acquirer, Moment { day: n.day as u32 - 1, second: 25_200 }, &mut buffer).unwrap();
    buffer[..length].to_vec()
}

/// The same object laid out as the guide's example: a member a line, blanks around the first five colons of the object, and none in the
/// first step.
pub fn as_in_the_guide(n: &Notification) -> Vec<u8> {
    let text = String::from_utf8(without_blanks(n)).unwrap();
    let (members, steps) = text.split_once('[').unwrap();
    let members = members.replace("{\"", "{\n  \"").replace(",\"", ",\n  \"").replace("\":", "\" :");
    let members = members.replace(" :\"", " : \"").replace("Soumission\" :", "Soumission\":");
    let members = members.replace("Statut\" :", "Statut\":").replace("Chronique\" :", "Chronique\":");
    let steps = steps.strip_suffix("]}").unwrap().replace("},{", "\n    },\n    {").replace("{\"", "{\n      \"");
    let steps = steps.replace(",\"", ",\n      \"");
    let (first, others) = steps.split_once("},").unwrap();
    let others = others.replace("\":", "\": ");
    let others = others.strip_suffix('}').unwrap();
    format!("{members}[\n    {first}}},{others}\n    }}\n  ]\n}}").into_bytes()
}

/// Both readers say the same of an object, whole, cut at each place and with each byte changed.
pub fn compare(body: &[u8]) {
    let same = |body: &[u8]| {
        let ours = proved_object(body);
        match peer_object(body) {
            Ok(Object { notification: n, origin, moment }) => {
                assert_eq!((ours.read.number, ours.read.place, ours.read.steps), (0, 0, n.steps as u32));
                assert_eq!((ours.day, ours.second, ours.origin), (moment.day, moment.second, origin));
                let key = (ours.read.day, ours.read.ceder, ours.read.acquirer, ours.read.category);
                assert_eq!(key, (n.day as u32, n.ceder, n.acquirer, n.category));
                assert!(ours.read.powers.iter().zip(&n.powers).all(|(a, b)| *a as i16 == *b));
            }
            Err(r) => assert_eq!((ours.read.number, ours.read.place), (r.number as u32, r.place as u32)),
        }
    };
    assert_eq!(proved_object(body).read.number, 0, "{}", body.escape_ascii());
    same(body);
    for i in 0..body.len() {
        for b in *b"09,:\"{}[]C \n\\\0\xff" {
            let mut other = body.to_vec();
            other[i] = b;
            same(&other);
        }
        same(&body[..i]);
        same(&body[i..]);
    }
}
