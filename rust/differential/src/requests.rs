//! Objects of requests as the lists name them (document 02, K3).

use peer::calendar::{day_of, labels, steps};
use peer::notification::{category_of, code_of, Notification};
use peer::object::Moment;
use register::{Category, Code, Day, Object, OBJECT_LENGTH};

use crate::notes::{date, Note};
use crate::random::Random;

/// What an object says, well formed or not.
#[derive(Clone)]
pub struct Request {
    pub note: Note,
    pub origin: Vec<u8>,
    pub moment: Moment,
}

/// A member of the object or of a step.
#[derive(Clone)]
pub struct Member {
    pub name: Vec<u8>,
    pub value: Value,
}

#[derive(Clone)]
pub enum Value {
    Token(Vec<u8>),
    Series(Vec<Vec<Member>>),
}

fn quoted(text: &[u8]) -> Vec<u8> {
    [b"\"", text, b"\""].concat()
}

fn member(name: &str, text: &[u8]) -> Member {
    Member { name: quoted(name.as_bytes()), value: Value::Token(quoted(text)) }
}

/// A date and a time of day, as a date member has them.
fn moment_text(date: &[u8], second: u32) -> Vec<u8> {
    let (hour, minute, second) = (second / 3600, second / 60 % 60, second % 60);
    let date = [&date[..4], &date[4..6], &date[6..8]].join(&b'-');
    [&date[..], format!("T{hour:02}:{minute:02}:{second:02}Z").as_bytes()].concat()
}

/// The two labels of a step of a day with so many steps.
pub fn step_labels(count: usize, step: usize) -> [Vec<u8>; 2] {
    let line = labels(count)[step].text();
    let mut both = line.split(|b| *b == b';').map(|label| {
        let label: Vec<u8> = label.iter().map(|b| if *b == b':' { b'h' } else { *b }).collect();
        if label == b"24h00" {
            b"00h00".to_vec()
        } else {
            label
        }
    });
    [both.next().expect("a start"), both.next().expect("an end")]
}

impl Request {
    /// The eight members in their order, with as many steps as there are powers.
    pub fn members(&self) -> Vec<Member> {
        let Request { note, origin, moment } = self;
        let count = day_of(&note.date).map_or(48, steps);
        let step = |(k, power): (usize, &u32)| {
            let [start, end] = step_labels(count, k.min(count - 1));
            let power = Value::Token(power.to_string().into_bytes());
            vec![member("Debut", &start), member("Fin", &end), Member { name: quoted(b"Puissance"), value: power }]
        };
        let series = Value::Series(note.powers.iter().enumerate().map(step).collect());
        vec![
            member("CodeEicActeurCedant", &note.ceder),
            member("CodeEicActeurAcquereur", &note.acquirer),
            member("CodeEicActeurOrigine", origin),
            member("NomCategorieEngagement", &note.category),
            member("DateExploitation", &moment_text(&note.date, 0)),
            member("DateSoumission", &moment_text(&date(moment.day), moment.second)),
            member("Statut", b"C"),
            Member { name: quoted(b"Chronique"), value: series },
        ]
    }

    /// The object without blanks: by one of the two writers where it is well formed, else put together here.
    pub fn text(&self, random: &mut Random) -> Vec<u8> {
        let written = match random.below(3) {
            0 => None,
            1 => self.written_by_peer(),
            _ => self.written_by_register(),
        };
        written.unwrap_or_else(|| tokens_of(&self.members()).concat())
    }

    fn notification(&self) -> Option<Notification> {
        let Note { ceder, acquirer, category, date, powers } = &self.note;
        let (mut n, day) = ([0; 50], day_of(date)?);
        n.get_mut(..powers.len())?.iter_mut().zip(powers).for_each(|(to, power)| *to = *power as i16);
        let [ceder, acquirer] = [code_of(ceder)?, code_of(acquirer)?];
        let category = category_of(category)?;
        Some(Notification { ceder, acquirer, category, day, steps: powers.len() as u8, powers: n })
    }

    fn written_by_peer(&self) -> Option<Vec<u8>> {
        let mut buffer = [0; OBJECT_LENGTH];
        let length = peer::object::write(&self.notification()?, &self.origin, self.moment, &mut buffer).ok()?;
        Some(buffer[..length].to_vec())
    }

    fn written_by_register(&self) -> Option<Vec<u8>> {
        let mut buffer = [0; OBJECT_LENGTH];
        let object = object(&self.notification()?, code_of(&self.origin)?, self.moment);
        let length = object.write(&mut buffer).ok()?;
        Some(buffer[..length].to_vec())
    }
}

/// The register's object of the peer's parts.
pub fn object(n: &Notification, origin: [u8; 16], moment: Moment) -> Object {
    let notification = register::Notification {
        ceder: Code(n.ceder),
        acquirer: Code(n.acquirer),
        category: Category(n.category),
        day: Day(n.day as u32),
        steps: n.steps as u32,
        powers: n.powers.map(|power| power as u16),
    };
    let moment = register::Moment { day: Day(moment.day), second: moment.second };
    Object { notification, origin: Code(origin), moment }
}

/// The tokens of an object with these members.
pub fn tokens_of(members: &[Member]) -> Vec<Vec<u8>> {
    let mut tokens = vec![b"{".to_vec()];
    for (i, Member { name, value }) in members.iter().enumerate() {
        if i > 0 {
            tokens.push(b",".to_vec());
        }
        tokens.extend([name.clone(), b":".to_vec()]);
        match value {
            Value::Token(token) => tokens.push(token.clone()),
            Value::Series(steps) => {
                tokens.push(b"[".to_vec());
                for (k, step) in steps.iter().enumerate() {
                    if k > 0 {
                        tokens.push(b",".to_vec());
                    }
                    tokens.extend(tokens_of(step));
                }
                tokens.push(b"]".to_vec());
            }
        }
    }
    tokens.push(b"}".to_vec());
    tokens
}
