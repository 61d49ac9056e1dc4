//! Notification files as the lists name them.

use peer::calendar::{date_text, day_of, labels, steps, LAST_DAY};

/// What a notification file says, well formed or not.
#[derive(Clone)]
pub struct Note {
    pub ceder: Vec<u8>,
    pub acquirer: Vec<u8>,
    pub category: Vec<u8>,
    pub date: Vec<u8>,
    pub powers: Vec<u32>,
}

impl Note {
    /// The name and the body, with as many lines as there are powers.
    pub fn file(&self) -> (Vec<u8>, Vec<u8>) {
        let parts = [&self.ceder[..], &self.acquirer, &self.date, &self.category];
        let name = [b"NER_", &parts.join(&b'_')[..], b".csv"].concat();
        let mut body = [&parts.join(&b';')[..], b";\n"].concat();
        let count = day_of(&self.date).map_or(48, steps);
        for (k, power) in self.powers.iter().enumerate() {
            body.extend_from_slice(labels(count)[k.min(count - 1)].text());
            body.extend_from_slice(format!("{power};\n").as_bytes());
        }
        (name, body)
    }
}

/// The n-th code of the lists.
pub fn code(n: usize) -> Vec<u8> {
    let mut code = *b"17X100A100R0000L";
    code[14] = b'0' + (n % 10) as u8;
    code[3] = if n > 9 { b'-' } else { b'1' };
    code.to_vec()
}

/// A date, of a day past the last too.
pub fn date(day: u32) -> Vec<u8> {
    if day <= LAST_DAY {
        date_text(day as u16).to_vec()
    } else {
        b"21000101".to_vec()
    }
}

pub fn steps_of(day: u32) -> usize {
    if day <= LAST_DAY {
        steps(day as u16)
    } else {
        48
    }
}
