//! The sides that are compared: the proved register and a peer.

use register::{Day, Register};

/// A refusal: number and place.
pub type No = (u32, u32);

/// A record by its values.
#[derive(Clone, Debug, PartialEq)]
pub struct Shown {
    pub submitter: [u8; 16],
    pub ceder: [u8; 16],
    pub acquirer: [u8; 16],
    pub category: [u8; 6],
    pub day: u32,
    pub steps: u32,
    pub powers: [u16; 50],
    pub status: u8,
    pub from: u32,
    pub until: u32,
}

/// What can be asked of a register.
pub trait Side: Clone {
    fn fresh() -> Self;
    fn advance(&mut self, day: u32, minute: u32) -> Result<(), No>;
    fn enrol_actor(&mut self, code: &[u8], first: u32, last: u32) -> Result<u32, No>;
    fn enrol_category(&mut self, text: &[u8]) -> Result<u32, No>;
    fn load(&mut self, actor: &[u8], category: &[u8], day: u32, approved: u32, powers: &[u32]) -> Result<u32, No>;
    fn file(&mut self, submitter: &[u8], name: &[u8], body: &[u8]) -> Result<(u32, u8, u32), No>;
    fn file_object(&mut self, submitter: &[u8], body: &[u8]) -> Result<(u32, u8, u32), No>;
    fn engagement(&self, actor: &[u8], category: &[u8], day: u32, step: u32) -> Result<i64, No>;
    fn record(&self, asker: &[u8], id: u32) -> Result<Shown, No>;
    fn history(&self, actor: &[u8], ids: &mut [u32]) -> Result<usize, No>;
    /// Whether nothing has changed, where a side can tell.
    fn is_as(&self, _before: &Self) -> bool {
        true
    }
}

fn refused(r: register::Refusal) -> No {
    (r.number, r.place)
}

impl Side for Register {
    fn fresh() -> Self {
        Register::new()
    }
    fn advance(&mut self, day: u32, minute: u32) -> Result<(), No> {
        self.advance(Day(day), minute).map_err(refused)
    }
    fn enrol_actor(&mut self, code: &[u8], first: u32, last: u32) -> Result<u32, No> {
        self.enrol_actor(code, Day(first), Day(last)).map_err(refused)
    }
    fn enrol_category(&mut self, text: &[u8]) -> Result<u32, No> {
        self.enrol_category(text).map_err(refused)
    }
    fn load(&mut self, actor: &[u8], category: &[u8], day: u32, approved: u32, powers: &[u32]) -> Result<u32, No> {
        self.load(actor, category, Day(day), approved, powers).map_err(refused)
    }
    fn file(&mut self, submitter: &[u8], name: &[u8], body: &[u8]) -> Result<(u32, u8, u32), No> {
        self.file(submitter, name, body).map(|f| (f.id, f.status as u8, f.from)).map_err(refused)
    }
    fn file_object(&mut self, submitter: &[u8], body: &[u8]) -> Result<(u32, u8, u32), No> {
        self.file_object(submitter, body).map(|f| (f.id, f.status as u8, f.from)).map_err(refused)
    }
    fn engagement(&self, actor: &[u8], category: &[u8], day: u32, step: u32) -> Result<i64, No> {
        self.engagement(actor, category, Day(day), step).map(i64::from).map_err(refused)
    }
    fn record(&self, asker: &[u8], id: u32) -> Result<Shown, No> {
        let r = self.record(asker, id).map_err(refused)?;
        let n = r.notification;
        Ok(Shown {
            submitter: r.submitter.0,
            ceder: n.ceder.0,
            acquirer: n.acquirer.0,
            category: n.category.0,
            day: n.day.0,
            steps: n.steps,
            powers: n.powers,
            status: r.status as u8,
            from: r.from,
            until: r.until,
        })
    }
    fn history(&self, actor: &[u8], ids: &mut [u32]) -> Result<usize, No> {
        self.history(actor, ids).map_err(refused)
    }
    fn is_as(&self, before: &Self) -> bool {
        self == before
    }
}

/// A side of a peer, or of a faulty copy. The peer knows actors and categories by their place of enrolment, so the codes and texts
/// of those that it accepted stand beside it.
macro_rules! peer_side {
    ($name:ident, $peer:path) => {
        pub mod $name {
            use super::{No, Shown, Side};
            use $peer as peer;

            #[derive(Clone)]
            pub struct Peer {
                register: peer::register::Register,
                codes: Vec<[u8; 16]>,
                categories: Vec<[u8; 6]>,
            }

            fn refused(r: peer::Refusal) -> No {
                (r.number as u32, r.place as u32)
            }

            impl Side for Peer {
                fn fresh() -> Self {
                    Peer { register: Default::default(), codes: Vec::new(), categories: Vec::new() }
                }
                fn advance(&mut self, day: u32, minute: u32) -> Result<(), No> {
                    self.register.advance(day, minute).map_err(refused)
                }
                fn enrol_actor(&mut self, code: &[u8], first: u32, last: u32) -> Result<u32, No> {
                    let count = self.register.enrol_actor(code, first, last).map_err(refused)?;
                    self.codes.push(peer::notification::code_of(code).expect("an enrolled code has its form"));
                    Ok(count as u32)
                }
                fn enrol_category(&mut self, text: &[u8]) -> Result<u32, No> {
                    let count = self.register.enrol_category(text).map_err(refused)?;
                    self.categories.push(peer::notification::category_of(text).expect("and so has a category"));
                    Ok(count as u32)
                }
                fn load(
                    &mut self, actor: &[u8], category: &[u8], day: u32, approved: u32, powers: &[u32],
                ) -> Result<u32, No> {
                    let count = self.register.load(actor, category, day, approved, powers).map_err(refused)?;
                    Ok(count as u32)
                }
                fn file(&mut self, submitter: &[u8], name: &[u8], body: &[u8]) -> Result<(u32, u8, u32), No> {
                    let filed = self.register.file(submitter, name, body).map_err(refused)?;
                    Ok((filed.id as u32, filed.status as u8, filed.from as u32))
                }
                fn file_object(&mut self, submitter: &[u8], body: &[u8]) -> Result<(u32, u8, u32), No> {
                    let filed = self.register.file_object(submitter, body).map_err(refused)?;
                    Ok((filed.id as u32, filed.status as u8, filed.from as u32))
                }
                fn engagement(&self, actor: &[u8], category: &[u8], day: u32, step: u32) -> Result<i64, No> {
                    self.register.engagement(actor, category, day, step).map(i64::from).map_err(refused)
                }
                fn record(&self, asker: &[u8], id: u32) -> Result<Shown, No> {
                    let r = self.register.record(asker, id).map_err(refused)?;
                    Ok(Shown {
                        submitter: self.codes[r.submitter as usize],
                        ceder: self.codes[r.ceder as usize],
                        acquirer: self.codes[r.acquirer as usize],
                        category: self.categories[r.category as usize],
                        day: r.day as u32,
                        steps: peer::calendar::steps(r.day) as u32,
                        powers: r.powers.map(|p| p as u16),
                        status: r.status as u8,
                        from: r.from as u32,
                        until: r.until as u32,
                    })
                }
                fn history(&self, actor: &[u8], ids: &mut [u32]) -> Result<usize, No> {
                    let mut narrow: Vec<u16> = ids.iter().map(|id| *id as u16).collect();
                    let count = self.register.history(actor, &mut narrow).map_err(refused);
                    ids.iter_mut().zip(narrow).for_each(|(to, id)| *to = id as u32);
                    count
                }
            }
        }
    };
}
pub(crate) use peer_side;

peer_side!(sound, ::peer);
