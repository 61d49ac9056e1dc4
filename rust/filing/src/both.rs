//! The proved register and the peer's, side by side: every call goes to both, and both must answer the same. The fixtures are
//! those of the peer's own benchmark.

use peer::calendar::day_of;
use peer::notification::{write, Code, Notification};
use register::Day;

pub const CATEGORIES: [&[u8; 6]; 2] = [b"13120\0", b"30090C"];

/// The same numbers in every run.
pub struct Random(pub u64);

impl Random {
    pub fn below(&mut self, n: usize) -> usize {
        self.0 = self.0.wrapping_mul(6364136223846793005).wrapping_add(1442695040888963407);
        (((self.0 >> 32) * n as u64) >> 32) as usize
    }

    /// A key of two of the eight actors on one of the four days, with powers that differ from step to step.
    pub fn notification(&mut self) -> Notification {
        let (ceder, by) = (self.below(8), 1 + self.below(7));
        let (ceder, acquirer) = (code(ceder), code((ceder + by) % 8));
        let (category, day) = (*CATEGORIES[self.below(2)], day(self.below(4)));
        let mut n = Notification { ceder, acquirer, category, day, steps: 48, powers: [0; 50] };
        self.renew(&mut n);
        n
    }

    /// Other powers, of one to three digits.
    fn renew(&mut self, n: &mut Notification) {
        let level = 2 + self.below(90);
        n.powers[..48].iter_mut().for_each(|p| *p = (level + self.below(25)) as i16);
    }
}

pub fn code(actor: usize) -> Code {
    let mut code = *b"17X100A100R0000L";
    code[14] += actor as u8;
    code
}

pub fn day(after: usize) -> u16 {
    day_of(b"20210120").unwrap() + after as u16
}

/// A category without the 0 that may end it.
fn trimmed(category: &[u8; 6]) -> &[u8] {
    category.strip_suffix(b"\0").unwrap_or(category)
}

pub fn written(n: &Notification) -> (Vec<u8>, Vec<u8>) {
    let (mut name, mut body) = ([0; 64], [0; 1024]);
    let (a, b) = write(n, &mut name, &mut body).unwrap();
    (name[..a].to_vec(), body[..b].to_vec())
}

#[derive(Clone)]
pub struct Both {
    pub proved: register::Register,
    pub peer: peer::register::Register,
}

/// Both answers say the same: the same values, or the same refusal.
pub fn same<const N: usize>(ours: Result<[u32; N], register::Refusal>, peers: Result<[u32; N], peer::Refusal>) -> bool {
    let ours = ours.map_err(|r| (r.number, r.place));
    let peers = peers.map_err(|r| (r.number as u32, r.place as u32));
    assert_eq!(ours, peers);
    ours.is_ok()
}

impl Both {
    fn fresh() -> Self {
        Both { proved: register::Register::new(), peer: Default::default() }
    }

    pub fn advance(&mut self, day: u32, minute: u32) {
        same(self.proved.advance(Day(day), minute).map(|()| []), self.peer.advance(day, minute).map(|()| []));
    }

    pub fn file(&mut self, submitter: &[u8], name: &[u8], body: &[u8]) -> bool {
        let peers = self.peer.file(submitter, name, body);
        let ours = self.proved.file(submitter, name, body).map(|f| [f.id, f.status.letter() as u32, f.from]);
        same(ours, peers.map(|f| [f.id as u32, f.status as u32, f.from as u32]))
    }

    pub fn engagement(&self, actor: &[u8], category: &[u8], day: u32, step: u32) {
        let peers = self.peer.engagement(actor, category, day, step);
        same(self.proved.engagement(actor, category, Day(day), step).map(|p| [p]), peers.map(|p| [p as u32]));
    }

    /// The engagements of all actors at all steps of the four days.
    pub fn engagements(&self) {
        for (actor, category, after, step) in (0..8 * 2 * 4 * 48).map(|i| (i % 8, i / 8 % 2, i / 16 % 4, i / 64)) {
            self.engagement(&code(actor), trimmed(CATEGORIES[category]), day(after) as u32, step as u32);
        }
    }

    /// Eight actors and two categories. So many of the actors have loads for both categories, on as many days as make 64 loads.
    fn set_up(loaded: usize) -> Self {
        let mut both = Both::fresh();
        both.advance(day(0) as u32 - 1, 600);
        let (first, last) = (day_of(b"20200101").unwrap() as u32, day_of(b"20221231").unwrap() as u32);
        for a in 0..8 {
            let peers = both.peer.enrol_actor(&code(a), first, last);
            let ours = both.proved.enrol_actor(code(a), Day(first), Day(last));
            assert!(same(ours.map(|n| [n]), peers.map(|n| [n as u32])));
        }
        for c in CATEGORIES {
            let peers = both.peer.enrol_category(trimmed(c));
            assert!(same(both.proved.enrol_category(trimmed(c)).map(|n| [n]), peers.map(|n| [n as u32])));
        }
        for i in 0..64 {
            let (actor, category) = (code(i % loaded), trimmed(CATEGORIES[i / loaded % 2]));
            let day = day(i / loaded / 2) as u32;
            let peers = both.peer.load(&actor, category, day, 9000, &[4000; 48]);
            let ours = both.proved.load(actor, category, Day(day), 9000, &[4000; 48]);
            assert!(same(ours.map(|n| [n]), peers.map(|n| [n as u32])));
        }
        both
    }

    fn filed(&mut self, n: &Notification, by: &[Code]) -> usize {
        let (name, body) = written(n);
        by.iter().filter(|by| self.file(*by, &name, &body)).count()
    }

    /// Registers of `held` records, filed on the eve and on the first day under all keys: exchanges, some of them
    /// replaced, some waiting for an answer. A filing to come, by its acquirer, is the first under its key; or it pairs
    /// with a created one and, from three records on, replaces a valid one.
    pub fn fixture(held: usize, paired: bool) -> (Both, Notification) {
        let (mut both, mut random, mut count) = (Both::set_up(8), Random(held as u64), 0);
        let (mut mine, mut seen) = (random.notification(), Vec::new());
        (mine.ceder, mine.acquirer, mine.day) = (code(2), code(5), day(1));
        if paired && held > 2 {
            count += both.filed(&mine, &[mine.ceder, mine.acquirer]);
            random.renew(&mut mine);
        }
        while count < held - paired as usize {
            let replace = !seen.is_empty() && random.below(4) == 0;
            let mut n = if replace { seen.swap_remove(random.below(seen.len())) } else { random.notification() };
            random.renew(&mut n);
            if (n.ceder, n.acquirer, n.category, n.day) != (mine.ceder, mine.acquirer, mine.category, mine.day) {
                let alone = random.below(4) == 0 || count + 1 + paired as usize == held;
                count += both.filed(&n, &[n.ceder, n.acquirer][alone as usize..]);
                seen.push(n);
            }
            if count == held / 2 || count == held / 2 + 1 {
                both.advance(day(0) as u32, 600);
            }
        }
        if paired {
            both.filed(&mine, &[mine.ceder]);
        }
        (both, mine)
    }

    /// Registers of 255 records, all with the ceder `code(2)`: its filings and their answers by three acquirers, for the clock's day
    /// and the seven after it, the n-th of them for the day that is asked for.
    pub fn listed(mut day_of: impl FnMut(usize, &mut Random) -> usize) -> Both {
        let (mut both, mut random, mut count) = (Both::set_up(4), Random(255), 0);
        both.advance(day(0) as u32, 600);
        while count < 255 {
            let mut n = random.notification();
            (n.ceder, n.acquirer) = (code(2), code([0, 1, 3][random.below(3)]));
            n.day = day(day_of(count, &mut random));
            let alone = random.below(2) == 0 || count == 254;
            let by = [n.ceder, n.acquirer];
            let filed = both.filed(&n, &by[..2 - alone as usize]);
            assert_eq!(filed, 2 - alone as usize);
            count += filed;
        }
        both
    }

    /// An actor's history, from both, into buffers of so many places; both list the same ids in the same order.
    pub fn history(&self, actor: &[u8], length: usize) -> bool {
        let (mut ids, mut peers_ids) = (vec![999; length], vec![999; length]);
        let ours = self.proved.history(actor, &mut ids).map(|n| [n as u32]);
        let answered = same(ours, self.peer.history(actor, &mut peers_ids).map(|n| [n as u32]));
        assert_eq!(ids, peers_ids.iter().map(|id| *id as u32).collect::<Vec<u32>>());
        answered
    }
}
