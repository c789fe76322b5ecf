//! Late frames: lists of proposals and deliveries over the merge alone. A delivery brings a copy of a text that some
//! position held before. Both sides play the same list, each on its own texts; and on both no two packets held for one
//! term may be one Committed and one Aborted.

use crate::oracle::{merge, protocol};
use crate::packets::hexadecimal;
use crate::prng::Prng;
use ctsim::protocol::two_pc_ce::{CeTwoPcPacket, TwoPcCePhase};
use ctsim::protocol::Protocol;
use std::collections::BTreeMap;
use std::rc::Rc;

const WAS_BYTE: u8 = 0xA5;
/// Room enough for any capture packet.
const AMPLE: usize = 596;

pub struct Settings {
    n: usize,
    p: f64,
    seed: u64,
    /// the term of the empty room
    term: u64,
    /// the buffer of each position
    sizes: Vec<usize>,
}

/// Moments are counted from the empty room on, which is moment 0.
#[derive(Clone, Copy, Debug, PartialEq)]
pub enum Event {
    Propose(usize),
    Deliver { to: usize, moment: usize, from: usize },
}

/// All that a call hands back: refusal, news (of a merge), the stated length, the whole buffer.
type Handed = (u64, u64, u64, Vec<u8>);

/// The two calls of a side.
struct Calls {
    propose: fn(&Settings, u64, usize, &[u8], u64) -> Handed,
    merge: fn(&Settings, usize, &[u8], u64, &[u8]) -> Handed,
}

/// What a side holds, and all that it ever held.
struct Desk {
    term: u64,
    buffers: Vec<Vec<u8>>,
    lens: Vec<u64>,
    moments: Vec<Vec<Rc<[u8]>>>,
}

impl Desk {
    fn open(s: &Settings) -> Desk {
        Desk {
            term: s.term,
            buffers: s.sizes.iter().map(|size| vec![WAS_BYTE; *size]).collect(),
            lens: vec![0; s.n],
            moments: vec![vec![Rc::from(&[][..]); s.n]],
        }
    }

    fn text(&self, moment: usize, position: usize) -> Rc<[u8]> {
        self.moments[moment][position].clone()
    }

    fn now(&self, position: usize) -> Rc<[u8]> {
        self.text(self.moments.len() - 1, position)
    }

    /// A position that is none is lent an empty buffer.
    fn lent(&self, v: usize) -> (&[u8], u64) {
        self.buffers.get(v).map_or((&[], 0), |b| (b, self.lens[v]))
    }

    fn play(&mut self, s: &Settings, calls: &Calls, e: Event) -> Handed {
        let (v, handed) = match e {
            Event::Propose(v) => {
                let (buffer, len) = self.lent(v);
                (v, (calls.propose)(s, self.term, v, buffer, len))
            }
            Event::Deliver { to, moment, from } => {
                let (buffer, len) = self.lent(to);
                (to, (calls.merge)(s, to, buffer, len, &self.text(moment, from)))
            }
        };
        let mut texts = self.moments.last().unwrap().clone();
        if v < s.n {
            if handed.0 == 0 && matches!(e, Event::Propose(_)) {
                self.term += 1;
                self.lens.fill(0);
                texts.fill(Rc::from(&[][..]));
            }
            self.lens[v] = handed.2;
            self.buffers[v].clone_from(&handed.3);
            texts[v] = Rc::from(&self.buffers[v][..self.lens[v] as usize]);
        }
        self.moments.push(texts);
        handed
    }
}

/// A new text over what a buffer holds, if it fits.
fn put(buffer: &[u8], len: u64, news: u64, text: &[u8]) -> Handed {
    let mut after = buffer.to_vec();
    if text.len() > after.len() {
        return (10, 0, len, after);
    }
    after[..text.len()].copy_from_slice(text);
    (0, news, text.len() as u64, after)
}

fn their_propose(s: &Settings, term: u64, v: usize, buffer: &[u8], len: u64) -> Handed {
    let refusal = if v >= s.n {
        8
    } else if term == u64::MAX {
        13
    } else {
        0
    };
    if refusal != 0 {
        return (refusal, 0, len, buffer.to_vec());
    }
    put(buffer, len, 0, &protocol(s.n, term, s.p, s.seed).init_proposal(v, s.n))
}

fn merged_by(s: &Settings, v: usize, buffer: &[u8], len: u64, received: &[u8]) -> Handed {
    if v >= s.n {
        return (8, 0, len, buffer.to_vec());
    }
    match merge(s.n, s.p, s.seed, v, &buffer[..len as usize], received) {
        (false, _) => (0, 0, len, buffer.to_vec()),
        (true, text) => put(buffer, len, 1, &text),
    }
}

const THEIRS: Calls = Calls {
    propose: their_propose,
    merge: merged_by,
};

fn read(text: &[u8]) -> Option<CeTwoPcPacket> {
    serde_json::from_slice(text).ok()
}

/// For each term whether a Committed and whether an Aborted packet was held, by a reader of texts.
fn decisions(d: &Desk, reader: impl Fn(&[u8]) -> Option<(u64, u64)>) -> BTreeMap<u64, (bool, bool)> {
    let mut terms: BTreeMap<u64, (bool, bool)> = BTreeMap::new();
    let mut last: &[Rc<[u8]>] = &[];
    for texts in &d.moments {
        for (i, text) in texts.iter().enumerate() {
            if text.is_empty() || last.get(i).is_some_and(|was| Rc::ptr_eq(was, text)) {
                continue;
            }
            if let Some((term, phase)) = reader(text) {
                let held = terms.entry(term).or_default();
                held.0 |= phase == 1;
                held.1 |= phase == 2;
            }
        }
        last = texts;
    }
    terms
}

fn both(terms: &BTreeMap<u64, (bool, bool)>) -> Vec<u64> {
    terms
        .iter()
        .filter(|(_, held)| held.0 && held.1)
        .map(|(term, _)| *term)
        .collect()
}

fn their_reader(text: &[u8]) -> Option<(u64, u64)> {
    let number = |p: CeTwoPcPacket| match p.phase {
        TwoPcCePhase::Prepare => 0,
        TwoPcCePhase::Committed => 1,
        TwoPcCePhase::Aborted => 2,
    };
    read(text).map(|p| (p.term, number(p)))
}

/// What steers a list: who was told last, who comes next, and what was delivered before.
struct Course {
    every: u64,
    told: usize,
    next: usize,
    sent: Vec<Event>,
}

/// A position that held something at that moment, if one is found soon.
fn holder(r: &mut Prng, d: &Desk, moment: usize) -> usize {
    let n = d.lens.len();
    (0..4)
        .map(|_| r.index(n))
        .find(|v| !d.text(moment, *v).is_empty())
        .unwrap_or(r.index(n))
}

/// The next event, on what the desk holds and held.
fn event(r: &mut Prng, s: &Settings, d: &Desk, c: &mut Course) -> Event {
    let now = d.moments.len() - 1;
    let to = if r.chance(1, 64) {
        s.n + r.index(3)
    } else {
        r.index(s.n)
    };
    if (now == 0 && r.chance(9, 10)) || r.chance(1, c.every) {
        c.told = to.min(s.n - 1);
        return Event::Propose(to);
    }
    let old = |r: &mut Prng, most: usize| r.index(most.min(now + 1));
    match r.below(10) {
        0..=4 => {
            // from one to the next: so all votes come together
            let from = c.told;
            c.next = (c.next + 1) % s.n;
            c.told = c.next;
            Event::Deliver {
                to: c.next,
                moment: now,
                from,
            }
        }
        5 => Event::Deliver {
            to,
            moment: now,
            from: holder(r, d, now),
        },
        6 | 7 => {
            let moment = old(r, now + 1);
            Event::Deliver {
                to,
                moment,
                from: holder(r, d, moment),
            }
        }
        8 => {
            let moment = old(r, 2 + now / 10);
            Event::Deliver {
                to,
                moment,
                from: holder(r, d, moment),
            }
        }
        _ if !c.sent.is_empty() => *r.pick(&c.sent),
        _ => Event::Deliver {
            to,
            moment: now,
            from: holder(r, d, now),
        },
    }
}

fn course(r: &mut Prng) -> Course {
    Course {
        every: *r.pick(&[5, 15, 40, 100]),
        told: 0,
        next: 0,
        sent: Vec::new(),
    }
}

/// Plays an event on the Rust's side and prints it.
fn tell(list: usize, s: &Settings, d: &mut Desk, e: Event) {
    let (Event::Propose(v) | Event::Deliver { to: v, .. }) = e;
    let (before, term, k) = (d.now(v), d.term, d.moments.len());
    let handed = d.play(s, &THEIRS, e);
    let (after, n, bits, seed) = (hexadecimal(&d.now(v)), s.n, s.p.to_bits(), s.seed);
    match e {
        Event::Propose(_) => println!("{term} {n} {bits} {seed} {v} | {after} | list {list}, event {k}"),
        Event::Deliver { moment, from, .. } => {
            let (local, received) = (hexadecimal(&before), hexadecimal(&d.text(moment, from)));
            let note = format!("list {list}, event {k}: what {from} held after event {moment}");
            println!("{n} {bits} {seed} {v} | {local} | {received} | {} | {after} | {note}", handed.1);
        }
    }
}

/// Nobody holds anything yet, in buffers that every text fits.
fn ample(n: usize, p: f64, seed: u64) -> Settings {
    Settings {
        n,
        p,
        seed,
        term: 0,
        sizes: vec![AMPLE; n],
    }
}

/// The lists of RULES 11.13. Under this seed position 0 votes no in term 1, and everybody yes in term 2.
fn worked() -> [(usize, Vec<Event>); 3] {
    let hears = |to, from, moment| Event::Deliver { to, moment, from };
    let proposes = Event::Propose;
    [
        (1, vec![proposes(0), proposes(0), hears(0, 0, 1)]),
        (2, vec![proposes(1), hears(0, 1, 1), proposes(1), hears(0, 0, 2), hears(0, 1, 4)]),
        (2, vec![proposes(1), hears(0, 1, 1), hears(1, 0, 2), hears(1, 1, 1)]),
    ]
}

/// The Rust's answers on a few lists for the gate, always the same ones: no seed and no scale.
pub fn sample() {
    println!("# The Rust: {}", ctsim::SOURCE);
    println!("# Lists of proposals and deliveries, event by event. A proposal:");
    println!("#   term before, n, bits of p, seed, position | text | note");
    println!("# A delivery:");
    println!("#   n, bits of p, seed, position | local | received | 1 for NewInfo | local afterwards | note");
    println!("# Texts are in hexadecimal.");
    let mut r = Prng::of(0, "sample late");
    for (list, (n, events)) in [(1, 8), (2, 25), (3, 30), (4, 30), (6, 25)].into_iter().enumerate() {
        let s = ample(n, 0.7 / n as f64, r.next());
        let (mut d, mut c) = (Desk::open(&s), course(&mut r));
        c.every = 12;
        while d.moments.len() <= events {
            let e = event(&mut r, &s, &d, &mut c);
            let (Event::Propose(v) | Event::Deliver { to: v, .. }) = e;
            if v >= s.n {
                continue;
            }
            tell(list, &s, &mut d, e);
            if let Event::Deliver { .. } = e {
                c.sent.push(e);
            }
        }
        assert!(both(&decisions(&d, their_reader)).is_empty());
    }
    for (list, (n, events)) in worked().into_iter().enumerate() {
        let s = ample(n, 0.0005, 0x61C8_8646_80B5_83EC);
        let mut d = Desk::open(&s);
        events.into_iter().for_each(|e| tell(5 + list, &s, &mut d, e));
    }
}

#[cfg(feature = "packets")]
pub use compared::run;

#[cfg(feature = "packets")]
mod compared {
    use super::*;
    use crate::merges::c::{ce_packet_merge, ce_packet_propose};
    use crate::packets::c::ce_packet_read;
    use crate::tally::Tally;
    use crate::Options;

    fn settings(r: &mut Prng) -> Settings {
        let n = match r.below(8) {
            0 => 1 + r.index(64),
            1 => *r.pick(&[1, 63, 64]),
            2 | 3 => 1 + r.index(12),
            _ => 1 + r.index(4),
        };
        let p = match r.below(8) {
            0 => 0.0,
            1 => 1.0,
            2 => *r.pick(&[f64::NAN, -1.0, -0.0, f64::INFINITY, f64::from_bits(1), 0.0005, 0.9999]),
            3 => 0.5,
            // so that about half of the terms have no no
            _ => 0.7 / n as f64,
        };
        let seed = match r.below(8) {
            0 => *r.pick(&[0, 1, u64::MAX, 0x61C8_8646_80B5_83EC, 0x61C8_8646_80B5_83EB]),
            _ => r.next(),
        };
        let term = match r.below(8) {
            0 => r.number(),
            1 => u64::MAX - r.below(5),
            _ => 0,
        };
        let tight = r.chance(1, 8);
        let sizes = (0..n)
            .map(|_| {
                if tight && r.chance(1, 2) {
                    60 + r.index(AMPLE - 60)
                } else {
                    AMPLE
                }
            })
            .collect();
        Settings {
            n,
            p,
            seed,
            term,
            sizes,
        }
    }

    fn count(r: &mut Prng) -> usize {
        match r.below(4) {
            0 => 200,
            1 => 1 + r.index(20),
            _ => 1 + r.index(200),
        }
    }

    fn our_propose(s: &Settings, term: u64, v: usize, buffer: &[u8], len: u64) -> Handed {
        let (mut buffer, mut next) = (buffer.to_vec(), len);
        let refusal = unsafe {
            ce_packet_propose(
                term,
                s.n as u64,
                v as u64,
                s.p,
                s.seed,
                buffer.as_mut_ptr(),
                buffer.len(),
                &mut next,
            )
        };
        (refusal, 0, next, buffer)
    }

    fn our_merge(s: &Settings, v: usize, buffer: &[u8], len: u64, received: &[u8]) -> Handed {
        let (mut buffer, mut len, mut news) = (buffer.to_vec(), len, 0);
        let (given, rlen) = (received.as_ptr(), received.len());
        let refusal = unsafe {
            ce_packet_merge(
                buffer.as_mut_ptr(),
                buffer.len(),
                &mut len,
                given,
                rlen,
                rlen as u64,
                s.n as u64,
                v as u64,
                s.p,
                s.seed,
                &mut news,
            )
        };
        (refusal, news, len, buffer)
    }

    const OURS: Calls = Calls {
        propose: our_propose,
        merge: our_merge,
    };

    fn our_reader(text: &[u8]) -> Option<(u64, u64)> {
        let (mut numbers, mut data) = ([0; 5], [0; 32]);
        let refusal = unsafe {
            ce_packet_read(
                text.as_ptr(),
                text.len(),
                text.len() as u64,
                numbers.as_mut_ptr(),
                5,
                data.as_mut_ptr(),
                32,
            )
        };
        (refusal == 0).then_some((numbers[0], numbers[1]))
    }

    type Met = BTreeMap<&'static str, u64>;

    fn meet(met: &mut Met, what: &'static str) {
        *met.entry(what).or_default() += 1;
    }

    /// What a delivery met: the copy, what its receiver held before and holds now.
    fn note(met: &mut Met, d: &Desk, e: Event, before: &[u8], handed: &Handed, again: bool) {
        let Event::Deliver { to, moment, from } = e else {
            meet(
                met,
                if handed.0 == 0 {
                    "proposals"
                } else {
                    "proposals refused (8, 10, 13)"
                },
            );
            return;
        };
        meet(met, "deliveries");
        if handed.0 != 0 {
            return meet(met, "deliveries refused (8, 10)");
        }
        let Some(copy) = read(&d.text(moment, from)) else {
            return meet(met, "deliveries of nothing");
        };
        if again {
            meet(met, "copies delivered to the same position before");
        }
        // the delivery itself is the last moment
        if d.moments.len() - 2 - moment >= 100 {
            meet(met, "copies 100 events old or more");
        }
        if copy.term < d.term {
            meet(met, "copies of an earlier term than the room's");
        }
        match read(before) {
            None if copy.term < d.term => meet(met, "copies of an earlier term taken up by who held nothing"),
            None => {}
            Some(l) if copy.term < l.term => meet(met, "copies of an earlier term than the receiver's"),
            Some(l) if copy.term > l.term => {
                if l.phase != TwoPcCePhase::Prepare {
                    meet(met, "decisions left for a higher term");
                }
            }
            Some(l) if copy.phase == TwoPcCePhase::Prepare && l.phase != TwoPcCePhase::Prepare => {
                meet(met, "copies in Prepare to a decision of their term")
            }
            Some(_) => {}
        }
        if handed.1 == 1 {
            match read(&d.now(to)).unwrap().phase {
                TwoPcCePhase::Prepare => meet(met, "news: Prepare is held"),
                TwoPcCePhase::Committed => meet(met, "news: Committed is held"),
                TwoPcCePhase::Aborted => meet(met, "news: Aborted is held"),
            }
        }
    }

    fn list(t: &mut Tally, r: &mut Prng, met: &mut Met) {
        let s = settings(r);
        let (mut ours, mut theirs, mut c) = (Desk::open(&s), Desk::open(&s), course(r));
        let mut played = Vec::new();
        for _ in 0..count(r) {
            let e = event(r, &s, &theirs, &mut c);
            played.push(e);
            let (Event::Propose(v) | Event::Deliver { to: v, .. }) = e;
            let before = if v < s.n { theirs.now(v) } else { Rc::from(&[][..]) };
            let due = theirs.play(&s, &THEIRS, e);
            let answer = ours.play(&s, &OURS, e);
            note(met, &theirs, e, &before, &due, c.sent.contains(&e));
            if matches!(e, Event::Deliver { .. }) {
                c.sent.push(e);
            }
            let input = || {
                format!(
                    "n {} p {:?} seed {} term {} sizes {:?} events {played:?}",
                    s.n, s.p, s.seed, s.term, s.sizes
                )
            };
            t.same("event", played.len(), input, &answer, &due);
        }
        let input = || {
            format!(
                "n {} p {:?} seed {} term {} events {played:?}",
                s.n, s.p, s.seed, s.term
            )
        };
        t.same(
            "texts of all moments",
            played.len(),
            input,
            &ours.moments,
            &theirs.moments,
        );
        let (mine, other) = (decisions(&ours, our_reader), decisions(&theirs, their_reader));
        t.same("phases held for each term", played.len(), input, &mine, &other);
        t.same("promise, ours", played.len(), input, &both(&mine), &Vec::new());
        t.same("promise, the Rust", played.len(), input, &both(&other), &Vec::new());
        let terms = |f: fn(&(bool, bool)) -> bool| mine.values().filter(|held| f(held)).count() as u64;
        *met.entry("terms with packets held").or_default() += terms(|_| true);
        *met.entry("terms with Committed held").or_default() += terms(|held| held.0);
        *met.entry("terms with Aborted held").or_default() += terms(|held| held.1);
        if mine.len() > 1 {
            meet(met, "lists of two terms or more");
        }
        if terms(|held| held.0) > 0 && terms(|held| held.1) > 0 {
            meet(met, "lists with Committed in one term and Aborted in another");
        }
    }

    /// A copy of an earlier term counts as one of this term.
    fn outdated_counts(s: &Settings, v: usize, buffer: &[u8], len: u64, received: &[u8]) -> Handed {
        let mut copy = received.to_vec();
        if let (Some(l), Some(mut r)) = (read(&buffer[..len as usize]), read(received)) {
            r.term = r.term.max(l.term);
            copy = serde_json::to_vec(&r).unwrap();
        }
        merged_by(s, v, buffer, len, &copy)
    }

    /// An older copy in Prepare takes a decision back; the marks stay, and count as votes.
    fn copy_reopens(s: &Settings, v: usize, buffer: &[u8], len: u64, received: &[u8]) -> Handed {
        let mut local = buffer.to_vec();
        let mut held = len;
        if let (Some(mut l), Some(r)) = (read(&buffer[..len as usize]), read(received)) {
            if r.term == l.term && r.phase == TwoPcCePhase::Prepare {
                l.phase = r.phase;
                let text = serde_json::to_vec(&l).unwrap();
                held = text.len() as u64;
                local = text;
                local.resize(AMPLE, WAS_BYTE);
            }
        }
        merged_by(s, v, &local, held, received)
    }

    /// Votes are asked for under another seed than the proposals'.
    fn other_votes(s: &Settings, v: usize, buffer: &[u8], len: u64, received: &[u8]) -> Handed {
        let sizes = s.sizes.clone();
        merged_by(
            &Settings {
                seed: s.seed ^ 1,
                sizes,
                ..*s
            },
            v,
            buffer,
            len,
            received,
        )
    }

    /// That the test of the promise can fail: how many of 500 lists break it under a wrong merge, or of more where these
    /// are too few to show it.
    fn wrong(t: &mut Tally, r: &mut Prng, name: &str, merge: fn(&Settings, usize, &[u8], u64, &[u8]) -> Handed) {
        let propose = their_propose;
        let calls = Calls { propose, merge };
        let (mut broken, mut lists) = (0, 0);
        while lists < 500 || (broken == 0 && lists < 20_000) {
            let mut s = settings(r);
            s.sizes.fill(AMPLE);
            let (mut d, mut c) = (Desk::open(&s), course(r));
            for _ in 0..count(r) {
                let mut e = event(r, &s, &d, &mut c);
                let (Event::Deliver { to, .. } | Event::Propose(to)) = &mut e;
                *to %= s.n;
                d.play(&s, &calls, e);
                if matches!(e, Event::Deliver { .. }) {
                    c.sent.push(e);
                }
            }
            lists += 1;
            broken += u64::from(!both(&decisions(&d, their_reader)).is_empty());
        }
        println!("late: {name}: {broken} of {lists} lists break the promise");
        t.same(name, 1, || name.to_string(), &(broken > 0), &true);
    }

    pub fn run(o: &Options) -> Tally {
        let mut t = Tally::new("late");
        if o.times_only {
            return t;
        }
        let (mut r, mut met, lists) = (Prng::of(o.seed, "late"), Met::new(), 20_000 * o.scale);
        for _ in 0..lists {
            list(&mut t, &mut r, &mut met);
        }
        println!("late: {lists} lists");
        for (what, times) in &met {
            println!("late: {what}: {times}");
        }
        wrong(
            &mut t,
            &mut r,
            "a wrong merge, earlier terms count as this one",
            outdated_counts,
        );
        wrong(
            &mut t,
            &mut r,
            "a wrong merge, a copy in Prepare takes a decision back",
            copy_reopens,
        );
        wrong(
            &mut t,
            &mut r,
            "a wrong merge, votes under another seed than the proposals'",
            other_votes,
        );
        t
    }
}
