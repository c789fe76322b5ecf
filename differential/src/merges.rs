//! Merges, proposals and votes: random cases that meet every rule, compared, and a fixed sample of the Rust's answers.

use crate::oracle::merge;
use crate::packets::{hexadecimal, Ce, Family};
use crate::prng::Prng;
use ctsim::protocol::two_pc_ce::{CeTwoPcPacket, TwoPcCePhase};

pub struct Case {
    pub n: usize,
    pub p: f64,
    pub seed: u64,
    pub position: usize,
    pub local: Vec<u8>,
    pub received: Vec<u8>,
}

fn bitmap(r: &mut Prng, n: usize, position: usize) -> Vec<bool> {
    let length = match r.below(8) {
        0 => r.index(n + 1),
        1 => (n + 1 + r.index(3)).min(64),
        _ => n,
    };
    let like = r.below(6);
    (0..length)
        .map(|i| match like {
            0 => true,
            1 => i != position,
            2 => i == position,
            3 => false,
            4 => i < n,
            _ => r.chance(1, 2),
        })
        .collect()
}

fn packet(r: &mut Prng, n: usize, position: usize, term: u64) -> CeTwoPcPacket {
    CeTwoPcPacket {
        term,
        phase: *r.pick(&[
            TwoPcCePhase::Prepare,
            TwoPcCePhase::Prepare,
            TwoPcCePhase::Committed,
            TwoPcCePhase::Aborted,
        ]),
        proposal_data: (0..r.index(4)).map(|_| r.next() as u8).collect(),
        flags_bitmap: bitmap(r, n, position),
    }
}

/// A text that nobody reads: what the Rust reads beyond RULES 5.3 is a listed difference and no merge case.
fn unreadable(r: &mut Prng, text: Vec<u8>) -> Vec<u8> {
    loop {
        let mut t = text.clone();
        match r.below(3) {
            0 => t.truncate(r.index(t.len())),
            1 => t.push(b'}'),
            _ => t[0] = b'x',
        }
        if !Ce::due(&t).1 {
            return t;
        }
    }
}

pub fn random_case(r: &mut Prng) -> Case {
    let n = match r.below(8) {
        0 => 1 + r.index(64),
        1 => *r.pick(&[1, 63, 64]),
        _ => 1 + r.index(5),
    };
    let position = r.index(n);
    let p = match r.below(8) {
        0..=2 => 0.0,
        3 => 1.0,
        4 => *r.pick(&[f64::NAN, -1.0, -0.0, f64::INFINITY, f64::from_bits(1), 0.0005, 0.9999]),
        _ => 0.5,
    };
    let seed = match r.below(4) {
        0 => *r.pick(&[0, 1, u64::MAX, 0x61C8864680B583EC, 0x61C8864680B583EB]),
        _ => r.next(),
    };
    let term = if r.chance(3, 4) { 1 + r.below(3) } else { r.number() };
    let other = match r.below(8) {
        0 => term.saturating_add(1),
        1 => term.saturating_sub(1),
        2 => r.number(),
        _ => term,
    };
    let mut local = Ce::text(&packet(r, n, position, term));
    let mut received = Ce::text(&packet(r, n, position, other));
    match r.below(16) {
        0 | 1 => local = Vec::new(),
        2 => local = unreadable(r, local),
        3 => received = unreadable(r, received),
        4 => received = local.clone(),
        _ => {}
    }
    Case {
        n,
        p,
        seed,
        position,
        local,
        received,
    }
}

impl Case {
    /// Whether there is new information, and what local is then.
    pub fn answer(&self) -> (bool, Vec<u8>) {
        merge(self.n, self.p, self.seed, self.position, &self.local, &self.received)
    }

    /// Which of the rules' ways this case goes.
    pub fn way(&self) -> String {
        let (new, after) = self.answer();
        let read = |t: &[u8]| serde_json::from_slice::<CeTwoPcPacket>(t).ok();
        let (local, received, after) = (read(&self.local), read(&self.received), read(&after));
        let Some(received) = received else {
            return "received unreadable".into();
        };
        let how = match (&local, self.local.is_empty()) {
            (_, true) => "local empty",
            (None, _) => "local unreadable",
            (Some(l), _) if received.term > l.term => "higher term",
            (Some(l), _) if received.term < l.term => "lower term",
            _ => "same term",
        };
        match (new, after) {
            (true, Some(a)) => {
                let from = local
                    .filter(|_| how == "same term")
                    .map_or(String::new(), |l| format!("{:?} and ", l.phase));
                format!("{how}: {from}{:?} to {:?}", received.phase, a.phase)
            }
            _ => format!("{how}: redundant"),
        }
    }
}

/// The Rust's answers for the gate, always the same ones: no seed and no scale.
pub fn sample() {
    let mut r = Prng::of(0, "sample merge");
    println!("# The Rust: {}", ctsim::SOURCE);
    println!("# n, bits of p, seed, position | local | received | 1 for NewInfo | local afterwards | the way it goes");
    println!("# texts in hexadecimal");
    let mut seen = std::collections::BTreeMap::new();
    let mut printed = 0;
    while printed < 120 {
        let c = random_case(&mut r);
        // at most five of each way, and few long ones
        let way = c.way();
        let times: &mut u32 = seen.entry(way.clone()).or_default();
        if *times >= 5 || (c.n > 8 && *times > 0) {
            continue;
        }
        *times += 1;
        printed += 1;
        let (new, after) = c.answer();
        println!(
            "{} {} {} {} | {} | {} | {} | {} | {way}",
            c.n,
            c.p.to_bits(),
            c.seed,
            c.position,
            hexadecimal(&c.local),
            hexadecimal(&c.received),
            u64::from(new),
            hexadecimal(&after)
        );
    }
}

#[cfg(feature = "packets")]
pub mod c {
    extern "C" {
        pub fn ce_packet_merge(
            local: *mut u8,
            local_count: usize,
            local_len: *mut u64,
            received: *const u8,
            received_count: usize,
            received_len: u64,
            n: u64,
            node_id: u64,
            abort_probability: f64,
            seed: u64,
            news: *mut u64,
        ) -> u64;
        pub fn ce_vote(term: u64, node_id: u64, abort_probability: f64, seed: u64) -> u64;
        pub fn ce_packet_propose(
            term: u64,
            n: u64,
            initiator: u64,
            abort_probability: f64,
            seed: u64,
            buf: *mut u8,
            buf_count: usize,
            next: *mut u64,
        ) -> u64;
    }
}

#[cfg(feature = "packets")]
pub use compared::run;

#[cfg(feature = "packets")]
mod compared {
    use super::c::*;
    use super::*;
    use crate::oracle::{protocol, votes_yes};
    use crate::tally::Tally;
    use crate::time;
    use crate::Options;
    use ctsim::protocol::Protocol;
    use std::collections::BTreeMap;

    const WAS: u64 = 0xA5A5_A5A5_A5A5_A5A5;
    const WAS_BYTE: u8 = 0xA5;

    /// All that a merge hands back: refusal, news, stated length, the whole local buffer.
    type Handed = (u64, u64, u64, Vec<u8>);

    struct Call<'a> {
        case: &'a Case,
        n: u64,
        position: u64,
        buffer: &'a [u8],
        len: u64,
        received_len: u64,
    }

    fn ours(c: &Call) -> Handed {
        let (mut buffer, mut len, mut news) = (c.buffer.to_vec(), c.len, WAS);
        let refusal = unsafe {
            ce_packet_merge(
                buffer.as_mut_ptr(),
                buffer.len(),
                &mut len,
                c.case.received.as_ptr(),
                c.case.received.len(),
                c.received_len,
                c.n,
                c.position,
                c.case.p,
                c.case.seed,
                &mut news,
            )
        };
        (refusal, news, len, buffer)
    }

    /// What RULES 6.8 makes of the Rust's answer: the new text over the local one, if it fits.
    fn due(c: &Call) -> Handed {
        let same = |refusal, news| (refusal, news, c.len, c.buffer.to_vec());
        if c.n == 0 || c.n > 64 {
            return same(2, WAS);
        }
        if c.position >= c.n {
            return same(8, WAS);
        }
        if c.len > c.buffer.len() as u64 || c.received_len > c.case.received.len() as u64 {
            return same(10, WAS);
        }
        let (new, after) = c.case.answer();
        if !new {
            return same(0, 0);
        }
        if after.len() > c.buffer.len() {
            return same(10, WAS);
        }
        let mut buffer = c.buffer.to_vec();
        buffer[..after.len()].copy_from_slice(&after);
        (0, 1, after.len() as u64, buffer)
    }

    fn compare(t: &mut Tally, kind: &str, c: &Call) {
        let input = || {
            format!(
                "n {} position {} p {:?} seed {} local {} of {} `{}` received {} of {} `{}`",
                c.n,
                c.position,
                c.case.p,
                c.case.seed,
                c.len,
                c.buffer.len(),
                String::from_utf8_lossy(&c.case.local),
                c.received_len,
                c.case.received.len(),
                String::from_utf8_lossy(&c.case.received)
            )
        };
        t.same(kind, c.case.local.len() + c.case.received.len(), input, &ours(c), &due(c));
    }

    /// The local text in a buffer with so much room behind it.
    fn buffer(local: &[u8], room: usize) -> Vec<u8> {
        let mut b = local.to_vec();
        b.resize(local.len() + room, WAS_BYTE);
        b
    }

    fn merges(t: &mut Tally, r: &mut Prng, count: u64) {
        let mut ways: BTreeMap<String, u64> = BTreeMap::new();
        for _ in 0..count {
            let case = random_case(r);
            *ways.entry(case.way()).or_default() += 1;
            let (n, position) = (case.n as u64, case.position as u64);
            let (len, received_len) = (case.local.len() as u64, case.received.len() as u64);
            let ample = buffer(&case.local, 600);
            let call = Call { case: &case, n, position, buffer: &ample, len, received_len };
            compare(t, "merge", &call);
            if r.chance(1, 4) {
                let after = case.answer().1.len();
                let room = (after + r.index(3)).saturating_sub(1).saturating_sub(case.local.len());
                compare(t, "merge, tight buffer", &Call { buffer: &buffer(&case.local, room), ..call });
            }
            if r.chance(1, 8) {
                let many = *r.pick(&[0, 65, 66, 1 << 32, u64::MAX]);
                compare(t, "merge, positions", &Call { n: many, ..call });
                let far = *r.pick(&[n, n + 1, 64, u64::MAX]);
                compare(t, "merge, position", &Call { position: far, ..call });
                let over = 1 + r.below(3);
                compare(t, "merge, stated length", &Call { len: ample.len() as u64 + over, ..call });
                compare(t, "merge, stated received length", &Call { received_len: received_len + over, ..call });
            }
        }
        for (way, times) in &ways {
            println!("merge: {way}: {times}");
        }
    }

    fn probability(r: &mut Prng, rest: u64) -> f64 {
        let near = rest as f64 / 10_000.0;
        match r.below(8) {
            0 => near,
            1 => f64::from_bits(near.to_bits() + 1),
            2 => f64::from_bits(near.to_bits().saturating_sub(1)),
            3 => *r.pick(&[0.0, -0.0, 1.0, f64::NAN, -f64::NAN, f64::INFINITY, f64::NEG_INFINITY, f64::from_bits(1), 0.9999, 0.0005]),
            4 => f64::from_bits(r.next()),
            _ => (r.next() >> 11) as f64 / (1u64 << 53) as f64,
        }
    }

    fn seed(r: &mut Prng) -> u64 {
        match r.below(4) {
            0 => *r.pick(&[0, 1, u64::MAX, 0x61C8_8646_80B5_83EC, 0x61C8_8646_80B5_83EB]),
            _ => r.next(),
        }
    }

    /// The remainder that a vote is decided by, by the paper's formula.
    fn remainder(term: u64, v: u64, seed: u64) -> u64 {
        let both = term.wrapping_mul(1_000_003).wrapping_add(v + 1);
        both.wrapping_mul(seed.wrapping_add(0x9E37_79B9_7F4A_7C15)) % 10_000
    }

    fn votes(t: &mut Tally, r: &mut Prng, count: u64) {
        for _ in 0..count {
            let (term, v, seed) = (r.number().max(1), r.below(64), seed(r));
            let p = probability(r, remainder(term, v, seed));
            let ours = unsafe { ce_vote(term, v, p, seed) };
            let theirs = u64::from(!votes_yes(term, v as usize, p, seed));
            t.same("vote", 1, || format!("term {term} position {v} p {p:?} ({:x}) seed {seed:x}", p.to_bits()), &ours, &theirs);
        }
    }

    fn proposals(t: &mut Tally, r: &mut Prng, count: u64) {
        for _ in 0..count {
            let n = if r.chance(1, 3) { *r.pick(&[1, 2, 63, 64]) } else { 1 + r.below(64) };
            let (term, v, seed) = (r.number(), r.below(n), seed(r));
            let p = probability(r, remainder(term.wrapping_add(1), v, seed));
            let (n, v, term) = match r.below(16) {
                0 => (*r.pick(&[0, 65, u64::MAX]), v, term),
                1 => (n, n + r.below(3), term),
                2 => (n, v, u64::MAX),
                _ => (n, v, term),
            };
            let refusal = if n == 0 || n > 64 {
                2
            } else if v >= n {
                8
            } else if term == u64::MAX {
                13
            } else {
                0
            };
            let text = if refusal == 0 {
                protocol(n as usize, term, p, seed).init_proposal(v as usize, n as usize)
            } else {
                Vec::new()
            };
            let was = vec![WAS_BYTE; (text.len() + r.index(3)).saturating_sub(1)];
            let (mut buf, mut next) = (was.clone(), WAS);
            let answer = unsafe { ce_packet_propose(term, n, v, p, seed, buf.as_mut_ptr(), buf.len(), &mut next) };
            let due = if refusal != 0 {
                (refusal, was, WAS)
            } else if text.len() > was.len() {
                (10, was, WAS)
            } else {
                let mut b = was;
                b[..text.len()].copy_from_slice(&text);
                (0, b, text.len() as u64)
            };
            t.same("proposal", text.len(), || format!("term {term} position {v} of {n} p {p:?} seed {seed}"), &(answer, buf, next), &due);
        }
    }

    /// Merges of texts of 64 marks, each from the same local text anew: both sides copy it into a buffer first.
    fn times() {
        let text = |phase, mark: fn(usize) -> bool| {
            serde_json::to_vec(&CeTwoPcPacket {
                term: 12345,
                phase,
                proposal_data: b"tx12345".to_vec(),
                flags_bitmap: (0..64).map(mark).collect(),
            })
            .unwrap()
        };
        let (prepare, aborted) = (TwoPcCePhase::Prepare, TwoPcCePhase::Aborted);
        let low = text(prepare, |i| i < 32);
        let cases = [
            ("news: two halves of the votes", low.clone(), text(prepare, |i| i >= 32)),
            ("news: an abort over a prepare", low.clone(), text(aborted, |i| i == 1)),
            ("news: nothing held before", Vec::new(), low.clone()),
            ("no news: the same text", low.clone(), low),
        ];
        for (what, local, received) in cases {
            let merger = protocol(64, 0, 0.0, 7);
            let (mut held, mut len, mut news) = (vec![0u8; 596], 0, 0);
            let mut kept: Vec<u8> = Vec::with_capacity(596);
            let mut ours = || {
                held[..local.len()].copy_from_slice(&local);
                len = local.len() as u64;
                let (count, given) = (received.len(), received.as_ptr());
                let refusal = unsafe {
                    ce_packet_merge(held.as_mut_ptr(), held.len(), &mut len, given, count, count as u64, 64, 5, 0.0, 7, &mut news)
                };
                assert_eq!(refusal, 0);
                std::hint::black_box(&held);
            };
            let mut theirs = || {
                kept.clear();
                kept.extend(&local);
                std::hint::black_box(merger.merge(&mut kept, std::hint::black_box(&received), 5));
            };
            let name = format!("merge of 64 marks, {what} ({} and {} bytes)", local.len(), received.len());
            time::beside(&name, &mut ours, &mut theirs);
            assert_eq!(kept, held[..len as usize]);
        }
    }

    pub fn run(o: &Options) -> Tally {
        let mut t = Tally::new("merge");
        if o.times_only {
            times();
            return t;
        }
        merges(&mut t, &mut Prng::of(o.seed, "merge"), 220_000 * o.scale);
        proposals(&mut t, &mut Prng::of(o.seed, "proposal"), 60_000 * o.scale);
        votes(&mut t, &mut Prng::of(o.seed, "vote"), 200_000 * o.scale);
        times();
        t
    }
}
