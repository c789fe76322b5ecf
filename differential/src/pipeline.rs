//! Part `pipeline`: pipeline rooms round by round, against the Rust's rounds driven one by one and against its own `run`.
#![cfg_attr(not(feature = "pipeline"), allow(dead_code))]

use crate::oracle::{config, counts, graph_of_rows, records, rows_of_graph, rows_since, PipelineRoom};
use crate::prng::Prng;
use ctsim::network::NetworkGraph;
use ctsim::node::NodeState;
use ctsim::protocol::two_pc_pipeline::TwoPcState;

const FOREVER: u64 = u32::MAX as u64;

/// What is fixed when a room is opened, and what its rounds are given.
#[derive(Clone)]
pub struct Case {
    pub links: Vec<u64>,
    pub t: usize,
    pub p: f64,
    pub loss: f64,
    pub repeats: u32,
    pub slots: Option<u64>,
    pub interval: u64,
    pub bound: u64,
    pub words: Vec<u64>,
    pub cursor: u64,
}

impl Case {
    pub fn n(&self) -> usize {
        self.links.len()
    }

    pub fn graph(&self) -> NetworkGraph {
        graph_of_rows(&self.links)
    }

    /// The full length of a flood (RULES 9.1), from the Rust's diameter.
    pub fn length(&self) -> u64 {
        let reckoned = (self.graph().diameter() as u64 + 2) * self.repeats as u64;
        self.slots.unwrap_or(reckoned.max(3))
    }

    pub fn settings(&self) -> ctsim::config::SimConfig {
        config(
            self.n(),
            self.t,
            self.p,
            self.loss,
            self.repeats,
            self.slots,
            self.interval,
            self.bound,
        )
    }

    pub fn open(&self) -> PipelineRoom {
        PipelineRoom::open(self.settings(), self.graph(), &self.words, self.cursor)
    }

    fn told(&self) -> String {
        format!(
            "n {} links {:x?} T {} p {:?} loss {:?} repeats {} slots {:?} interval {} bound {} words {} cursor {}",
            self.n(),
            self.links,
            self.t,
            self.p,
            self.loss,
            self.repeats,
            self.slots,
            self.interval,
            self.bound,
            self.words.len(),
            self.cursor
        )
    }
}

/// A transaction that is pending: its number, yes votes, abort, start round.
type Pending = (u64, u64, bool, u64);

/// All that a room shows between two rounds.
#[derive(Debug, Clone, PartialEq)]
pub struct View {
    /// slot, next row slot, round, bytes sent, stopped, cursor
    pub clock: (u64, u64, u64, u64, bool, u64),
    /// state, flood_remaining, last_progress_slot, goal_reached, progress_count
    pub states: Vec<(u64, u64, u64, bool, u64)>,
    pub counts: Vec<(u64, u64, u64)>,
    pub payloads: Vec<Vec<u8>>,
    pub logs: Vec<Vec<(u64, bool)>>,
    pub pending: Vec<Vec<Pending>>,
    pub piggyback: Option<(u64, bool)>,
    pub generated: u64,
    /// transaction, start, end, committed
    pub records: Vec<(u64, u64, u64, bool)>,
    pub metrics: [u64; 8],
    pub rows: Vec<u64>,
}

fn marks_of(bits: &[bool]) -> u64 {
    bits.iter().enumerate().fold(0, |m, (i, b)| m | u64::from(*b) << i)
}

fn committed(s: TwoPcState) -> bool {
    assert!(s != TwoPcState::Prepare);
    s == TwoPcState::Committed
}

impl View {
    /// What the Rust's room shows.
    pub fn of(r: &PipelineRoom) -> View {
        let (core, m) = (&r.core, &r.core.metrics);
        let states = r.door.states();
        let pending = |s: &ctsim::protocol::two_pc_pipeline::NodeTwoPcState| {
            s.pending
                .iter()
                .map(|p| {
                    assert!(p.data == format!("tx{}", p.tx_id).into_bytes() && p.bitmap.len() == states.len());
                    (p.tx_id, marks_of(&p.bitmap), p.abort_flag, p.start_round)
                })
                .collect()
        };
        View {
            clock: (
                core.current_slot,
                core.next_snapshot,
                core.round_num,
                r.bytes,
                r.stopped,
                core.rng.cursor(),
            ),
            states: core
                .nodes
                .iter()
                .map(|n| {
                    let s = match n.state {
                        NodeState::Listen => 0,
                        NodeState::Flood => 1,
                        NodeState::Sleep => 2,
                    };
                    let remaining = n.flood_remaining as u64;
                    (s, remaining, n.last_progress_slot, n.goal_reached, n.progress_count as u64)
                })
                .collect(),
            counts: core
                .nodes
                .iter()
                .map(|n| (n.slots_listen, n.slots_flood, n.slots_sleep))
                .collect(),
            payloads: core.nodes.iter().map(|n| n.payload.clone()).collect(),
            logs: states
                .iter()
                .map(|s| s.log.iter().map(|(t, o)| (*t, committed(*o))).collect())
                .collect(),
            pending: states.iter().map(pending).collect(),
            piggyback: match r.door.piggyback() {
                (Some(t), Some(o)) => Some((t, committed(o))),
                (None, None) => None,
                half => panic!("half a piggyback: {half:?}"),
            },
            generated: r.door.tx_counter(),
            records: records(m),
            metrics: counts(m),
            rows: rows_since(m, 0),
        }
    }
}

fn topology(r: &mut Prng, n: usize) -> NetworkGraph {
    match r.below(5) {
        0 => NetworkGraph::full_mesh(n),
        1 => NetworkGraph::line(n),
        2 => NetworkGraph::ring(n),
        3 => {
            let divisors: Vec<usize> = (1..=n).filter(|d| n % d == 0).collect();
            let rows = *r.pick(&divisors);
            NetworkGraph::grid(rows, n / rows)
        }
        _ => NetworkGraph::tree(n, r.index(4)),
    }
}

fn loss(r: &mut Prng) -> f64 {
    match r.below(10) {
        0 => 0.0,
        1 => -0.0,
        2 | 3 => 0.3,
        4 => f64::from_bits(0x3FEF_FFFF_FFFF_FFFF),
        5 => 0.9,
        6 => f64::from_bits(1),
        7 => 0.05,
        _ => (r.next() >> 11) as f64 / (1u64 << 53) as f64,
    }
}

fn probability(r: &mut Prng) -> f64 {
    match r.below(12) {
        0 => -1.0,
        1 => f64::NAN,
        2 => 0.5,
        3 => 1.0,
        4 => -0.0,
        5 => *r.pick(&[f64::INFINITY, f64::NEG_INFINITY, f64::from_bits(1), 2.0, -f64::NAN]),
        6 => (r.next() >> 11) as f64 / (1u64 << 53) as f64,
        7 => 0.1,
        _ => 0.0,
    }
}

/// A room: positions 1 to 64, T 0 to 64, all topologies and any links. Words enough for many rounds, most times.
pub fn random_case(r: &mut Prng) -> Case {
    let n = match r.below(24) {
        0 => 1 + r.index(64),
        1 => *r.pick(&[1, 63, 64]),
        2 | 3 => 1 + r.index(20),
        _ => 1 + r.index(6),
    };
    let links = if r.chance(1, 2) {
        rows_of_graph(&topology(r, n))
    } else {
        crate::graph::random_rows_of(r, n)
    };
    let t = match r.below(12) {
        0 => r.index(65),
        1 => 64,
        2 => 0,
        _ => r.index(9),
    };
    let repeats = *r.pick(&[1, 1, 1, 2, 2, 3, 4, 7, 20]);
    let slots = match r.below(12) {
        0 => Some(0),
        1 => Some(1),
        2 => Some(2),
        3 | 4 => Some(r.below(12)),
        // full lengths that leave no second round (15), or few
        5 => Some(FOREVER - r.below(40)),
        6 => Some(FOREVER / (1 + r.below(6))),
        _ => None,
    };
    let many = if n > 20 { 200_000 } else { 60_000 };
    let words: usize = match r.below(6) {
        0 => r.index(60),
        1 => r.index(2000),
        _ => many,
    };
    let cursor = match r.below(8) {
        0 => r.below(words as u64 + 3),
        1 if words < many => u64::MAX - r.below(2),
        _ => 0,
    };
    let bound = match r.below(10) {
        0 => r.below(60),
        1 => 0,
        _ => FOREVER,
    };
    Case {
        links,
        t,
        p: probability(r),
        loss: loss(r),
        repeats,
        slots,
        interval: *r.pick(&[1, 1, 2, 3, 7, 50, 1000, FOREVER, u64::MAX]),
        bound,
        words: Vec::new(),
        cursor,
    }
    .with_words(r, words)
}

impl Case {
    fn with_words(mut self, r: &mut Prng, count: usize) -> Case {
        self.words = (0..count).map(|_| r.next()).collect();
        self
    }
}

// ---- the fixed sample ----

/// The words of the sample, from a generator that the gate's program has too: a multiplication and an addition modulo 2^64.
fn sample_words(seed: u64, count: usize) -> Vec<u64> {
    let mut w = seed;
    (0..count)
        .map(|_| {
            w = w.wrapping_mul(6364136223846793005).wrapping_add(1442695040888963407);
            w
        })
        .collect()
}

/// One number that depends on all of these and on their order.
fn digest(numbers: &[u64]) -> u64 {
    let step = |d: u64, x: &u64| d.wrapping_mul(6364136223846793005).wrapping_add(*x).wrapping_add(1);
    numbers.iter().fold(0, step)
}

/// A question of the sample. Loss and p are quotients, so that both languages make the same binary64 number of them; a sign
/// of 1 turns it round, 0 over 0 is NaN, and a number of words is how many the generator gives.
struct Question {
    topology: u64,
    n: usize,
    argument: usize,
    t: usize,
    repeats: u32,
    slots: Option<u64>,
    loss: (u64, u64, u64),
    p: (u64, u64, u64),
    interval: u64,
    bound: u64,
    seed: u64,
    words: usize,
    cursor: u64,
    /// numbers in the row buffer, and rows used of it
    buffer: usize,
    used: u64,
    rounds: u64,
}

fn quotient(q: (u64, u64, u64)) -> f64 {
    let x = q.0 as f64 / q.1 as f64;
    if q.2 == 1 {
        return x * -1.0;
    }
    x
}

impl Question {
    fn plain(topology: u64, n: usize, t: usize) -> Question {
        Question {
            topology,
            n,
            argument: 0,
            t,
            repeats: 1,
            slots: None,
            loss: (0, 1, 0),
            p: (0, 1, 0),
            interval: FOREVER,
            bound: FOREVER,
            seed: 1,
            words: 1000,
            cursor: 0,
            buffer: 5,
            used: 0,
            rounds: u64::MAX,
        }
    }

    fn graph(&self) -> NetworkGraph {
        match self.topology {
            1 => NetworkGraph::full_mesh(self.n),
            2 => NetworkGraph::line(self.n),
            3 => NetworkGraph::ring(self.n),
            4 => NetworkGraph::grid(self.argument, self.n / self.argument),
            5 => NetworkGraph::tree(self.n, self.argument),
            _ => panic!("no topology"),
        }
    }

    fn case(&self) -> Case {
        Case {
            links: rows_of_graph(&self.graph()),
            t: self.t,
            p: quotient(self.p),
            loss: quotient(self.loss),
            repeats: self.repeats,
            slots: self.slots,
            interval: self.interval,
            bound: self.bound,
            words: sample_words(self.seed, self.words),
            cursor: self.cursor,
        }
    }

    fn asked(&self) -> String {
        let numbers = [
            self.topology,
            self.n as u64,
            self.argument as u64,
            self.t as u64,
            self.repeats as u64,
            u64::from(self.slots.is_some()),
            self.slots.unwrap_or(0),
            self.loss.0,
            self.loss.1,
            self.loss.2,
            self.p.0,
            self.p.1,
            self.p.2,
            self.interval,
            self.bound,
            self.seed,
            self.words as u64,
            self.cursor,
            self.buffer as u64,
            self.used,
            self.rounds,
        ];
        numbers.map(|x| x.to_string()).join(" ")
    }

    /// The refusal that RULES 15 gives to the next round, if the Rust would not lack a word in it.
    fn refusal(&self, room: &PipelineRoom, length: u64) -> u64 {
        let slot = room.core.current_slot;
        if room.stopped || slot >= self.bound {
            return 14;
        }
        if slot + length > FOREVER {
            return 15;
        }
        0
    }

    /// Rows that the buffer has no room for: refusal 17.
    fn is_over(&self, rows: u64) -> bool {
        self.used + rows > self.buffer as u64 / 5
    }

    /// The Rust's rounds up to the first refusal, from the opening anew wherever one has to be undone.
    fn answer(&self) -> String {
        let case = self.case();
        let length = case.length();
        let (mut rounds, mut refusal) = (0, 0);
        let mut room = case.open();
        while rounds < self.rounds {
            refusal = self.refusal(&room, length);
            if refusal != 0 {
                break;
            }
            if room.round().is_err() {
                refusal = 16;
            } else if self.is_over(room.core.metrics.snapshots.len() as u64) {
                refusal = 17;
            }
            if refusal != 0 {
                room = case.open();
                for _ in 0..rounds {
                    room.round().unwrap();
                }
                break;
            }
            rounds += 1;
        }
        self.line(refusal, &View::of(&room))
    }

    fn line(&self, refusal: u64, v: &View) -> String {
        let sum = |f: fn(&(u64, u64, u64)) -> u64| v.counts.iter().map(f).sum::<u64>();
        let m = v.metrics;
        let mut out = vec![
            refusal,
            m[5],
            v.clock.0,
            v.clock.3,
            v.clock.5,
            u64::from(v.clock.4),
            sum(|c| c.0),
            sum(|c| c.1),
            sum(|c| c.2),
            m[0],
            m[1],
            m[3],
            m[4],
            m[7],
        ];
        let entries = |l: &[(u64, bool)]| l.iter().map(|(t, o)| t + 256 * u64::from(*o)).collect::<Vec<u64>>();
        let mut all = Vec::new();
        for i in 0..self.n {
            let (s, c) = (v.states[i], v.counts[i]);
            all.extend([s.0, s.1, s.2, u64::from(s.3), s.4, c.0, c.1, c.2]);
            all.push(v.logs[i].len() as u64);
            all.extend(entries(&v.logs[i]));
            for p in &v.pending[i] {
                all.extend([p.0, p.1, u64::from(p.2)]);
            }
        }
        for r in &v.records {
            all.extend([r.0 + 256 * u64::from(r.3), r.1, r.2]);
        }
        all.extend(&v.rows);
        out.push(digest(&all));
        if self.n <= 4 {
            for l in &v.logs {
                out.push(l.len() as u64);
                out.extend(entries(l));
            }
        }
        out.iter().map(|x| x.to_string()).collect::<Vec<String>>().join(" ")
    }
}

/// Worked cases (RULES 10.14, 11.12), traps, and smallest inputs where a rule is easily read wrong.
fn sample_cases() -> Vec<(&'static str, Question)> {
    let q = Question::plain;
    let half = (1, 2, 0);
    vec![
        ("mesh of 2, T 0, repeats 1: 2 slots, listen 1, flood 2, sleep 1, covered 2, stopped", q(1, 2, 0)),
        ("the same, asked for one round: no refusal", Question { rounds: 1, ..q(1, 2, 0) }),
        ("no round at all", Question { rounds: 0, ..q(1, 2, 3) }),
        ("line of 3, round slots 1: position 1 floods at the end and takes no part", Question { slots: Some(1), rounds: 1, ..q(2, 3, 1) }),
        ("the same to its end", Question { slots: Some(1), ..q(2, 3, 1) }),
        ("round slots 0: T words, T + 1002 rounds at slot 0", Question { slots: Some(0), ..q(2, 2, 3) }),
        ("covered by bytes, not by state", Question { repeats: 2, slots: Some(1), ..q(1, 2, 0) }),
        ("room of 1", q(2, 1, 3)),
        ("p negative draws its words", Question { p: (1, 1, 1), words: 5, ..q(2, 2, 3) }),
        ("p NaN", Question { p: (0, 0, 0), words: 6, ..q(2, 2, 3) }),
        ("p 1: all abort", Question { p: (1, 1, 0), ..q(1, 3, 4) }),
        ("p 0.5", Question { p: half, ..q(1, 3, 8) }),
        ("one word of two: 16", Question { words: 1, ..q(2, 2, 1) }),
        ("loss -0.0 draws nothing in floods", Question { loss: (0, 1, 1), words: 4, ..q(2, 2, 2) }),
        ("loss 0.5: transaction 0 may be missed and is never asked for", Question { loss: half, words: 3000, seed: 5, ..q(2, 2, 1) }),
        ("loss 0.5, more transactions: nacks and piggybacks", Question { loss: half, words: 4000, seed: 9, rounds: 60, ..q(2, 3, 6) }),
        ("an abort goes to its transaction only", Question { p: (3, 10, 0), loss: (1, 10, 0), words: 4000, rounds: 40, ..q(2, 4, 9) }),
        ("opposite outcomes for lost frames alone", Question { loss: half, words: 4000, seed: 12, rounds: 80, ..q(3, 4, 5) }),
        ("bound 5", Question { bound: 5, ..q(1, 3, 9) }),
        ("bound 0", Question { bound: 0, ..q(1, 3, 9) }),
        ("full length up to the last slot", Question { slots: Some(FOREVER), ..q(1, 2, 1) }),
        ("one slot too long", Question { slots: Some(FOREVER + 1), ..q(1, 2, 1) }),
        ("repeats FFFFFFFF hexadecimal, length not given: 15 before 16", Question { repeats: u32::MAX, words: 0, ..q(1, 2, 1) }),
        ("rows: the buffer holds all", Question { interval: 1, buffer: 100, ..q(1, 2, 3) }),
        ("rows: 17 in the second round", Question { interval: 1, buffer: 19, ..q(1, 2, 3) }),
        ("rows: behind two used ones", Question { interval: 2, buffer: 60, used: 2, ..q(1, 2, 3) }),
        ("rows: more used than there are", Question { used: 2, ..q(1, 2, 3) }),
        ("cursor past the end", Question { cursor: 2000, ..q(1, 2, 1) }),
        ("cursor past the end, nothing drawn", Question { cursor: u64::MAX, ..q(1, 2, 0) }),
        ("mesh of 64, T 64", Question { rounds: 200, ..q(1, 64, 64) }),
    ]
}

fn sample_question(r: &mut Prng) -> Question {
    let topology = 1 + r.below(5);
    let n = match r.below(6) {
        0 => 1 + r.index(64),
        _ => 1 + r.index(7),
    };
    let divisors: Vec<usize> = (1..=n).filter(|d| n % d == 0).collect();
    let argument = match topology {
        4 => *r.pick(&divisors),
        5 => r.index(4),
        _ => 0,
    };
    let tenths = |r: &mut Prng| (r.below(10), 10, 0);
    Question {
        argument,
        repeats: 1 + r.below(3) as u32,
        slots: if r.chance(1, 3) { Some(r.below(9)) } else { None },
        loss: if r.chance(1, 4) { (0, 1, 0) } else { tenths(r) },
        p: if r.chance(1, 2) { (0, 1, 0) } else { tenths(r) },
        interval: 1 + r.below(9),
        seed: r.next(),
        words: 4000,
        buffer: 2000 + r.index(5),
        rounds: 1 + r.below(60),
        ..Question::plain(topology, n, r.index(12))
    }
}

/// The Rust's answers for the gate, always the same ones: no seed and no scale.
pub fn sample() {
    println!("# The Rust: {}", ctsim::SOURCE);
    println!("# topology n argument T repeats given slots loss (over, under, turned) p (the same) interval bound seed words cursor buffer used rounds");
    println!("# | refusal, rounds, slot, bytes, cursor, stopped, listen, flood, sleep, nacks, piggybacks, attempts, success, covered, digest, logs (n up to 4)");
    for (name, q) in sample_cases() {
        println!("# {name}");
        println!("{} | {}", q.asked(), q.answer());
    }
    println!("# drawn");
    let mut r = Prng::of(0, "sample pipeline");
    for _ in 0..70 {
        let q = sample_question(&mut r);
        println!("{} | {}", q.asked(), q.answer());
    }
}

/// A room as our numbers, and what they say.
pub mod numbers {
    use super::*;
    use ctsim::protocol::two_pc_pipeline::{serialize_packet, TwoPcPacket};

    /// Where the numbers of a state stand.
    pub const SLOT: usize = 0;
    pub const NEXT: usize = 1;
    pub const ROUND: usize = 2;
    pub const SENT: usize = 3;
    pub const STOP: usize = 4;
    pub const USED: usize = 5;
    pub const CURSOR: usize = 6;
    pub const METRICS: usize = 7;
    pub const PIGGYBACK: usize = 15;
    pub const HOLDING: usize = 18;
    pub const COUNTER: usize = 19;
    pub const STARTS: usize = 20;
    pub const ROUNDS: usize = 84;
    pub const BOOK: usize = 148;
    pub const ENDS: usize = 213;
    pub const NODES: usize = 277;
    pub const STATES: usize = 789;
    pub const STATE: usize = 131;
    pub const PAYLOADS: usize = 9173;
    pub const PAYLOAD: usize = 9;
    pub const COUNT: usize = 9749;

    pub fn log_at(s: &[u64], at: usize) -> Vec<(u64, bool)> {
        let len = s[at] as usize;
        s[at + 1..at + 1 + len].iter().map(|e| (e % 256, *e > 255)).collect()
    }

    /// The packet that the numbers of a payload stand for, written by serde.
    fn payload_at(s: &[u64], at: usize, n: usize) -> Vec<u8> {
        let q = &s[at..at + PAYLOAD];
        let there = q[6] != 0;
        let outcome = if q[8] != 0 { TwoPcState::Committed } else { TwoPcState::Aborted };
        serialize_packet(&TwoPcPacket {
            transaction_id: q[0],
            state: TwoPcState::Prepare,
            flags_bitmap: (0..n).map(|i| q[1] >> i & 1 == 1).collect(),
            abort_flag: q[2] != 0,
            nack_tx_id: q[3],
            transaction_data: if q[4] != 0 { format!("tx{}", q[0]).into_bytes() } else { Vec::new() },
            sender: q[5] as usize,
            piggyback_tx: there.then_some(q[7]),
            piggyback_state: there.then_some(outcome),
        })
    }

    fn pending(s: &[u64], i: usize) -> Vec<Pending> {
        let v = &s[STATES + STATE * i..][..STATE];
        let one = |t: usize| (t as u64, v[67 + t], v[66] >> t & 1 == 1, s[ROUNDS + t]);
        (0..64).filter(|t| v[65] >> t & 1 == 1).map(one).collect()
    }

    /// What the numbers say, for the first n positions.
    pub fn view(s: &[u64], rows: &[u64], n: usize) -> View {
        let node = |i: usize| &s[NODES + 8 * i..][..8];
        let (there, pb) = (s[PIGGYBACK] != 0, (s[PIGGYBACK + 1], s[PIGGYBACK + 2] != 0));
        let held = |i: usize| s[HOLDING] >> i & 1 == 1;
        View {
            clock: (s[SLOT], s[NEXT], s[ROUND], s[SENT], s[STOP] != 0, s[CURSOR]),
            states: (0..n).map(node).map(|v| (v[0], v[1], v[2], v[3] != 0, v[4])).collect(),
            counts: (0..n).map(node).map(|v| (v[5], v[6], v[7])).collect(),
            payloads: (0..n)
                .map(|i| if held(i) { payload_at(s, PAYLOADS + PAYLOAD * i, n) } else { Vec::new() })
                .collect(),
            logs: (0..n).map(|i| log_at(s, STATES + STATE * i)).collect(),
            pending: (0..n).map(|i| pending(s, i)).collect(),
            piggyback: there.then_some(pb),
            generated: s[COUNTER],
            records: log_at(s, BOOK)
                .iter()
                .map(|(t, o)| (*t, s[STARTS + *t as usize], s[ENDS + *t as usize], *o))
                .collect(),
            metrics: s[METRICS..METRICS + 8].try_into().unwrap(),
            rows: rows[..5 * s[USED] as usize].to_vec(),
        }
    }
}

#[cfg(feature = "pipeline")]
pub use compared::run;

#[cfg(feature = "pipeline")]
mod compared {
    use super::numbers::*;
    use super::*;
    use crate::tally::Tally;
    use crate::time;
    use crate::Options;
    use ctsim::sim::two_pc_pipeline::TwoPcPipelineSim;
    use std::collections::BTreeMap;

    extern "C" {
        fn pipeline_open(state: *mut u64, count: usize);
        fn pipeline_flood_length(given: u64, slots: u64, diameter: u64, repeats: u32) -> u64;
        #[allow(clippy::too_many_arguments)]
        fn pipeline_rounds(
            state: *mut u64,
            state_count: usize,
            words: *const u64,
            words_count: usize,
            links: *const u64,
            links_count: usize,
            rows: *mut u64,
            rows_count: usize,
            n: u64,
            txs: u64,
            loss_rate: f64,
            abort_probability: f64,
            repeats: u32,
            length: u64,
            interval: u64,
            bound: u64,
            rounds: u64,
        ) -> u64;
    }

    const WAS: u64 = 0xA5A5_A5A5_A5A5_A5A5;

    /// What our archive holds of a room: the numbers of its state, and the rows.
    #[derive(Clone, PartialEq)]
    struct Ours {
        state: Vec<u64>,
        rows: Vec<u64>,
    }

    /// How our archive is asked: the case, but for what a question changes.
    struct Asked<'a> {
        case: &'a Case,
        words: &'a [u64],
        n: u64,
        length: u64,
        bound: u64,
        rounds: u64,
    }

    impl<'a> Asked<'a> {
        fn of(case: &'a Case, length: u64) -> Asked<'a> {
            Asked {
                case,
                words: &case.words,
                n: case.n() as u64,
                length,
                bound: case.bound,
                rounds: 1,
            }
        }
    }

    impl Ours {
        fn open() -> Ours {
            let mut state = vec![WAS; COUNT + 3];
            unsafe { pipeline_open(state.as_mut_ptr(), state.len()) };
            Ours { state, rows: Vec::new() }
        }

        fn ask(&mut self, a: &Asked) -> u64 {
            let c = a.case;
            unsafe {
                pipeline_rounds(
                    self.state.as_mut_ptr(),
                    self.state.len(),
                    a.words.as_ptr(),
                    a.words.len(),
                    c.links.as_ptr(),
                    c.links.len(),
                    self.rows.as_mut_ptr(),
                    self.rows.len(),
                    a.n,
                    c.t as u64,
                    c.loss,
                    c.p,
                    c.repeats,
                    a.length,
                    c.interval,
                    a.bound,
                    a.rounds,
                )
            }
        }

        fn view(&self, n: usize) -> View {
            view(&self.state, &self.rows, n)
        }

        /// The numbers of positions that are none, and those behind the state: they stay.
        fn beyond(&self, n: usize) -> (&[u64], &[u64], &[u64], &[u64], u64) {
            let s = &self.state;
            (
                &s[NODES + 8 * n..STATES],
                &s[STATES + STATE * n..PAYLOADS],
                &s[PAYLOADS + PAYLOAD * n..COUNT],
                &s[COUNT..],
                s[HOLDING] >> 1 >> (n - 1),
            )
        }
    }

    /// How often each thing was met.
    #[derive(Default)]
    struct Met(BTreeMap<&'static str, u64>);

    impl Met {
        fn add(&mut self, what: &'static str, times: u64) {
            *self.0.entry(what).or_default() += times;
        }

        fn yes(&mut self, what: &'static str, is: bool) {
            self.add(what, u64::from(is));
        }
    }

    struct Room<'a> {
        t: &'a mut Tally,
        met: &'a mut Met,
        case: &'a Case,
        length: u64,
        ours: Ours,
        theirs: PipelineRoom,
        /// the refusal of the round that there is none of
        last: u64,
    }

    fn size(c: &Case, rounds: u64) -> usize {
        c.n() * 100 + c.t * 10 + c.links.iter().map(|l| l.count_ones() as usize).sum::<usize>() + rounds as usize
    }

    impl Room<'_> {
        fn is<T: PartialEq + std::fmt::Debug>(&mut self, kind: &str, ours: &T, due: &T) -> bool {
            let (c, rounds) = (self.case, self.theirs.rounds);
            self.t.same(kind, size(c, rounds), || format!("round {rounds} of {}", c.told()), ours, due)
        }

        /// A question that must be refused with this number, and leave all that was lent.
        fn refused(&mut self, kind: &'static str, due: u64, before: &Ours, a: &Asked) {
            let mut tried = before.clone();
            let answer = tried.ask(a);
            self.met.add(kind, 1);
            self.is(kind, &answer, &due);
            let kept = tried == *before;
            self.is("a refused round changes nothing", &kept, &true);
        }

        fn same_view(&mut self, used: usize) {
            let (n, after) = (self.case.n(), self.ours.state[USED] as usize);
            let due = View { rows: Vec::new(), ..View::of(&self.theirs) };
            if self.ours.rows.len() < 5 * after {
                self.is("rows used", &after, &(self.theirs.core.metrics.snapshots.len()));
                return;
            }
            let got = View { rows: Vec::new(), ..self.ours.view(n) };
            self.is("slot, next row, round, bytes, stopped, cursor", &got.clock, &due.clock);
            self.is("states", &got.states, &due.states);
            self.is("counts", &got.counts, &due.counts);
            self.is("payload bytes", &got.payloads, &due.payloads);
            self.is("logs", &got.logs, &due.logs);
            self.is("pending", &got.pending, &due.pending);
            self.is("piggyback", &got.piggyback, &due.piggyback);
            self.is("transactions generated", &got.generated, &due.generated);
            self.is("records", &got.records, &due.records);
            self.is("metrics", &got.metrics, &due.metrics);
            let new = self.ours.rows[5 * used..5 * after].to_vec();
            let theirs = rows_since(&self.theirs.core.metrics, used);
            self.is("rows", &new, &theirs);
            let rest = self.ours.rows[5 * after..].iter().all(|x| *x == WAS);
            self.is("the rest of the buffer", &rest, &true);
        }

        /// Refusals of the round that the Rust has just run, asked from the state before it.
        fn refusals(&mut self, r: &mut Prng, before: &Ours, used: usize) {
            let (case, length) = (self.case, self.length);
            let (from, to) = (before.state[CURSOR], self.theirs.core.rng.cursor());
            let rows = self.theirs.core.metrics.snapshots.len();
            if to > from {
                let words = &case.words[..to as usize - 1];
                self.refused("16, one word short", 16, before, &Asked { words, ..Asked::of(case, length) });
            }
            let mut tight = before.clone();
            tight.rows.truncate(5 * used);
            tight.rows.resize((5 * rows).saturating_sub(1 + r.index(5)).max(5 * used), WAS);
            if rows > used {
                self.refused("17, no room for the rows", 17, &tight, &Asked::of(case, length));
                let words = &case.words[..(to as usize).saturating_sub(1).min(case.words.len())];
                let due = if to > from { 16 } else { 17 };
                self.refused("16 before 17", due, &tight, &Asked { words, ..Asked::of(case, length) });
            }
            let mut over = before.clone();
            over.state[USED] = *r.pick(&[before.rows.len() as u64 / 5 + 1, u64::MAX, 1 << 62]);
            self.refused("17, used beyond the buffer", 17, &over, &Asked::of(case, length));
            let slot = before.state[SLOT];
            let long = FOREVER - slot + 1 + r.below(2) * r.below(1 << 40);
            self.refused("15, too long", 15, before, &Asked { length: long, ..Asked::of(case, length) });
            let bound = slot - r.below(slot + 1);
            let a = Asked { bound, length: long, ..Asked::of(case, length) };
            self.refused("14, bound", 14, before, &a);
            let n = *r.pick(&[0, 65, 66, u64::MAX]);
            self.refused("2, positions", 2, before, &Asked { n, bound, ..Asked::of(case, length) });
        }

        /// One round of both. False once there is no further one.
        fn round(&mut self, r: &mut Prng) -> bool {
            let (case, length) = (self.case, self.length);
            let before = self.ours.clone();
            let slot = self.theirs.core.current_slot;
            let used = before.state[USED] as usize;
            if self.theirs.stopped || slot >= case.bound {
                let what = if self.theirs.stopped { "14, stopped" } else { "14, bound of the room" };
                self.last = 14;
                self.refused(what, 14, &before, &Asked::of(case, length));
                return false;
            }
            if slot + length > FOREVER {
                self.last = 15;
                self.refused("15, length of the room", 15, &before, &Asked::of(case, length));
                return false;
            }
            if self.theirs.round().is_err() {
                self.last = 16;
                self.refused("16, where the Rust lacks a word", 16, &before, &Asked::of(case, length));
                return false;
            }
            let rows = self.theirs.core.metrics.snapshots.len();
            self.ours.rows.resize(5 * rows + r.index(10), WAS);
            if r.chance(1, 16) {
                let mut lent = before.clone();
                lent.rows = before.rows.clone();
                lent.rows.resize(self.ours.rows.len(), WAS);
                self.refusals(r, &lent, used);
            }
            let answer = self.ours.ask(&Asked::of(case, length));
            if !self.is("accepted", &answer, &0) {
                return false;
            }
            self.same_view(used);
            self.ours.rows.truncate(5 * rows);
            let n = case.n();
            let (a, b) = (before.beyond(n), self.ours.beyond(n));
            let kept = a == b;
            self.is("positions that are none, numbers behind the state", &kept, &true);
            self.notice(&before);
            true
        }

        /// What this round had of what is wanted.
        fn notice(&mut self, before: &Ours) {
            let (n, s, b) = (self.case.n(), &self.ours.state, &before.state);
            let flooding = (0..n).filter(|i| s[NODES + 8 * i] == 1).count();
            self.met.add("rounds", 1);
            self.met.add("nacks", s[METRICS] - b[METRICS]);
            self.met.add("piggybacks", s[METRICS + 1] - b[METRICS + 1]);
            self.met.add("rows", s[USED] - b[USED]);
            self.met.yes("rounds that end with flooders", flooding > 0);
            self.met.yes("rounds of 0 slots", self.length == 0);
            self.met.yes("rounds of at most 1 slot", self.length == 1);
            self.met.yes("rounds with repeats over the length", self.case.repeats as u64 > self.length);
            self.met.yes("rounds with loss -0.0", self.case.loss == 0.0 && self.case.loss.is_sign_negative());
            self.met.yes("rounds with loss next to 1", self.case.loss > 0.999);
            self.met.yes("rounds with p NaN or negative", !(self.case.p >= 0.0));
            self.met.yes("rounds that draw nothing", s[CURSOR] == b[CURSOR]);
            let held = s[HOLDING].count_ones() as u64;
            let covered = s[METRICS + 7] - b[METRICS + 7];
            self.met.yes("rounds with holders of an older packet", covered < held);
            let logged = |x: &[u64]| (0..n).map(|i| x[STATES + STATE * i]).sum::<u64>();
            self.met.add("outcomes logged", logged(s) - logged(b));
        }

        /// All at once: the same numbers as round by round.
        fn at_once(&mut self, last: u64) {
            let mut all = Ours::open();
            all.state[CURSOR] = self.case.cursor;
            all.rows = vec![WAS; self.ours.rows.len()];
            let answer = all.ask(&Asked { rounds: u64::MAX, ..Asked::of(self.case, self.length) });
            self.is("all rounds in one call: answer", &answer, &last);
            let same = all == self.ours;
            self.is("all rounds in one call: numbers", &same, &true);
        }

        /// The Rust's own `run`, untouched, against the numbers that ours end with.
        fn own_run(&mut self) {
            let case = self.case;
            let from = (case.cursor as usize).min(case.words.len());
            rand_chacha::lend(&case.words[from..]);
            let (m, l, f, s) = TwoPcPipelineSim::new(case.settings(), case.graph()).run();
            let drawn = rand_chacha::drawn();
            let v = self.ours.view(case.n());
            let sums = v.counts.iter().fold((0, 0, 0), |a, c| (a.0 + c.0, a.1 + c.1, a.2 + c.2));
            self.is("own run: counts", &sums, &(l, f, s));
            self.is("own run: words", &(v.clock.5 - case.cursor), &drawn);
            self.is("own run: metrics", &v.metrics, &counts(&m));
            self.is("own run: records", &v.records, &records(&m));
            self.is("own run: rows", &v.rows, &rows_since(&m, 0));
            self.met.add("rooms held to the Rust's own run", 1);
        }

        fn notice_end(&mut self, ended: bool) {
            let (n, t) = (self.case.n(), self.case.t as u64);
            let v = self.ours.view(n);
            self.met.yes("rooms that stop", self.theirs.stopped);
            self.met.yes("rooms of T + 1002 rounds", self.theirs.stopped && self.theirs.rounds == t + 1002);
            self.met.yes("rooms that stop at once", self.theirs.stopped && self.theirs.rounds == 1);
            self.met.yes("rooms left before their end", !ended);
            self.met.yes("rooms of 64 positions", n == 64);
            self.met.yes("rooms of T 64", t == 64);
            let mixed = (0..t).any(|id| v.logs.iter().any(|l| l.contains(&(id, true))) && v.logs.iter().any(|l| l.contains(&(id, false))));
            self.met.yes("rooms with opposite outcomes of a transaction", mixed);
            let rising = |l: &Vec<(u64, bool)>| l.windows(2).all(|w| w[0].0 < w[1].0);
            self.met.yes("rooms with a log out of order", !v.logs.iter().all(rising));
            self.met.add("records, committed", v.records.iter().filter(|r| r.3).count() as u64);
            self.met.add("records, aborted", v.records.iter().filter(|r| !r.3).count() as u64);
        }
    }

    fn flood_length(c: &Case) -> u64 {
        let given = u64::from(c.slots.is_some());
        let diameter = c.graph().diameter() as u64;
        unsafe { pipeline_flood_length(given, c.slots.unwrap_or(77), diameter, c.repeats) }
    }

    fn room(t: &mut Tally, met: &mut Met, r: &mut Prng, case: &Case) {
        let length = flood_length(case);
        t.same("length of a flood", size(case, 0), || case.told(), &length, &case.length());
        let mut ours = Ours::open();
        ours.state[CURSOR] = case.cursor;
        let mut x = Room { t, met, case, length, ours, theirs: case.open(), last: 0 };
        x.met.add("rooms", 1);
        // a room that idles runs T + 1002 rounds: some do, the others are left
        let patience = 3 * (case.t + case.n()) as u64 + 20;
        let to_the_end = case.n() <= 20 && r.chance(1, 12);
        let mut ended = true;
        while x.round(r) {
            if !to_the_end && x.theirs.rounds > patience {
                ended = false;
                break;
            }
        }
        x.notice_end(ended);
        if !ended {
            return;
        }
        x.at_once(x.last);
        if x.last == 14 {
            x.own_run();
        }
    }

    /// Lengths that no room here has: huge repeats, every diameter.
    fn lengths(t: &mut Tally, r: &mut Prng) {
        for _ in 0..20_000 {
            let (diameter, repeats, slots) = (r.below(64), r.number() as u32, r.number());
            let ours = unsafe { pipeline_flood_length(0, slots, diameter, repeats) };
            let due = ((diameter + 2) * repeats as u64).max(3);
            t.same("length, not given", 1, || format!("diameter {diameter} repeats {repeats}"), &ours, &due);
            let ours = unsafe { pipeline_flood_length(1 + r.below(3), slots, diameter, repeats) };
            t.same("length, given", 1, || format!("slots {slots}"), &ours, &slots);
        }
    }

    /// Numbers that no room has, and states too short or too long: there is an answer, and nothing behind the state is written.
    fn any_numbers(t: &mut Tally, r: &mut Prng) {
        for _ in 0..300 {
            let mut case = random_case(r);
            case.words.truncate(5000);
            let count = *r.pick(&[0, 1, 19, 20, 277, 800, COUNT - 1, COUNT, COUNT + 40]);
            let state: Vec<u64> = (0..count).map(|_| if r.chance(1, 2) { r.below(70) } else { r.number() }).collect();
            let mut ours = Ours { state, rows: vec![WAS; 5 * r.index(30)] };
            if let Some(s) = ours.state.get_mut(SLOT) {
                *s = r.below(1000);
            }
            let before = ours.clone();
            let answer = ours.ask(&Asked { rounds: r.below(4), ..Asked::of(&case, case.length().min(50)) });
            let known = [0, 2, 14, 15, 16, 17].contains(&answer);
            t.same("any numbers: a known answer", 1, || case.told(), &known, &true);
            let behind = ours.state.get(COUNT..) == before.state.get(COUNT..);
            t.same("any numbers: nothing behind the state is written", 1, || case.told(), &behind, &true);
        }
    }

    /// Mesh of 64, T 64, repeats 2, loss 0.3, without aborts: the same words for both.
    fn times(r: &mut Prng) {
        let case = Case {
            links: rows_of_graph(&NetworkGraph::full_mesh(64)),
            t: 64,
            p: 0.0,
            loss: 0.3,
            repeats: 2,
            slots: None,
            interval: FOREVER,
            bound: FOREVER,
            words: Vec::new(),
            cursor: 0,
        }
        .with_words(r, 3_000_000);
        let length = case.length();
        let mut whole = case.open();
        whole.run().unwrap();
        let rounds = whole.rounds;
        // the Rust's side copies its words at the opening: none too many
        let mut case = case;
        case.words.truncate(whole.core.rng.cursor() as usize);
        let ask = Asked { rounds, ..Asked::of(&case, length) };
        let mut ours = || {
            let mut o = Ours::open();
            o.rows = vec![WAS; 5];
            assert_eq!(o.ask(&ask), 0);
            assert_eq!(o.state[ROUND] + 1, rounds);
            std::hint::black_box(&o.state);
        };
        let mut theirs = || {
            let mut w = case.open();
            w.run().unwrap();
            std::hint::black_box(w.bytes);
        };
        println!("time: mesh of 64, T 64, repeats 2, loss 0.3: {rounds} rounds, {} words", whole.core.rng.cursor());
        time::beside("all its rounds in one call", &mut ours, &mut theirs);
        let mut given = case.clone();
        given.slots = Some(length);
        let mut theirs = || {
            let mut w = given.open();
            w.run().unwrap();
            std::hint::black_box(w.bytes);
        };
        time::beside("the same with the length given, so that the Rust need not find the diameter", &mut ours, &mut theirs);
    }

    pub fn run(o: &Options) -> Tally {
        let mut t = Tally::new("pipeline");
        if o.times_only {
            times(&mut Prng::of(o.seed, "pipeline times"));
            return t;
        }
        let mut met = Met::default();
        let mut r = Prng::of(o.seed, "pipeline");
        for _ in 0..10_500 * o.scale {
            let case = random_case(&mut r);
            room(&mut t, &mut met, &mut r, &case);
        }
        lengths(&mut t, &mut Prng::of(o.seed, "pipeline lengths"));
        any_numbers(&mut t, &mut Prng::of(o.seed, "pipeline numbers"));
        for (what, times) in &met.0 {
            println!("pipeline: {what}: {times}");
        }
        times(&mut Prng::of(o.seed, "pipeline times"));
        t
    }
}
