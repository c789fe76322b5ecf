//! The fixed sample that the gate's program room_cases replays: rooms with calls and readings, and the Rust's
//! answers. A question is a line of numbers (that program's source says which), the answer a line.

use super::*;
use crate::oracle::rows_of_graph;
use crate::prng::Prng;
use ctsim::network::NetworkGraph;

const LOSSES: [f64; 5] = [0.0, -0.0, 0.3, 1.0, 0.5];
const ABORTS: [f64; 4] = [0.0, 1.0, 0.25, -0.5];

/// The most calls that a line of the program holds.
const CALLS: usize = 58;

#[derive(Clone)]
struct Question {
    setup: Setup,
    loss: usize,
    p: usize,
    topology: u64,
    argument: usize,
    first: u64,
    step: u64,
    text: usize,
    calls: Vec<Call>,
}

fn links_of(topology: u64, n: usize, argument: usize) -> Vec<u64> {
    match topology {
        _ if !(1..=64).contains(&n) => vec![0; n],
        1 => rows_of_graph(&NetworkGraph::full_mesh(n)),
        2 => rows_of_graph(&NetworkGraph::line(n)),
        3 => rows_of_graph(&NetworkGraph::ring(n)),
        4 => rows_of_graph(&NetworkGraph::grid(argument, n / argument)),
        5 => rows_of_graph(&NetworkGraph::tree(n, argument)),
        _ => vec![0; n],
    }
}

/// One number that depends on all of these, as the program reckons it.
fn digest(numbers: &[u64]) -> u64 {
    let low = |x: u64| x % (1 << 32);
    numbers.iter().fold(0, |h, x| low(h) * 1000003 + low(*x) + (x >> 32))
}

fn float(x: f64) -> String {
    let y = x * 9223372036854775808.0;
    if y > -1.0 && y < 18446744073709551616.0 {
        return format!("/{}", y as u64);
    }
    "/-".to_string()
}

impl Question {
    fn of(kind: u64, topology: u64, n: usize, t: u64) -> Question {
        let setup = Setup {
            kind,
            links: links_of(topology, n, 0),
            t,
            term: 0,
            interval: 3,
            bound: FOREVER,
            loss: 0.0,
            p: 0.0,
            seed: 5,
            timeout: 100,
            repeats: 1,
            slots: 20,
            given: kind != 1,
            words: Vec::new(),
            buffer: 100,
        };
        Question {
            setup,
            loss: 0,
            p: 0,
            topology,
            argument: 0,
            first: 0,
            step: 0,
            text: 700,
            calls: Vec::new(),
        }
        .words(1, 0x9E37_79B9_7F4A_7C15, 500)
    }

    fn words(mut self, first: u64, step: u64, count: usize) -> Question {
        (self.first, self.step) = (first, step);
        self.setup.words = (0..count as u64)
            .map(|i| first.wrapping_add(step.wrapping_mul(i)))
            .collect();
        self
    }

    fn chances(mut self, loss: usize, p: usize) -> Question {
        (self.loss, self.p) = (loss, p);
        (self.setup.loss, self.setup.p) = (LOSSES[loss], ABORTS[p]);
        self
    }

    fn with(mut self, f: impl FnOnce(&mut Setup)) -> Question {
        f(&mut self.setup);
        self
    }

    fn calls(mut self, calls: &[Call]) -> Question {
        self.calls.extend(calls);
        assert!(self.calls.len() <= CALLS);
        self
    }

    /// Every reading of the room as a whole, and of these positions what a room of its kind has of one.
    fn all(self, positions: &[u64]) -> Question {
        let mut calls: Vec<Call> = (FIRST_READING..NODE).map(|k| Call::of(k, 0, 0)).collect();
        for v in positions {
            calls.extend((NODE..RECORD).map(|k| Call::of(k, *v, 0)));
        }
        calls.push(Call::of(RECORD, 0, 0));
        self.calls(&calls)
    }

    fn asked(&self) -> String {
        let s = &self.setup;
        let mut numbers = s.numbers().to_vec();
        numbers.extend([
            self.loss as u64,
            self.p as u64,
            self.topology,
            s.n() as u64,
            self.argument as u64,
        ]);
        numbers.extend([
            self.first,
            self.step,
            s.words.len() as u64,
            s.buffer as u64,
            self.text as u64,
        ]);
        numbers.extend(self.calls.iter().flat_map(|c| [c.which, c.a, c.b, c.c]));
        let texts: Vec<String> = numbers.iter().map(|x| x.to_string()).collect();
        texts.join(" ")
    }

    fn answer(&self) -> String {
        let mut text = vec![0; self.text];
        if let Some(k) = self.setup.refusals().first() {
            return format!("{k};{};", digest(&vec![0; self.setup.buffer]));
        }
        let mut side = Side::open(&self.setup, 0);
        let mut line = "0".to_string();
        for c in &self.calls {
            let said = side.call(c, &mut text);
            assert!(said.open.is_empty(), "{c:?}: the Rust keeps neither abort nor votes");
            line += &format!(",{}", said.refusal);
            let last = said.numbers.iter().rposition(|x| *x != 0).map_or(0, |k| k + 1);
            for x in &said.numbers[..last] {
                line += &format!(" {x}");
            }
            let floats = match c.which {
                6 => 2,
                11 | 12 => 1,
                _ => 0,
            };
            for i in 0..floats {
                line += &float(said.floats.get(i).copied().unwrap_or(0.0));
            }
        }
        let last = text.iter().rposition(|b| *b != 0).map_or(0, |k| k + 1);
        line + &format!(";{};{}", digest(&side.rows), String::from_utf8_lossy(&text[..last]))
    }
}

/// A round that goes on where the ones before it left off is for the drawn rooms; these start at the first word and
/// the first row.
fn round(which: u64) -> Call {
    Call::of(which, 0, 0)
}

fn cases() -> Vec<(&'static str, Question)> {
    let q = Question::of;
    let (propose, none) = (|v: u64| Call::of(PROPOSE, v, 0), Call::of(24, 0, 0));
    let (captured, piped) = (round(CAPTURE), round(PIPELINE));
    vec![
        (
            "capture, line of 2, as opened: every reading",
            q(2, 2, 2, 0).all(&[0, 1, 2]),
        ),
        (
            "the same after a proposal and its round",
            q(2, 2, 2, 0).calls(&[propose(0), captured]).all(&[0, 1]),
        ),
        (
            "the same with rounds of one slot, which is too few",
            q(2, 2, 2, 0).with(|s| s.slots = 1).calls(&[propose(0), captured]).all(&[0, 1]),
        ),
        ("pipeline, mesh of 2, T 0, as opened", q(1, 1, 2, 0).all(&[0, 1, 2])),
        (
            "the same after a round, which stops it",
            q(1, 1, 2, 0).calls(&[piped, piped]).all(&[0, 1]),
        ),
        (
            "pipeline, mesh of 3, T 2, after a round: one pending",
            q(1, 1, 3, 2).calls(&[piped]).all(&[0, 2, 3]),
        ),
        (
            "refusals that no later call hides: 12, none, 8, a number that is no call, 11, a proposal, 17",
            q(2, 2, 3, 0).calls(&[
                captured,
                none,
                propose(3),
                Call::of(0, 1, 1),
                piped,
                propose(1),
                Call { c: 21, ..captured },
                captured,
                Call::of(16, 0, 0),
                none,
            ]),
        ),
        (
            "the same in a pipeline: 11, 11, 17, 16, a round",
            q(1, 2, 3, 2).calls(&[
                propose(0),
                captured,
                Call { c: 21, ..piped },
                Call { b: 500, ..piped },
                piped,
                Call::of(14, 0, 0),
            ]),
        ),
        (
            "a text that does not fit by one byte, and one that just fits",
            Question {
                text: 85,
                ..q(2, 2, 2, 0)
            }
            .calls(&[
                propose(0),
                Call::of(TEXT, 0, 0),
                captured,
                Call::of(TEXT, 1, 0),
                Call::of(TEXT, 0, 0),
            ]),
        ),
        (
            "no buffer for texts",
            Question {
                text: 0,
                ..q(2, 2, 2, 0)
            }
            .calls(&[
                Call::of(TEXT, 0, 0),
                propose(0),
                Call::of(TEXT, 0, 0),
                Call::of(TEXT, 1, 0),
            ]),
        ),
        (
            "a shorter text over a longer one",
            q(2, 1, 3, 0).calls(&[
                propose(0),
                captured,
                Call::of(TEXT, 1, 0),
                propose(2),
                Call::of(TEXT, 2, 0),
            ]),
        ),
        (
            "all vote no: Aborted at once",
            q(2, 1, 3, 0).chances(0, 1).calls(&[propose(1), captured]).all(&[1]),
        ),
        (
            "term 2^64 - 1: 13",
            q(2, 1, 2, 0)
                .with(|s| s.term = u64::MAX)
                .calls(&[propose(0), Call::of(13, 0, 0), captured]),
        ),
        (
            "64 positions",
            q(2, 1, 64, 0)
                .with(|s| s.slots = 3)
                .calls(&[propose(63), captured])
                .all(&[0, 63, 64]),
        ),
        ("a refused opening: no positions", q(2, 1, 0, 0).calls(&[propose(0)])),
        ("65 positions", q(2, 1, 65, 0).calls(&[propose(0)])),
        ("loss 1", q(2, 1, 2, 0).chances(3, 0).calls(&[propose(0)])),
        ("no repeats", q(1, 1, 2, 0).with(|s| s.repeats = 0).calls(&[piped])),
        ("no interval", q(1, 1, 2, 0).with(|s| s.interval = 0).calls(&[piped])),
        ("65 transactions", q(1, 1, 2, 65).calls(&[piped])),
    ]
}

/// A reading of what there is, or just beyond; seldom one that is the other kind's.
fn reading(r: &mut Prng, side: &Side) -> Call {
    let (n, t, pipeline) = (side.setup.n() as u64, side.setup.t, side.setup.is_pipeline());
    let beyond = u64::from(r.chance(1, 6));
    let v = r.below(n + beyond);
    let c = match r.below(8) {
        0 | 1 => Call::of(FIRST_READING + r.below(14), 0, 0),
        2 => Call::of(*r.pick(&[NODE, TEXT]), v, 0),
        k if pipeline || k == 3 => match r.below(6) {
            0 => Call::of(RECORD, r.below(t + 1), 0),
            1 => Call::of(LOG_LEN, v, 0),
            2 | 3 => Call::of(LOG_ENTRY, v, r.below(t + 1)),
            _ => Call::of(PENDING, v, r.below(t + 1)),
        },
        _ => Call::of(*r.pick(&[NODE, TEXT, 17]), v, 0),
    };
    if c.which == PENDING && !side.read(&c, &mut []).open.is_empty() {
        return Call { which: LOG_ENTRY, ..c };
    }
    c
}

/// A room, and calls each followed by readings.
fn drawn(r: &mut Prng) -> Question {
    let kind = 1 + r.below(2);
    let topology = 1 + r.below(5);
    let n = match r.below(8) {
        0 => 1 + r.index(64),
        _ => 1 + r.index(5),
    };
    let divisors: Vec<usize> = (1..=n).filter(|d| n % d == 0).collect();
    let argument = match topology {
        4 => *r.pick(&divisors),
        5 => 1 + r.index(3),
        _ => 0,
    };
    let t = r.below(6);
    let q = Question {
        topology,
        argument,
        ..Question::of(kind, 1, n, t)
    };
    let (repeats, slots, given) = (1 + r.below(2), 1 + r.below(12), r.chance(1, 3));
    let (interval, timeout) = (1 + r.below(6), 1 + r.below(20));
    let mut q = q
        .chances(*r.pick(&[0, 0, 1, 2, 4]), *r.pick(&[0, 0, 2, 3]))
        .words(r.next(), r.next() | 1, *r.pick(&[20, 600, 600, 600]))
        .with(|s| {
            s.links = links_of(topology, n, argument);
            (s.repeats, s.slots, s.given, s.interval, s.timeout) = (repeats, slots, given, interval, timeout);
        });
    let setup = q.setup.clone();
    let mut side = Side::open(&setup, 0);
    let mut on = (0, 0);
    let mut text = vec![0; q.text];
    for k in 0..3 + r.index(6) {
        let own = if kind == 1 { PIPELINE } else { CAPTURE };
        let which = match r.below(8) {
            _ if kind == 2 && k == 0 => PROPOSE,
            0 => 1 + r.below(3),
            1 | 2 if kind == 2 => PROPOSE,
            _ => own,
        };
        let c = Call {
            which,
            a: r.below(n as u64),
            b: on.0,
            c: on.1,
        };
        let said = side.call(&c, &mut text);
        if which == own && said.refusal == 0 {
            on = (said.numbers[0], said.numbers[1]);
        }
        q.calls.push(c);
        for _ in 0..5 {
            q.calls.push(reading(r, &side));
        }
    }
    q
}

/// The Rust's answers for the gate, always the same ones: no seed and no scale.
pub fn sample() {
    println!("# The Rust: {}", ctsim::SOURCE);
    println!("# kind T term interval bound seed timeout repeats slots given, loss, p, topology n argument, first word, step, words, row buffer, text buffer, calls");
    println!("# | refusal of the opening, what each call tells behind a comma, digest of the rows, text");
    for (name, q) in cases() {
        println!("# {name}");
        println!("{} | {}", q.asked(), q.answer());
    }
    println!("# drawn");
    let mut r = Prng::of(0, "sample room");
    for _ in 0..30 {
        let q = drawn(&mut r);
        println!("{} | {}", q.asked(), q.answer());
    }
}
