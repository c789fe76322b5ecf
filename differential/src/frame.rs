//! Part `frame`: frame lines through the program `planner`, each listing line compared. The bytes sent are those of the Rust's own rounds, and
//! refusal 16 is the word that it lacks; the other refusals are the conditions of RULES 15, asked here in the order of their numbers.

use crate::oracle::{caught, config, Capture, PipelineRoom};
use crate::prng::Prng;
use crate::tally::Tally;
use crate::time;
use crate::Options;
use ctsim::network::NetworkGraph;
use rand_chacha::ChaCha8Rng;
use std::collections::BTreeMap;
use std::io::{Read, Write};
use std::os::fd::OwnedFd;
use std::os::unix::net::UnixDatagram;
use std::process::{Command, Stdio};
use std::time::{Duration, Instant};

/// Row interval, slot bound, and the last slot number.
const LAST: u64 = u32::MAX as u64;
/// Digits that a line may have.
const DIGITS: usize = 60000;
/// Slots of one round that are looked at one by one; in a longer one nobody may act behind them.
const SHORT: u64 = 300;
/// Slots of one round that the Rust is made to run here; a longer one has to end earlier.
const LONG: u64 = 150_000;

#[derive(Clone, Debug)]
struct Frame {
    kind: u8,
    positions: u8,
    topology: u8,
    argument: u8,
    transactions: u8,
    /// repeats or listen timeout
    span: u32,
    slots: u32,
    loss: u64,
    abort: u64,
    seed: u64,
    name: Vec<u8>,
    words: Vec<u64>,
}

/// What the calls of a frame come to: 0 and the bytes sent, or the number of the refused one; words drawn by the accepted ones.
struct Ran {
    refusal: u64,
    bytes: u64,
    drawn: u64,
}

fn digit(b: u8) -> Option<u8> {
    match b {
        b'0'..=b'9' => Some(b - b'0'),
        b'A'..=b'F' => Some(b - b'A' + 10),
        _ => None,
    }
}

fn number(bytes: &[u8]) -> u64 {
    bytes.iter().fold(0, |n, b| n << 8 | u64::from(*b))
}

impl Frame {
    fn bytes(&self) -> Vec<u8> {
        let mut out = vec![self.kind, self.positions, self.topology, self.argument, self.transactions];
        out.extend(self.span.to_be_bytes());
        out.extend(self.slots.to_be_bytes());
        for x in [self.loss, self.abort, self.seed] {
            out.extend(x.to_be_bytes());
        }
        out.push(self.name.len() as u8);
        out.extend(&self.name);
        out.extend(self.words.iter().flat_map(|w| w.to_be_bytes()));
        out
    }

    fn line(&self) -> Vec<u8> {
        self.bytes().iter().flat_map(|b| [b >> 4, b & 15]).map(|d| b"0123456789ABCDEF"[d as usize]).collect()
    }

    /// None is refusal 1.
    fn read(line: &[u8]) -> Option<Frame> {
        if line.len() > DIGITS || line.len() % 2 == 1 {
            return None;
        }
        let digits = line.iter().map(|b| digit(*b)).collect::<Option<Vec<u8>>>()?;
        let b: Vec<u8> = digits.chunks(2).map(|d| d[0] << 4 | d[1]).collect();
        let count = usize::from(*b.get(37)?);
        let (name, words) = (b.get(38..38 + count)?, &b[38 + count..]);
        let fits = name.iter().all(|c| (0x21..=0x7e).contains(c));
        if count == 0 || !fits || words.len() % 8 != 0 || !(1..=2).contains(&b[0]) {
            return None;
        }
        Some(Frame {
            kind: b[0],
            positions: b[1],
            topology: b[2],
            argument: b[3],
            transactions: b[4],
            span: number(&b[5..9]) as u32,
            slots: number(&b[9..13]) as u32,
            loss: number(&b[13..21]),
            abort: number(&b[21..29]),
            seed: number(&b[29..37]),
            name: name.to_vec(),
            words: words.chunks(8).map(number).collect(),
        })
    }

    fn is_pipeline(&self) -> bool {
        self.kind == 1
    }

    fn n(&self) -> usize {
        usize::from(self.positions)
    }

    fn topology_fits(&self) -> bool {
        let (n, a) = (self.positions, self.argument);
        match self.topology {
            1..=3 => a == 0,
            4 => a != 0 && n % a == 0,
            t => t == 5,
        }
    }

    /// Refusals 2, 3, 4, 5 and 7, the lowest first, or 0.
    fn refusal(&self) -> u64 {
        let loss = f64::from_bits(self.loss);
        let conditions = [
            (2, !(2..=64).contains(&self.positions)),
            (3, !self.topology_fits()),
            (4, !(0.0..1.0).contains(&loss)),
            (5, self.is_pipeline() && self.span == 0),
            (7, self.transactions > 64),
        ];
        conditions.iter().find(|c| c.1).map_or(0, |c| c.0)
    }

    fn graph(&self) -> NetworkGraph {
        let (n, a) = (self.n(), usize::from(self.argument));
        match self.topology {
            1 => NetworkGraph::full_mesh(n),
            2 => NetworkGraph::line(n),
            3 => NetworkGraph::ring(n),
            4 => NetworkGraph::grid(a, n / a),
            _ => NetworkGraph::tree(n, a),
        }
    }

    fn capture_room(&self) -> Capture {
        let (p, loss) = (f64::from_bits(self.abort), f64::from_bits(self.loss));
        Capture::open(self.graph(), 0, p, self.seed, loss, self.span.into(), self.slots.into(), LAST)
    }

    fn given(&self) -> Option<u64> {
        (u64::from(self.slots) != LAST).then_some(self.slots.into())
    }

    fn pipeline_room(&self) -> PipelineRoom {
        let (p, loss) = (f64::from_bits(self.abort), f64::from_bits(self.loss));
        let settings = config(self.n(), self.transactions.into(), p, loss, self.span, self.given(), LAST, LAST);
        PipelineRoom::open(settings, self.graph(), &self.words, 0)
    }

    /// All proposals, one round each. None if that takes the Rust too long here.
    fn capture(&self) -> Option<Ran> {
        let (n, slots) = (self.n(), u64::from(self.slots));
        let mut room = self.capture_room();
        let mut rng = ChaCha8Rng::of_words(&self.words, 0);
        let mut cost = 0;
        let refused = |refusal, rng: &ChaCha8Rng| Some(Ran { refusal, bytes: 0, drawn: rng.cursor() });
        for k in 0..usize::from(self.transactions) {
            room.propose(k % n);
            if room.slot + slots > LAST {
                return refused(15, &rng);
            }
            let mut trial = rng.clone();
            let Ok((end, goal, ..)) = caught(|| room.run(slots.min(SHORT), &mut trial)) else {
                return refused(16, &rng);
            };
            let length = end - room.slot;
            cost += length * length * (n * n) as u64;
            if cost > 4_000_000 {
                return None;
            }
            if goal || slots <= SHORT {
                room.round(&mut rng).unwrap();
                continue;
            }
            cost += slots.min(LONG) * n as u64;
            if slots > LONG || cost > 4_000_000 {
                return None;
            }
            if room.long_round(SHORT, &mut rng)?.is_err() {
                return refused(16, &rng);
            }
        }
        Some(Ran { refusal: 0, bytes: room.bytes, drawn: rng.cursor() })
    }

    /// Rounds until stopped.
    fn pipeline(&self) -> Option<Ran> {
        let mut room = self.pipeline_room();
        let (n, repeats) = (self.n() as u64, u64::from(self.span));
        let length = self.given().unwrap_or(3.max((room.core.graph.diameter() as u64 + 2) * repeats));
        let mut cost = 0;
        while !room.stopped {
            let (slot, drawn) = (room.core.current_slot, room.core.rng.cursor());
            let refused = |refusal| Some(Ran { refusal, bytes: 0, drawn });
            if slot >= LAST {
                return refused(14);
            }
            if slot + length > LAST {
                return refused(15);
            }
            if length.min((n + 1) * repeats) > LONG {
                return None;
            }
            if room.round().is_err() {
                return refused(16);
            }
            cost += (room.core.current_slot - slot + 1) * n * n;
            if cost > 12_000_000 {
                return None;
            }
        }
        Some(Ran { refusal: 0, bytes: room.bytes, drawn: room.core.rng.cursor() })
    }

    fn ran(&self) -> Option<Ran> {
        match self.refusal() {
            0 if self.is_pipeline() => self.pipeline(),
            0 => self.capture(),
            refusal => Some(Ran { refusal, bytes: 0, drawn: 0 }),
        }
    }
}

/// A line, what it is for, and what is due for it.
#[derive(Clone)]
struct Item {
    kind: String,
    line: Vec<u8>,
    due: String,
    /// the frame, if it is one, and the refusal
    frame: Option<Frame>,
    refusal: u64,
}

impl Item {
    /// None if the Rust or the program would take too long.
    fn of(kind: &str, line: Vec<u8>) -> Option<Item> {
        assert!(!line.contains(&10));
        let frame = Frame::read(&line);
        let ran = match &frame {
            None => Ran { refusal: 1, bytes: 0, drawn: 0 },
            Some(f) => f.ran()?,
        };
        let due = match (&frame, ran.refusal) {
            (Some(f), 0) => format!("{} {}", String::from_utf8(f.name.clone()).unwrap(), ran.bytes),
            (_, k) => format!("refused {k}"),
        };
        Some(Item { kind: kind.into(), line, due, frame, refusal: ran.refusal })
    }

    fn told(&self) -> String {
        let shown = String::from_utf8_lossy(&self.line[..self.line.len().min(400)]).into_owned();
        format!("{} bytes, {shown:?}", self.line.len())
    }

    /// Its number came out of the Rust's rounds, not of the conditions of RULES 15.
    fn is_of_the_rust(&self) -> bool {
        self.refusal == 0 || self.refusal == 16
    }
}

// ---- frames that are well formed ----

const LOSSES: [u64; 9] = [
    0,
    0x8000_0000_0000_0000, // -0.0
    1,                     // the smallest number
    0x3FB9_9999_9999_999A, // 0.1
    0x3FD3_3333_3333_3333, // 0.3
    0x3FE0_0000_0000_0000, // 0.5
    0x3FEC_CCCC_CCCC_CCCD, // 0.9
    0x3FEF_FFFF_FFFF_FFFF, // the last below 1
    0x000F_FFFF_FFFF_FFFF,
];

const BAD_LOSSES: [u64; 10] = [
    0x3FF0_0000_0000_0000, // 1
    0x3FF0_0000_0000_0001,
    0x8000_0000_0000_0001, // the least below 0
    0xBFE0_0000_0000_0000, // -0.5
    0x7FF0_0000_0000_0000, // infinite
    0xFFF0_0000_0000_0000,
    0x7FF0_0000_0000_0001, // NaN
    0x7FF8_0000_0000_0000,
    0xFFF8_0000_0000_0000,
    u64::MAX,
];

const ABORTS: [u64; 12] = [
    0,
    0x8000_0000_0000_0000,
    0x3F40_624D_D2F1_A9FC, // 0.0005
    0x3FD0_0000_0000_0000, // 0.25
    0x3FE0_0000_0000_0000, // 0.5
    0x3FF0_0000_0000_0000, // 1
    0x4000_0000_0000_0000, // 2
    0xBFF0_0000_0000_0000, // -1
    0x7FF0_0000_0000_0000,
    0xFFF0_0000_0000_0000,
    0x7FF8_0000_0000_0000,
    u64::MAX,
];

const SEEDS: [u64; 4] = [0, u64::MAX, 0x61C8_8646_80B5_83EC, 0x61C8_8646_80B5_83EB];

fn words(r: &mut Prng, count: usize) -> Vec<u64> {
    const ENDS: [u64; 6] = [0, 1, u64::MAX, (1 << 63) - 1, 1 << 63, 1 << 11];
    match r.below(6) {
        0 => vec![0; count],
        1 => vec![u64::MAX; count],
        2 => (0..count).map(|_| *r.pick(&ENDS)).collect(),
        _ => (0..count).map(|_| r.next()).collect(),
    }
}

fn name(r: &mut Prng, count: usize) -> Vec<u8> {
    match r.below(4) {
        0 => vec![0x21; count],
        1 => vec![0x7e; count],
        _ => (0..count).map(|_| 0x21 + r.below(94) as u8).collect(),
    }
}

/// Words that still fit in a line with a name of so many bytes.
fn most_words(name: usize) -> usize {
    (DIGITS - 76 - 2 * name) / 16
}

fn argument(r: &mut Prng, topology: u8, n: u8) -> u8 {
    let divisors: Vec<u8> = (1..=n).filter(|d| n % d == 0).collect();
    match topology {
        4 => *r.pick(&divisors),
        5 => *r.pick(&[0, 1, 1, 2, 2, 3, 64, 255]),
        _ => 0,
    }
}

fn well_formed(r: &mut Prng) -> Frame {
    let kind = 1 + r.below(2) as u8;
    let positions = match r.below(8) {
        0 => 2,
        1 => *r.pick(&[63, 64]),
        2 => 2 + r.below(63) as u8,
        _ => 2 + r.below(8) as u8,
    };
    let topology = 1 + r.below(5) as u8;
    let transactions = match r.below(10) {
        0 => 0,
        1 => 64,
        2 => r.below(65) as u8,
        3..=5 => 1,
        _ => 1 + r.below(7) as u8,
    };
    let (span, slots) = if kind == 1 {
        let slots = match r.below(4) {
            0 => r.below(10) as u32,
            1 => u32::MAX - r.below(3) as u32,
            _ => u32::MAX,
        };
        (*r.pick(&[1, 1, 2, 2, 3, 4, 9]), slots)
    } else {
        let slots = match r.below(5) {
            0 => r.below(6) as u32,
            1 => u32::MAX - r.below(200) as u32,
            2 => 2000,
            _ => r.below(60) as u32,
        };
        (*r.pick(&[0, 1, 2, 3, 5, 10, 40, 100, u32::MAX]), slots)
    };
    let count = match r.below(12) {
        0 => 1,
        1 => 255,
        2 => r.index(255) + 1,
        _ => 1 + r.index(9),
    };
    let most = most_words(count);
    let lent = match r.below(8) {
        0 => 0,
        1 => r.index(12),
        2 | 3 => most,
        4 => r.index(most + 1),
        _ => 40 + r.index(400),
    };
    Frame {
        kind,
        positions,
        topology,
        argument: argument(r, topology, positions),
        transactions,
        span,
        slots,
        loss: if r.chance(1, 3) { 0 } else { *r.pick(&LOSSES) },
        abort: if r.chance(1, 2) { 0 } else { *r.pick(&ABORTS) },
        seed: if r.chance(1, 2) { r.next() } else { *r.pick(&SEEDS) },
        name: name(r, count),
        words: words(r, lent),
    }
}

/// A frame that is accepted and cheap, with few words.
fn plain(kind: u8, topology: u8, n: u8) -> Frame {
    Frame {
        kind,
        positions: n,
        topology,
        argument: u8::from(topology > 3),
        transactions: 1,
        span: if kind == 1 { 1 } else { 100 },
        slots: if kind == 1 { u32::MAX } else { 200 },
        loss: 0,
        abort: 0,
        seed: 0,
        name: b"end".to_vec(),
        words: vec![u64::MAX; 70],
    }
}

// ---- both ends of every field ----

fn ends(r: &mut Prng) -> Vec<(String, Frame)> {
    let mut out = Vec::new();
    for kind in [1, 2] {
        for topology in 1..=5 {
            let base = plain(kind, topology, 4);
            let mut add = |what: &str, change: &dyn Fn(&mut Frame)| {
                let mut f = base.clone();
                change(&mut f);
                out.push((format!("end of a field: {what}"), f));
            };
            for n in [0, 1, 2, 3, 63, 64, 65, 66, 255] {
                add("positions", &|f| f.positions = n);
            }
            for a in [0, 1, 2, 3, 4, 5, 254, 255] {
                add("argument", &|f| f.argument = a);
            }
            for t in [0, 1, 2, 63, 64, 65, 66, 255] {
                add("transactions", &|f| f.transactions = t);
            }
            for s in [0, 1, 2, 50, u32::MAX / 3 + 1, u32::MAX - 1, u32::MAX] {
                add("repeats or timeout", &|f| f.span = s);
            }
            for s in [0, 1, 2, 3, u32::MAX - 2, u32::MAX - 1, u32::MAX] {
                add("round slots", &|f| f.slots = s);
                add("round slots, two transactions", &|f| (f.slots, f.transactions) = (s, 2));
            }
            let drawn = words(r, 70);
            for l in LOSSES.iter().chain(&BAD_LOSSES) {
                add("loss", &|f| (f.loss, f.words) = (*l, drawn.clone()));
            }
            for a in ABORTS {
                add("abort probability", &|f| f.abort = a);
            }
            for s in SEEDS {
                add("seed", &|f| (f.seed, f.abort) = (s, ABORTS[2]));
            }
        }
        for t in [0, 1, 2, 3, 4, 5, 6, 7, 16, 254, 255] {
            out.push(("end of a field: topology".into(), Frame { topology: t, argument: 0, ..plain(kind, 1, 4) }));
        }
        for n in [1, 2, 254, 255] {
            for b in [0x21, 0x7e] {
                out.push(("end of a field: name".into(), Frame { name: vec![b; n], ..plain(kind, 2, 2) }));
            }
        }
        for n in [0, 1, 2, 3, 3744, 3745] {
            let w = vec![u64::MAX; n];
            out.push(("end of a field: words".into(), Frame { words: w, name: b"ww".to_vec(), ..plain(kind, 2, 2) }));
        }
    }
    for kind in [0, 1, 2, 3, 16, 32, 128, 255] {
        out.push(("end of a field: kind".into(), Frame { kind, ..plain(1, 2, 2) }));
        out.push(("end of a field: kind".into(), Frame { kind, positions: 0, ..plain(1, 2, 2) }));
    }
    out
}

// ---- faults, and damaged lines ----

type Fault = (&'static str, fn(&mut Prng, &mut Frame));

const FAULTS: [Fault; 12] = [
    ("kind", |r, f| f.kind = *r.pick(&[0, 3, 16, 128, 255])),
    ("no name", |_, f| f.name.clear()),
    ("a name's byte", |r, f| {
        let i = r.index(f.name.len().max(1));
        if let Some(b) = f.name.get_mut(i) {
            *b = *r.pick(&[0, 9, 10, 13, 0x20, 0x7f, 0x80, 0xa1, 0xff]);
        }
    }),
    ("positions", |r, f| f.positions = *r.pick(&[0, 1, 65, 66, 128, 255])),
    ("topology", |r, f| f.topology = *r.pick(&[0, 6, 7, 128, 255])),
    ("argument", |r, f| {
        f.argument = match f.topology {
            4 => *r.pick(&[0, f.positions.wrapping_add(1), 255]),
            _ => 1 + r.below(255) as u8,
        }
    }),
    ("loss", |r, f| f.loss = *r.pick(&BAD_LOSSES)),
    ("repeats 0", |_, f| f.span = 0),
    ("transactions", |r, f| f.transactions = *r.pick(&[65, 66, 128, 255])),
    ("rounds too long", |r, f| {
        f.transactions = f.transactions.max(2);
        f.slots = u32::MAX - u32::from(f.kind == 1) - r.below(2) as u32;
    }),
    ("floods too long", |r, f| (f.span, f.slots) = (u32::MAX - r.below(1 << 30) as u32, u32::MAX)),
    ("no words", |_, f| f.words.clear()),
];

type Damage = (&'static str, fn(&mut Prng, &mut Vec<u8>));

fn put(r: &mut Prng, line: &mut [u8], from: &[u8]) {
    let i = r.index(line.len());
    line[i] = *r.pick(from);
}

const DAMAGE: [Damage; 19] = [
    ("a lower-case digit", |r, l| {
        let upper: Vec<usize> = (0..l.len()).filter(|i| l[*i] > b'9').collect();
        let i = if upper.is_empty() { r.index(l.len()) } else { *r.pick(&upper) };
        l[i] = if upper.is_empty() { b'a' } else { l[i].to_ascii_lowercase() };
    }),
    ("all in lower case", |_, l| l.make_ascii_lowercase()),
    ("CR at the end", |_, l| l.push(13)),
    ("CR inside", |r, l| put(r, l, &[13])),
    ("NUL inside", |r, l| put(r, l, &[0])),
    ("NUL at the end", |_, l| l.push(0)),
    ("a byte beside the digits", |r, l| put(r, l, b"/:@G`ag")),
    ("any other byte", |r, l| {
        let i = r.index(l.len());
        l[i] = *r.pick(&[1, 9, 11, 12, 14, 27, 32, 45, 127, 128, 255, b'x', b'"']);
    }),
    ("cut", |r, l| l.truncate(r.index(80.min(l.len())))),
    ("the last digit missing", |_, l| {
        l.pop();
    }),
    ("two digits missing", |_, l| l.truncate(l.len() - 2)),
    ("a digit more", |_, l| l.push(b'0')),
    ("part of a word more", |r, l| l.extend(vec![b'A'; 2 * (1 + r.index(7))])),
    ("a blank in front", |_, l| l.insert(0, b' ')),
    ("0x in front", |_, l| {
        l.splice(0..0, *b"0x");
    }),
    ("a longer name than there is", |_, l| {
        l[74] = b'F';
        l[75] = b'E';
    }),
    ("a digit changed", |r, l| put(r, l, b"0123456789ABCDEF")),
    ("a digit of the first 76 changed", |r, l| {
        let i = r.index(76.min(l.len()));
        l[i] = *r.pick(b"0123456789ABCDEF");
    }),
    ("twice in one line", |_, l| {
        let again = l.clone();
        l.extend(again);
    }),
];

/// Lines at the limit and far beyond.
fn long_lines(r: &mut Prng, out: &mut Vec<(String, Vec<u8>)>) {
    let full =
        |name: usize, topology, kind| Frame { name: vec![b'L'; name], words: vec![u64::MAX; 3745], ..plain(kind, topology, 2) };
    for kind in [1, 2] {
        for topology in [1, 2, 3] {
            out.push(("60000 digits, well formed".into(), full(2, topology, kind).line()));
            out.push(("60002 digits, well formed but for that".into(), full(3, topology, kind).line()));
            let mut l = full(2, topology, kind).line();
            l.push(b'0');
            out.push(("60001 digits".into(), l));
            let mut l = full(2, topology, kind).line();
            l.push(13);
            out.push(("60000 digits and CR".into(), l));
        }
    }
    for (what, count) in [("65536 bytes", 65536), ("131072 bytes", 131_072), ("3000000 digits", 3_000_000)] {
        out.push((format!("a line of {what}"), vec![b'0'; count]));
        out.push((format!("a line of {what}, a frame in front"), {
            let mut l = plain(2, 2, 2).line();
            l.resize(count, b'F');
            l
        }));
    }
    let any: Vec<u8> = (0..5_000_000).map(|_| r.next() as u8).map(|b| if b == 10 { 11 } else { b }).collect();
    out.push(("a line of 5000000 bytes of any kind".into(), any));
}

fn faulty(r: &mut Prng, out: &mut Vec<(String, Vec<u8>)>) {
    let mut f = well_formed(r);
    f.words.truncate(60);
    let count = 1 + r.index(3);
    let mut what = Vec::new();
    for _ in 0..count {
        let (n, fault) = r.pick(&FAULTS);
        fault(r, &mut f);
        what.push(*n);
    }
    let what = if count == 1 { what[0] } else { "several at once" };
    out.push((format!("fault: {what}"), f.line()));
}

fn damaged(r: &mut Prng, out: &mut Vec<(String, Vec<u8>)>) {
    let mut f = well_formed(r);
    f.words.truncate(30);
    let mut l = f.line();
    let (what, damage) = r.pick(&DAMAGE);
    damage(r, &mut l);
    out.push((format!("damaged: {what}"), l));
}

/// The same frame with exactly the words that it draws, one fewer, one more.
fn exact_words(r: &mut Prng, out: &mut Vec<(String, Vec<u8>)>) {
    let mut f = well_formed(r);
    f.words = words(r, most_words(f.name.len()));
    let Some(Ran { refusal: 0, drawn, .. }) = f.ran() else {
        return;
    };
    let drawn = drawn as usize;
    if drawn == 0 || drawn == f.words.len() {
        return;
    }
    for (what, count) in [("exactly the words drawn", drawn), ("one word fewer", drawn - 1), ("one word more", drawn + 1)] {
        let w = f.words[..count].to_vec();
        out.push((what.into(), Frame { words: w, ..f.clone() }.line()));
    }
}

/// Rounds of thousands of slots in which, for the most part, nothing but ticks happens: long timeouts, positions that nobody hears, many repeats.
fn long_rounds(r: &mut Prng, out: &mut Vec<(String, Vec<u8>)>) {
    let kind = 1 + r.below(2) as u8;
    let topology = 1 + r.below(5) as u8;
    let positions = 2 + r.below(5) as u8;
    let much = |r: &mut Prng| *r.pick(&[301, 999, 5000, 20_000]) + r.below(10_000) as u32;
    let (span, slots) = if kind == 1 {
        let repeats = much(r);
        (repeats, *r.pick(&[u32::MAX, u32::MAX, repeats / 2, repeats + 1, repeats * 3]))
    } else {
        let timeout = *r.pick(&[150, 500, 3000, 30_000, u32::MAX]);
        (timeout, much(r))
    };
    let f = Frame {
        positions,
        argument: argument(r, topology, positions),
        transactions: r.below(4) as u8,
        span,
        slots,
        loss: *r.pick(&[0, 0, LOSSES[1], LOSSES[4], LOSSES[7]]),
        abort: *r.pick(&ABORTS),
        seed: r.next(),
        words: words(r, 200),
        ..plain(kind, topology, positions)
    };
    out.push((format!("long rounds, kind {kind}"), f.line()));
}

fn lines(seed: u64, scale: u64) -> Vec<(String, Vec<u8>)> {
    let mut r = Prng::of(seed, "frames");
    let mut out: Vec<(String, Vec<u8>)> = ends(&mut r).into_iter().map(|(k, f)| (k, f.line())).collect();
    out.push(("empty".into(), Vec::new()));
    long_lines(&mut r, &mut out);
    for _ in 0..200 * scale {
        long_rounds(&mut r, &mut out);
    }
    for k in 0..600 * scale {
        out.push(("drawn".into(), well_formed(&mut r).line()));
        faulty(&mut r, &mut out);
        if k % 2 == 0 {
            damaged(&mut r, &mut out);
            exact_words(&mut r, &mut out);
        }
        if k % 40 == 0 {
            out.push(("empty".into(), Vec::new()));
        }
    }
    // in any order, so that nothing hangs on the line before
    for i in (1..out.len()).rev() {
        out.swap(i, r.index(i + 1));
    }
    out
}

fn items(seed: u64, scale: u64) -> Vec<Item> {
    let drawn = lines(seed, scale);
    let all = drawn.len();
    let kept: Vec<Item> = drawn.into_iter().filter_map(|(k, l)| Item::of(&k, l)).collect();
    println!(
        "frame: {} lines, {} more were left out since the Rust would run too long",
        kept.len(),
        all - kept.len()
    );
    kept
}

// ---- the program ----

fn planner() -> String {
    std::env::var("PLANNER").expect("the part frame wants the program's path in PLANNER")
}

/// What the program prints for these pieces, each of which is written by itself.
fn fed(pieces: Vec<Vec<u8>>, pause: Option<Duration>) -> (Vec<u8>, bool) {
    let mut child = Command::new(planner()).stdin(Stdio::piped()).stdout(Stdio::piped()).spawn().expect("planner does not start");
    let mut input = child.stdin.take().unwrap();
    let writer = std::thread::spawn(move || {
        for p in pieces {
            if input.write_all(&p).is_err() {
                return;
            }
            if let Some(d) = pause {
                std::thread::sleep(d);
            }
        }
    });
    let mut out = Vec::new();
    child.stdout.take().unwrap().read_to_end(&mut out).unwrap();
    writer.join().unwrap();
    (out, child.wait().unwrap().success())
}

/// What the program prints if every piece is a read of its own: a read takes one datagram, and an empty one is the input's end.
fn fed_by_reads(pieces: &[&[u8]]) -> (Vec<u8>, bool) {
    let (ours, its) = UnixDatagram::pair().unwrap();
    let input = Stdio::from(OwnedFd::from(its));
    let mut child = Command::new(planner()).stdin(input).stdout(Stdio::piped()).spawn().expect("planner does not start");
    for p in pieces.iter().filter(|p| !p.is_empty()) {
        ours.send(p).unwrap();
    }
    ours.send(&[]).unwrap();
    let mut out = Vec::new();
    child.stdout.take().unwrap().read_to_end(&mut out).unwrap();
    (out, child.wait().unwrap().success())
}

fn input_of(items: &[Item], last_has_its_end: bool) -> Vec<u8> {
    let mut input = Vec::new();
    for (i, item) in items.iter().enumerate() {
        input.extend(&item.line);
        if last_has_its_end || i + 1 < items.len() {
            input.push(10);
        }
    }
    input
}

fn compare(t: &mut Tally, how: &str, items: &[Item], (out, well): (Vec<u8>, bool)) {
    let text = String::from_utf8_lossy(&out).into_owned();
    let lines: Vec<&str> = text.split_terminator('\n').collect();
    t.same(&format!("{how}: ends well"), 1, || format!("{} lines", items.len()), &well, &true);
    let whole = items.is_empty() || text.ends_with('\n');
    t.same(&format!("{how}: the last line has its end"), 1, || format!("{} lines", items.len()), &whole, &true);
    t.same(&format!("{how}: lines"), 1, || format!("{} lines", items.len()), &lines.len(), &items.len());
    for (item, ours) in items.iter().zip(lines) {
        t.same(&format!("{how}: {}", item.kind), item.line.len(), || item.told(), &ours, &item.due.as_str());
    }
}

fn pieces(r: &mut Prng, input: &[u8], most: usize) -> Vec<Vec<u8>> {
    let (mut out, mut at) = (Vec::new(), 0);
    while at < input.len() {
        let end = input.len().min(at + 1 + r.index(most));
        out.push(input[at..end].to_vec());
        at = end;
    }
    out
}

/// Inputs that end in all ways, whole.
fn last_lines(t: &mut Tally) {
    let a = "0202020001000000640000001400000000000000000000000000000000000000000000000005414C504841";
    let cases = [
        (String::new(), ""),
        ("\n".into(), "refused 1\n"),
        ("\n\n".into(), "refused 1\nrefused 1\n"),
        ("\r".into(), "refused 1\n"),
        ("\r\n".into(), "refused 1\n"),
        ("\0".into(), "refused 1\n"),
        ("0".into(), "refused 1\n"),
        (a.into(), "ALPHA 194\n"),
        (format!("{a}\n"), "ALPHA 194\n"),
        (format!("{a}\n\n"), "ALPHA 194\nrefused 1\n"),
        (format!("{a}\r\n"), "refused 1\n"),
        (format!("{a}\n\r"), "ALPHA 194\nrefused 1\n"),
        (format!("\n{a}"), "refused 1\nALPHA 194\n"),
        (format!("{a}\n{a}"), "ALPHA 194\nALPHA 194\n"),
        (format!("{}\n{a}", "0".repeat(4_000_000)), "refused 1\nALPHA 194\n"),
        ("0".repeat(4_000_000), "refused 1\n"),
    ];
    for (input, due) in cases {
        let (out, well) = fed(vec![input.clone().into_bytes()], None);
        let ours = (String::from_utf8_lossy(&out).into_owned(), well);
        let shown = || format!("{:?}", &input[..input.len().min(200)]);
        t.same("how an input ends", input.len(), shown, &ours, &(due.to_string(), true));
    }
}

/// Small inputs cut into two reads at every place, and into a read for each byte; lines about as long as a frame may be in reads of up to 4 KB, the
/// first of any length; and ten million random bytes.
fn cuts(t: &mut Tally, r: &mut Prng) {
    let a = "0202020001000000640000001400000000000000000000000000000000000000000000000005414C504841";
    let due = |input: &[u8]| -> String {
        let mut lines: Vec<&[u8]> = input.split(|b| *b == 10).collect();
        if lines.last().is_some_and(|l| l.is_empty()) {
            lines.pop();
        }
        lines.iter().map(|l| if *l == a.as_bytes() { "ALPHA 194\n" } else { "refused 1\n" }).collect()
    };
    let mut same = |input: &[u8], pieces: &[&[u8]]| {
        let (out, well) = fed_by_reads(pieces);
        let shown = || format!("{:?} in reads of {:?}", &input[..input.len().min(200)], pieces.iter().map(|p| p.len()).collect::<Vec<_>>());
        t.same("cut into reads", input.len(), shown, &(String::from_utf8_lossy(&out).into_owned(), well), &(due(input), true));
    };
    for input in [format!("{a}\n\n{a}"), format!("{a}\r\n{a}\n"), format!("{a}\n\r\0\n\0"), "\n\n\n".into(), format!("\r{a}\n{}", &a[1..])] {
        let input = input.as_bytes();
        for place in 0..=input.len() {
            same(input, &[&input[..place], &input[place..]]);
        }
        same(input, &input.chunks(1).collect::<Vec<_>>());
    }
    for long in [DIGITS - 1, DIGITS, DIGITS + 1, DIGITS + 2, 73_727, 73_728, 200_000] {
        let input = format!("{a}\n{}\n{a}", "0".repeat(long));
        let input = input.as_bytes();
        for _ in 0..20 {
            let (first, rest) = input.split_at(r.index(4096));
            same(input, &std::iter::once(first).chain(rest.chunks(1 + r.index(4096))).collect::<Vec<_>>());
        }
    }
    let noise: Vec<u8> = (0..10_000_000).map(|_| r.index(256) as u8).collect();
    let (out, well) = fed(vec![noise.clone()], None);
    t.same("random bytes", noise.len(), String::new, &(out == due(&noise).as_bytes(), well), &(true, true));
}

fn met(items: &[Item]) {
    let mut counts: BTreeMap<String, u64> = BTreeMap::new();
    let mut add = |what: String, is: bool| *counts.entry(what).or_default() += u64::from(is);
    const TOPOLOGIES: [&str; 5] = ["mesh", "line", "ring", "grid", "tree"];
    for i in items {
        add(format!("line: {}", i.kind), true);
        add(if i.refusal == 0 { "answer: bytes sent".into() } else { format!("answer: refused {:2}", i.refusal) }, true);
        let Some(f) = &i.frame else { continue };
        let kind = if f.is_pipeline() { "pipeline" } else { "capture" };
        if i.refusal > 0 {
            add(format!("{kind}: refused {:2}", i.refusal), true);
        } else {
            add(format!("{kind}: accepted, {}", TOPOLOGIES[f.topology as usize - 1]), true);
            add("accepted: 2 positions".into(), f.positions == 2);
            add("accepted: 64 positions".into(), f.positions == 64);
            add("accepted: no transaction".into(), f.transactions == 0);
            add("accepted: 64 transactions".into(), f.transactions == 64);
            add("accepted: name of 1 byte".into(), f.name.len() == 1);
            add("accepted: name of 255 bytes".into(), f.name.len() == 255);
            add("accepted: no word".into(), f.words.is_empty());
            add("accepted: 3745 words".into(), f.words.len() == 3745);
            add("accepted: 60000 digits".into(), i.line.len() == DIGITS);
            add("accepted: loss above 0".into(), f64::from_bits(f.loss) > 0.0);
            add("accepted: bytes sent above 0".into(), !i.due.ends_with(" 0"));
        }
    }
    for (what, times) in counts {
        println!("met: {what}: {times}");
    }
    println!("met: numbers that came out of the Rust's rounds: {}", items.iter().filter(|i| i.is_of_the_rust()).count());
}

/// Three pipeline rounds that end at the last slot, 2^32 - 1: the fourth is refused.
fn bound(t: &mut Tally) {
    let f = Frame { span: u32::MAX, slots: u32::MAX / 3, ..plain(1, 1, 2) };
    // the Rust with a bound of 15 and 5 slots a round: no stop, and the fourth round finds the bound
    let settings = config(2, 1, 0.0, 0.0, u32::MAX, Some(5), 15, 15);
    let mut room = PipelineRoom::open(settings, f.graph(), &f.words, 0);
    room.run().unwrap();
    t.same(
        "refusal 14, the Rust with a low bound",
        1,
        String::new,
        &(room.stopped, room.rounds, room.core.current_slot),
        &(false, 3, 15),
    );
    let start = Instant::now();
    let (out, _) = fed(vec![f.line(), b"\n".to_vec()], None);
    let told = || String::from_utf8(f.line()).unwrap();
    t.same("refusal 14", 1, told, &String::from_utf8_lossy(&out).into_owned(), &"refused 14\n".to_string());
    println!("met: answer: refused 14: 1 (4294967295 slots in {:.3} s)", start.elapsed().as_secs_f64());
}

pub fn run(o: &Options) -> Tally {
    let mut t = Tally::new("frame");
    if !o.times_only {
        let mut r = Prng::of(o.seed, "frame pieces");
        let all = items(o.seed, o.scale);
        compare(&mut t, "one process", &all, fed(vec![input_of(&all, true)], None));
        compare(&mut t, "last line without its end", &all[1..], fed(pieces(&mut r, &input_of(&all[1..], false), 100_000), None));
        let short: Vec<Item> = all.iter().filter(|i| i.line.len() < 3000).cloned().collect();
        let some = &short[..short.len().min(400)];
        compare(&mut t, "small pieces", some, fed(pieces(&mut r, &input_of(some, false), 60), None));
        let few: Vec<Item> = short.iter().filter(|i| i.line.len() < 400).take(16).cloned().collect();
        let bytes = input_of(&few, false).iter().map(|b| vec![*b]).collect();
        compare(&mut t, "a byte at a time", &few, fed(bytes, Some(Duration::from_micros(30))));
        last_lines(&mut t);
        cuts(&mut t, &mut r);
        met(&all);
        bound(&mut t);
    }
    times();
    t
}

/// A fixed list of lines for the gate, with what is due: `<` and a line of the program's input, `>` and the line that it has to print.
pub fn sample() {
    println!("# The Rust: {}", ctsim::SOURCE);
    println!("# made by differential/run --sample frame: < a line of input, > what is due for it");
    let mut drawn: Vec<(String, Vec<u8>)> = lines(0, 1);
    drawn.retain(|(_, l)| l.len() <= 1300);
    let mut times: BTreeMap<String, usize> = BTreeMap::new();
    let (mut of_the_rust, mut others, mut lacking) = (Vec::new(), Vec::new(), 0);
    for (kind, line) in drawn {
        let most = if kind == "drawn" { 150 } else { 16 };
        let seen = times.entry(kind.clone()).or_default();
        if *seen >= most {
            continue;
        }
        let Some(item) = Item::of(&kind, line) else { continue };
        *seen += 1;
        if item.refusal == 16 {
            lacking += 1;
            if lacking > 50 {
                continue;
            }
        }
        if item.is_of_the_rust() {
            of_the_rust.push(item);
        } else {
            others.push(item);
        }
    }
    others.truncate(160);
    of_the_rust.truncate(240);
    println!("# {} numbers of the Rust, {} of the conditions of RULES 15", of_the_rust.len(), others.len());
    let out = std::io::stdout();
    let mut out = out.lock();
    let mut both = vec![others.into_iter(), of_the_rust.into_iter()];
    // one of each in turn, and an accepted one as the last
    let mut all: Vec<Item> = Vec::new();
    loop {
        let before = all.len();
        for side in &mut both {
            all.extend(side.next());
        }
        if all.len() == before {
            break;
        }
    }
    let last = all.iter().rposition(|i| i.refusal == 0).unwrap();
    let last = all.remove(last);
    all.push(last);
    for item in all {
        out.write_all(b"<").unwrap();
        out.write_all(&item.line).unwrap();
        out.write_all(format!("\n>{}\n", item.due).as_bytes()).unwrap();
    }
}

// ---- times ----

/// The Rust on a frame line: read, room, rounds. It counts no bytes in capture rounds, since its rounds do not.
fn by_the_rust(line: &[u8]) -> u64 {
    let Some(f) = Frame::read(line) else { return 1 };
    let refusal = f.refusal();
    if refusal != 0 {
        return refusal;
    }
    if f.is_pipeline() {
        let mut room = f.pipeline_room();
        return if room.run().is_err() { 16 } else { room.bytes };
    }
    let mut room = f.capture_room();
    let mut rng = ChaCha8Rng::of_words(&f.words, 0);
    for k in 0..usize::from(f.transactions) {
        room.propose(k % f.n());
        let Ok((end, _, nodes, metrics, next_row)) = caught(|| room.run(f.slots.into(), &mut rng)) else {
            return 16;
        };
        (room.slot, room.nodes, room.metrics, room.next_row) = (end, nodes, metrics, next_row);
    }
    room.slot
}

/// Processor time of the program on these lines, its start included.
fn ours_in(input: &std::path::Path) -> f64 {
    let file = std::fs::File::open(input).unwrap();
    let start = time::used_by_others();
    let status = Command::new(planner()).stdin(file).stdout(Stdio::null()).status().unwrap();
    assert!(status.success());
    time::used_by_others() - start
}

fn times() {
    let mut r = Prng::of(1, "frame times");
    let loss = LOSSES[4];
    let many = |f: &Frame, count: usize, lent: usize, r: &mut Prng| -> Vec<Vec<u8>> {
        let drawn = (0..count).map(|_| Frame { words: (0..lent).map(|_| r.next()).collect(), ..f.clone() });
        drawn.map(|f| f.line()).collect()
    };
    let alpha = Frame { slots: 20, words: Vec::new(), name: b"ALPHA".to_vec(), ..plain(2, 2, 2) };
    let capture = |n, t| Frame { transactions: t, span: 10, slots: 400, loss, ..plain(2, 1, n) };
    let pipeline = |n, t| Frame { transactions: t, span: 2, loss, ..plain(1, 1, n) };
    let cases = [
        ("the frame ALPHA, no words", many(&alpha, 4000, 0, &mut r)),
        ("capture, mesh of 8, loss 0.3, timeout 10, T 4, 1000 words", many(&capture(8, 4), 300, 1000, &mut r)),
        ("capture, mesh of 16, loss 0.3, timeout 10, T 2, 3740 words", many(&capture(16, 2), 100, 3740, &mut r)),
        ("capture, mesh of 32, loss 0.3, timeout 10, T 1, 3740 words", many(&capture(32, 1), 40, 3740, &mut r)),
        ("pipeline, mesh of 2, loss 0, repeats 1, T 1, 10 words", {
            many(&Frame { transactions: 1, span: 1, ..plain(1, 1, 2) }, 2000, 10, &mut r)
        }),
        ("pipeline, mesh of 8, loss 0.3, repeats 2, T 8, 1000 words", many(&pipeline(8, 8), 300, 1000, &mut r)),
        ("pipeline, mesh of 16, loss 0.3, repeats 2, T 16, 3740 words", many(&pipeline(16, 16), 60, 3740, &mut r)),
        ("refused 1 at the last of 60000 digits", {
            let f = Frame { name: b"ww".to_vec(), ..plain(2, 2, 2) };
            let mut all = many(&f, 200, 3745, &mut r);
            all.iter_mut().for_each(|l| *l.last_mut().unwrap() = b'a');
            all
        }),
    ];
    let path = std::env::temp_dir().join(format!("frames.{}", std::process::id()));
    for (what, lines) in cases {
        let mut input = lines.join(&10);
        input.push(10);
        std::fs::write(&path, input).unwrap();
        let refused = {
            let (out, _) = fed(vec![std::fs::read(&path).unwrap()], None);
            String::from_utf8_lossy(&out).lines().filter(|l| l.starts_with("refused ")).count()
        };
        let (mut ours, mut theirs) = (f64::MAX, f64::MAX);
        for _ in 0..5 {
            ours = ours.min(ours_in(&path));
            let start = time::used();
            for l in &lines {
                std::hint::black_box(by_the_rust(l));
            }
            theirs = theirs.min(time::used() - start);
        }
        let count = lines.len() as f64;
        println!(
            "time: frames, {what} ({} lines, {refused} refused): ours {:.0} frames/s, the Rust {:.0} frames/s, ratio {:.2} (the Rust's time over ours)",
            lines.len(),
            count / ours,
            count / theirs,
            theirs / ours
        );
    }
    std::fs::remove_file(path).unwrap();
}
