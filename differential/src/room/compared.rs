//! Our entry `room_run` beside what is due of it: every prefix of every list of calls is run anew, and behind its
//! calls stand readings.

use super::*;
use crate::capture::{payload_numbers, PAYLOAD as HELD_NUMBERS};
use crate::graph::random_rows_of;
use crate::oracle::rows_of_graph;
use crate::pipeline::numbers::{view, COUNT, CURSOR, METRICS, NODES, PAYLOAD, PAYLOADS, STATE, STATES, USED};
use crate::pipeline::View;
use crate::prng::Prng;
use crate::tally::Tally;
use crate::time;
use crate::Options;
use ctsim::network::NetworkGraph;
use std::collections::BTreeMap;

extern "C" {
    #[allow(clippy::too_many_arguments)]
    fn room_run(
        setup: *const u64,
        setup_count: usize,
        loss_rate: f64,
        abort_probability: f64,
        links: *const u64,
        links_count: usize,
        words: *const u64,
        words_count: usize,
        rows: *mut u64,
        rows_count: usize,
        calls: *const u64,
        calls_count: usize,
        told: *mut u64,
        told_count: usize,
        floats: *mut f64,
        floats_count: usize,
        text: *mut u8,
        text_count: usize,
        out: *mut u64,
        out_count: usize,
    ) -> u64;
}

/// What a list is filled with before it is lent.
const WAS: u64 = 0xA5A5_A5A5_A5A5_A5A5;
const WAS_FLOAT: f64 = -12345.678;
const WAS_BYTE: u8 = 0xA5;

/// The places of a call in the list of numbers and in that of floats.
const EACH: usize = 40;
const FLOATS: usize = 2;

/// Where the account of a room goes on behind the numbers of the pipeline's console.
const TERMS: usize = COUNT;
const HELD: usize = TERMS + 4;
const ACCOUNT: usize = HELD + 64 * HELD_NUMBERS;

type Met = BTreeMap<String, u64>;

fn met(m: &mut Met, what: &str) {
    *m.entry(what.to_string()).or_default() += 1;
}

/// How long the lists are that are lent.
#[derive(Clone, Copy)]
struct Lent {
    told: usize,
    floats: usize,
    text: usize,
    out: usize,
}

impl Lent {
    /// Places for so many calls.
    fn of(calls: usize, text: usize) -> Lent {
        Lent {
            told: EACH * calls,
            floats: FLOATS * calls,
            text,
            out: ACCOUNT,
        }
    }
}

/// Our answer, and the lists behind it.
#[derive(Debug, PartialEq)]
struct Ours {
    answer: u64,
    rows: Vec<u64>,
    told: Vec<u64>,
    floats: Vec<u64>,
    text: Vec<u8>,
    out: Vec<u64>,
}

/// A float by its bits; every NaN is one.
fn bits(x: f64) -> u64 {
    if x.is_nan() {
        f64::NAN.to_bits()
    } else {
        x.to_bits()
    }
}

impl Setup {
    /// Our answer to an opening and these calls; `rest` stands behind them, fewer numbers than a call has.
    fn ask(&self, calls: &[Call], rest: &[u64], lent: Lent) -> Ours {
        let setup = self.numbers();
        let mut numbers: Vec<u64> = calls.iter().flat_map(|c| [c.which, c.a, c.b, c.c]).collect();
        numbers.extend(rest);
        let (mut rows, mut out) = (vec![WAS; self.buffer], vec![WAS; lent.out]);
        let (mut told, mut floats) = (vec![WAS; lent.told], vec![WAS_FLOAT; lent.floats]);
        let mut text = vec![WAS_BYTE; lent.text];
        let answer = unsafe {
            room_run(
                setup.as_ptr(),
                setup.len(),
                self.loss,
                self.p,
                self.links.as_ptr(),
                self.links.len(),
                self.words.as_ptr(),
                self.words.len(),
                rows.as_mut_ptr(),
                rows.len(),
                numbers.as_ptr(),
                numbers.len(),
                told.as_mut_ptr(),
                told.len(),
                floats.as_mut_ptr(),
                floats.len(),
                text.as_mut_ptr(),
                text.len(),
                out.as_mut_ptr(),
                out.len(),
            )
        };
        let floats = floats.into_iter().map(bits).collect();
        Ours {
            answer,
            rows,
            told,
            floats,
            text,
            out,
        }
    }
}

/// The account of a capture room that is due, number for number: the pipeline's part is as opened, and so are
/// positions that are none.
fn capture_account(room: &Capture, proposed: bool) -> Vec<u64> {
    let mut out = vec![0; ACCOUNT];
    (out[0], out[1], out[3]) = (room.slot, room.next_row, room.bytes);
    out[METRICS + 2] = room.metrics.ce_timeouts;
    out[METRICS + 3] = room.metrics.rx_attempts;
    out[METRICS + 4] = room.metrics.rx_success;
    for (i, v) in room.nodes.iter().enumerate() {
        out[NODES + 8 * i..][..8].copy_from_slice(&node_numbers(v));
        out[HELD + HELD_NUMBERS * i..][..HELD_NUMBERS].copy_from_slice(&payload_numbers(&v.payload));
    }
    out[TERMS..HELD].copy_from_slice(&[
        room.protocol.current_term,
        room.initiator as u64,
        u64::from(proposed),
        u64::from(room.term_done),
    ]);
    out
}

/// The places of a call in a list, with what is due there: what it tells, and the rest as it was. What the Rust
/// leaves open is taken from ours.
fn due_numbers(s: &Said, ours: &[u64]) -> Vec<u64> {
    let mut due = vec![WAS; EACH];
    due[0] = s.refusal;
    due[1..][..s.numbers.len()].copy_from_slice(&s.numbers);
    for i in &s.open {
        due[1 + i] = ours[1 + i];
    }
    due
}

fn due_floats(s: &Said) -> Vec<u64> {
    let mut due = vec![bits(WAS_FLOAT); FLOATS];
    for (i, x) in s.floats.iter().enumerate() {
        due[i] = bits(*x);
    }
    due
}

struct Compared<'a> {
    t: &'a mut Tally,
    setup: &'a Setup,
    calls: &'a [Call],
}

impl Compared<'_> {
    fn is<T: PartialEq + std::fmt::Debug + ?Sized>(&mut self, kind: &str, ours: &T, due: &T) {
        let (s, calls) = (self.setup, self.calls);
        let size = s.n() * 100 + calls.len() * 10 + s.links.iter().map(|l| l.count_ones() as usize).sum::<usize>();
        self.t
            .same(kind, size, || format!("{calls:?} of {}", s.told()), &ours, &due);
    }

    /// What call i tells, in numbers and in floats.
    fn told(&mut self, kind: &str, o: &Ours, i: usize, s: &Said) {
        let (numbers, floats) = (&o.told[EACH * i..][..EACH], &o.floats[FLOATS * i..][..FLOATS]);
        self.is(
            kind,
            &(numbers, floats),
            &(&due_numbers(s, numbers)[..], &due_floats(s)[..]),
        );
    }

    /// The whole account after the last of the calls.
    fn account(&mut self, side: &Side, out: &[u64]) {
        let n = self.setup.n();
        match &side.room {
            Theirs::Capture { room, proposed } => {
                let due = capture_account(room, *proposed);
                self.is("capture: slot, next row, bytes, counts", &out[..NODES], &due[..NODES]);
                self.is("capture: nodes", &out[NODES..STATES], &due[NODES..STATES]);
                self.is("capture: the pipeline's part", &out[STATES..TERMS], &due[STATES..TERMS]);
                self.is(
                    "capture: term, initiator, proposed, raised",
                    &out[TERMS..HELD],
                    &due[TERMS..HELD],
                );
                self.is("capture: packets", &out[HELD..], &due[HELD..]);
            }
            Theirs::Pipeline { room, .. } => {
                let mut due = View {
                    rows: Vec::new(),
                    ..View::of(room)
                };
                due.clock.5 = 0;
                self.is("pipeline: rows used and cursor", &out[USED..=CURSOR], &[0, 0][..]);
                self.is("pipeline: room", &view(&out[..COUNT], &[], n), &due);
                self.is(
                    "pipeline: the terms as opened",
                    &out[TERMS..HELD],
                    &[self.setup.term, 0, 0, 0][..],
                );
                let parts = [
                    NODES + 8 * n..STATES,
                    STATES + STATE * n..PAYLOADS,
                    PAYLOADS + PAYLOAD * n..COUNT,
                    HELD..ACCOUNT,
                ];
                let rest = parts.into_iter().all(|p| out[p].iter().all(|x| *x == 0));
                self.is("pipeline: positions that are none, capture packets", &rest, &true);
            }
        }
    }
}

fn count_of(r: &mut Prng) -> usize {
    match r.below(24) {
        0 => 1 + r.index(64),
        1 => 64,
        2 | 3 => 1,
        4 => 7 + r.index(10),
        _ => 2 + r.index(5),
    }
}

fn links_of(r: &mut Prng, n: usize) -> Vec<u64> {
    match r.below(8) {
        0 => rows_of_graph(&NetworkGraph::full_mesh(n)),
        1 => rows_of_graph(&NetworkGraph::line(n)),
        2 => rows_of_graph(&NetworkGraph::ring(n)),
        3 => rows_of_graph(&NetworkGraph::tree(n, 1 + r.index(3))),
        _ => random_rows_of(r, n),
    }
}

fn some_words(r: &mut Prng) -> Vec<u64> {
    let count = match r.below(6) {
        0 => r.index(8),
        1 => r.index(80),
        _ => 600 + r.index(1500),
    };
    (0..count).map(|_| r.next()).collect()
}

fn setup_of(r: &mut Prng) -> Setup {
    let n = count_of(r);
    let kind = if r.chance(1, 2) {
        1
    } else {
        *r.pick(&[2, 2, 2, 2, 0, 3, u64::MAX])
    };
    let slots = match r.below(12) {
        0 => 0,
        1 => FOREVER + 1 + r.below(2),
        2 => u64::MAX,
        // a round that can be long: floods end by themselves, and a position alone is at its goal at once
        3 if n == 1 || kind == 1 => FOREVER - r.below(30),
        _ => 1 + r.below(if n > 16 { 6 } else { 16 }),
    };
    let repeats = 1 + r.below(3) + if r.chance(1, 8) { 1 << 32 } else { 0 };
    Setup {
        kind,
        links: links_of(r, n),
        t: *r.pick(&[0, 1, 2, 3, 5, 8, 64]),
        term: *r.pick(&[0, 0, 0, 7, u64::MAX - 2, u64::MAX - 1, u64::MAX]),
        interval: *r.pick(&[1, 1, 2, 3, 10, FOREVER, u64::MAX]),
        bound: *r.pick(&[FOREVER, FOREVER, FOREVER, 0, 5, 20]),
        loss: *r.pick(&[
            0.0,
            0.0,
            -0.0,
            0.3,
            0.3,
            0.9,
            1.0 - f64::EPSILON / 2.0,
            f64::from_bits(1),
        ]),
        p: *r.pick(&[0.0, 0.0, 0.0, 0.2, 1.0, f64::NAN, -1.0]),
        seed: if r.chance(1, 2) { r.below(5) } else { r.next() },
        timeout: *r.pick(&[0, 1, 2, 3, 10, u64::MAX]),
        repeats,
        slots,
        given: r.chance(1, 2),
        words: some_words(r),
        buffer: match r.below(5) {
            0 => r.index(12),
            1 => r.index(60),
            _ => 400 + r.index(400),
        },
    }
}

/// One or more things that an opening is refused for.
fn spoil(r: &mut Prng, s: &mut Setup) {
    loop {
        match r.below(7) {
            0 => {
                s.links = if r.chance(1, 2) {
                    Vec::new()
                } else {
                    vec![0; 65 + r.index(3)]
                }
            }
            1 if s.n() > 0 && s.n() < 64 => {
                let (i, j) = (r.index(s.n()), s.n() + r.index(64 - s.n()));
                s.links[i] |= 1 << j;
            }
            2 => {
                s.loss = *r.pick(&[
                    1.0,
                    -0.5,
                    f64::NAN,
                    f64::INFINITY,
                    -f64::from_bits(1),
                    f64::NEG_INFINITY,
                ])
            }
            3 => s.repeats = if r.chance(1, 2) { 0 } else { 1 << 32 },
            4 => s.interval = 0,
            5 => s.t = *r.pick(&[65, 66, u64::MAX]),
            _ => s.kind = 1,
        }
        if !s.refusals().is_empty() && r.chance(1, 2) {
            return;
        }
    }
}

// ---- which readings are asked ----

/// Some of 0 to count - 1, all of them if they are few.
fn some_of(r: &mut Prng, count: usize, few: usize) -> Vec<u64> {
    if count <= few {
        return (0..count as u64).collect();
    }
    (0..few).map(|_| r.below(count as u64)).collect()
}

fn shuffle<T>(r: &mut Prng, l: &mut [T]) {
    for i in (1..l.len()).rev() {
        l.swap(i, r.index(i + 1));
    }
}

/// Positions: all of a small room, some of a large one; and some that there are not.
fn positions_of(r: &mut Prng, n: usize) -> Vec<u64> {
    let mut all = some_of(r, n, 6);
    let n = n as u64;
    all.extend([n - 1, n, n + 1, *r.pick(&[64, 65, 1 << 32, u64::MAX])]);
    all.dedup();
    all
}

/// Places of a list of so many.
fn places_of(r: &mut Prng, count: usize) -> Vec<u64> {
    let mut all = some_of(r, count, 5);
    let count = count as u64;
    all.extend([count, *r.pick(&[count + 1, 63, 64, 1 << 32, u64::MAX])]);
    all
}

/// Transactions: those of the room, and others up to 63 and beyond. One time in 16 all.
fn transactions_of(r: &mut Prng, t: u64) -> Vec<u64> {
    if r.chance(1, 16) {
        return (0..66).collect();
    }
    let mut all = some_of(r, t as usize, 8);
    all.extend([t, r.below(64), *r.pick(&[63, 64, 65, 1 << 32, u64::MAX])]);
    all
}

/// Readings of all kinds, in any order.
fn readings_of(r: &mut Prng, side: &Side) -> Vec<Call> {
    let mut all: Vec<Call> = (FIRST_READING..NODE).map(|k| Call::of(k, r.next(), r.next())).collect();
    let recorded = side.metrics().proposals.len();
    all.extend(
        places_of(r, recorded)
            .into_iter()
            .map(|k| Call::of(RECORD, k, r.next())),
    );
    for v in positions_of(r, side.setup.n()) {
        all.extend([NODE, TEXT, LOG_LEN].map(|k| Call::of(k, v, r.next())));
        let log = match &side.room {
            Theirs::Pipeline { room, .. } => room.door.states().get(v.min(64) as usize).map_or(0, |s| s.log.len()),
            Theirs::Capture { .. } => 0,
        };
        // what is refused is refused for every place
        let (mut places, mut transactions) = (places_of(r, log), transactions_of(r, side.setup.t));
        if !side.setup.is_pipeline() || v >= side.setup.n() as u64 {
            places.truncate(1);
            transactions.truncate(1);
        }
        all.extend(places.into_iter().map(|k| Call::of(LOG_ENTRY, v, k)));
        all.extend(transactions.into_iter().map(|t| Call::of(PENDING, v, t)));
    }
    shuffle(r, &mut all);
    all
}

// ---- lists of calls ----

fn refused_opening(t: &mut Tally, m: &mut Met, r: &mut Prng, mut s: Setup) {
    spoil(r, &mut s);
    let all = s.refusals();
    let calls = [
        Call::of(PROPOSE, 0, 0),
        Call::of(CAPTURE + r.below(2), 0, 0),
        Call::of(r.below(24), 0, 0),
    ];
    let ours = s.ask(&calls, &[], Lent::of(3, 700));
    let mut c = Compared {
        t,
        setup: &s,
        calls: &calls,
    };
    c.is("a refused opening", &ours.answer, &all[0]);
    let kept = ours.rows.iter().chain(&ours.out).chain(&ours.told).all(|x| *x == WAS)
        && ours.floats.iter().all(|x| *x == bits(WAS_FLOAT))
        && ours.text.iter().all(|x| *x == WAS_BYTE);
    c.is("a refused opening writes nothing", &kept, &true);
    met(m, &format!("refusal {:02}", all[0]));
    if all.len() > 1 {
        met(m, "openings with several refusals true");
    }
}

/// A call, and mostly one that goes on where the last accepted round ended (`cursor`, `used`).
fn call_of(r: &mut Prng, s: &Setup, first: bool, (cursor, used): (u64, u64)) -> Call {
    let own = if s.is_pipeline() { PIPELINE } else { CAPTURE };
    let n = s.n() as u64;
    let which = match r.below(16) {
        4..=15 if first && !s.is_pipeline() => PROPOSE,
        0 => CAPTURE + PIPELINE - own,
        1 => *r.pick(&[0, 24, 25, 63, u64::MAX]),
        2 | 3 => FIRST_READING + r.below(20),
        4 | 5 => PROPOSE,
        6..=8 if !s.is_pipeline() => PROPOSE,
        _ => own,
    };
    let a = match r.below(12) {
        0 => n + r.below(2),
        1 => *r.pick(&[64, u64::MAX, 1 << 32]),
        _ => r.below(n),
    };
    let b = match r.below(16) {
        _ if which >= FIRST_READING => r.below(8),
        0 => s.words.len() as u64 - r.below(1 + s.words.len().min(4) as u64),
        1 => *r.pick(&[u64::MAX, u64::MAX - 1, s.words.len() as u64 + 1]),
        2 => r.below(10),
        _ => cursor.min(s.words.len() as u64),
    };
    let c = match r.below(16) {
        0 => s.buffer as u64 / 5 + r.below(2),
        1 => *r.pick(&[u64::MAX, 1 << 62, (1 << 63) / 5 + 1]),
        2 => r.below(4),
        _ => used.min(s.buffer as u64 / 5),
    };
    Call { which, a, b, c }
}

/// What is known of a call before it is made.
fn notice_before(m: &mut Met, side: &Side, c: &Call, text: usize) {
    let holds = side.refusals(c, text);
    if holds.len() > 1 {
        met(m, "calls with several refusals true");
    }
    if holds.first() == Some(&14) {
        let Theirs::Pipeline { room, .. } = &side.room else {
            unreachable!()
        };
        met(
            m,
            if room.stopped {
                "14, stopped"
            } else {
                "14, slot at the bound"
            },
        );
    }
    if holds.contains(&17) {
        met(m, "17 or less, used beyond the buffer");
    }
}

fn notice(m: &mut Met, side: &Side, c: &Call, said: &Said) {
    met(m, &format!("refusal {:02}", said.refusal));
    let round = c.which == CAPTURE || c.which == PIPELINE;
    if round && said.refusal != 0 {
        met(m, "rounds refused");
    }
    match &side.room {
        Theirs::Capture { room, .. } => {
            met(m, "calls of capture rooms");
            if round && said.refusal == 0 {
                met(m, "capture rounds accepted");
                if room.term_done {
                    met(m, "capture rounds accepted, goal reached in the term");
                }
            }
        }
        Theirs::Pipeline { room, .. } => {
            met(m, "calls of pipeline rooms");
            if round && said.refusal == 0 {
                met(m, "pipeline rounds accepted");
                if room.door.states().iter().any(|x| !x.log.is_empty()) {
                    met(m, "pipeline rounds accepted, with outcomes in the logs");
                }
            }
        }
    }
}

/// How often each reading was compared, and with which refusal.
fn notice_reading(m: &mut Met, c: &Call, said: &Said) {
    let name = READINGS[(c.which - FIRST_READING) as usize];
    met(m, &format!("reading {name}"));
    if said.refusal != 0 {
        met(m, &format!("reading {name}, refusal {:02}", said.refusal));
        return;
    }
    match c.which {
        11 | 12 if said.numbers[0] == 1 => met(m, &format!("reading {name}, a ratio")),
        17 => met(m, &format!("reading {name}, {}", OUTCOMES[said.numbers[0] as usize])),
        TEXT if said.numbers[0] > 0 => met(m, &format!("reading {name}, a text")),
        LOG_ENTRY | PENDING | RECORD if said.numbers[0] == 1 => met(m, &format!("reading {name}, there")),
        _ => {}
    }
}

/// A list of calls, and how far it has come.
struct List<'a> {
    setup: &'a Setup,
    side: Side<'a>,
    calls: Vec<Call>,
    /// what each call is to tell, and what ours told as the last of its prefix
    due: Vec<Said>,
    ours: Vec<Vec<u64>>,
    /// the buffer for texts, as the calls are to leave it
    text: Vec<u8>,
}

impl List<'_> {
    /// Where the next round would go on.
    fn call(&mut self, m: &mut Met, c: Call) -> Said {
        notice_before(m, &self.side, &c, self.text.len());
        let said = self.side.call(&c, &mut self.text);
        notice(m, &self.side, &c, &said);
        self.calls.push(c);
        self.due.push(said.clone());
        said
    }

    /// The calls so far once more, with readings behind them: all that ours tells and leaves, and the account.
    fn compare(&mut self, t: &mut Tally, m: &mut Met, r: &mut Prng, readings: &[Call]) {
        let k = self.calls.len();
        let mut calls = self.calls.clone();
        calls.extend(readings);
        let (rest, behind) = (r.below(4), r.index(3));
        let rest: Vec<u64> = (0..rest).collect();
        let mut lent = Lent::of(calls.len(), self.text.len());
        lent.told += behind;
        lent.floats += behind;
        lent.out += behind;
        let ours = self.setup.ask(&calls, &rest, lent);
        let mut c = Compared {
            t,
            setup: self.setup,
            calls: &calls,
        };
        c.is("answer", &ours.answer, &0);
        for (i, said) in self.due.iter().enumerate() {
            c.told("calls", &ours, i, said);
        }
        let mut text = self.text.clone();
        for (i, q) in readings.iter().enumerate() {
            let said = self.side.read(q, &mut text);
            let name = READINGS[(q.which - FIRST_READING) as usize];
            c.told(&format!("reading {name}"), &ours, k + i, &said);
            notice_reading(m, q, &said);
        }
        c.is("text", &ours.text, &text);
        c.is("rows", &ours.rows, &self.side.rows);
        c.account(&self.side, &ours.out[..ACCOUNT]);
        c.is(
            "numbers behind the account",
            &ours.out[ACCOUNT..],
            &vec![WAS; behind][..],
        );
        c.is(
            "numbers behind the told ones",
            &ours.told[EACH * calls.len()..],
            &vec![WAS; behind][..],
        );
        let floats = vec![bits(WAS_FLOAT); behind];
        c.is(
            "floats behind the told ones",
            &ours.floats[FLOATS * calls.len()..],
            &floats[..],
        );
        if r.chance(1, 64) {
            let short = Lent {
                told: r.index(lent.told),
                floats: r.index(lent.floats),
                out: r.index(ACCOUNT),
                ..lent
            };
            let due = Ours {
                told: ours.told[..short.told].to_vec(),
                floats: ours.floats[..short.floats].to_vec(),
                out: ours.out[..short.out].to_vec(),
                text: ours.text.clone(),
                rows: ours.rows.clone(),
                ..ours
            };
            c.is("lists cut short", &self.setup.ask(&calls, &rest, short), &due);
            met(m, "lists cut short");
        }
        if k > 0 {
            self.ours.push(ours.told[EACH * (k - 1)..][..EACH].to_vec());
        }
    }

    /// The text of one position, byte for byte, in a buffer that it fits, just fits or does not fit.
    fn compare_text(&self, t: &mut Tally, m: &mut Met, r: &mut Prng, v: u64) {
        let held = self.side.nodes().get(v as usize).map_or(0, |x| x.payload.len());
        let len = match r.below(4) {
            0 => held,
            1 => held.saturating_sub(1),
            2 => r.index(held + 1),
            _ => held + r.index(60),
        };
        // no call among them writes to the buffer but the last
        let none = |c: &Call| if c.which == TEXT { Call::of(0, 0, 0) } else { *c };
        let mut calls: Vec<Call> = self.calls.iter().map(none).collect();
        calls.push(Call::of(TEXT, v, r.next()));
        let ours = self.setup.ask(&calls, &[], Lent::of(calls.len(), len));
        let mut text = vec![WAS_BYTE; len];
        let said = self.side.read(&calls[calls.len() - 1], &mut text);
        let mut c = Compared {
            t,
            setup: self.setup,
            calls: &calls,
        };
        c.told("reading packet_text", &ours, calls.len() - 1, &said);
        c.is("bytes of a text", &ours.text, &text);
        notice_reading(m, &calls[calls.len() - 1], &said);
        if said.refusal == 0 && held > 0 {
            met(m, "texts compared byte for byte");
            if held == len {
                met(m, "texts compared byte for byte, the buffer just full");
            }
        }
    }

    /// All calls in one run against what each told as the last of its own.
    fn compare_whole(&self, t: &mut Tally) {
        let ours = self
            .setup
            .ask(&self.calls, &[], Lent::of(self.calls.len(), self.text.len()));
        let mut c = Compared {
            t,
            setup: self.setup,
            calls: &self.calls,
        };
        c.is("the whole list and its prefixes", &ours.told, &self.ours.concat());
    }
}

fn list(t: &mut Tally, m: &mut Met, r: &mut Prng, s: &Setup) {
    let side = Side::open(s, WAS);
    let mut l = List {
        setup: s,
        text: vec![WAS_BYTE; *r.pick(&[0, 90, 100, 170, 180, 200, 640, 640, 640, 700])],
        side,
        calls: Vec::new(),
        due: Vec::new(),
        ours: Vec::new(),
    };
    let mut on = (0, 0);
    for k in 0..=1 + r.index(12) {
        if k > 0 {
            let c = call_of(r, s, k == 1, on);
            let said = l.call(m, c);
            if said.refusal == 0 && (c.which == CAPTURE || c.which == PIPELINE) {
                on = (said.numbers[0], said.numbers[1]);
            }
        }
        let readings = readings_of(r, &l.side);
        l.compare(t, m, r, &readings);
        for v in some_of(r, s.n(), 6) {
            l.compare_text(t, m, r, v);
        }
    }
    l.compare_whole(t);
}

/// A proposal and its round to the goal, in a mesh of 64. Ours opens the room and writes its whole account besides,
/// the Rust does neither.
fn times() {
    let n = 64;
    for seed in 1..=5 {
        let mut r = Prng::of(seed, "room times");
        let s = Setup {
            kind: 2,
            links: rows_of_graph(&NetworkGraph::full_mesh(n)),
            t: 0,
            term: 0,
            interval: FOREVER,
            bound: FOREVER,
            loss: 0.3,
            p: 0.0,
            seed: 0,
            timeout: 10,
            repeats: 1,
            slots: 100_000,
            given: true,
            words: (0..400_000).map(|_| r.next()).collect(),
            buffer: 5,
        };
        let calls = [Call::of(PROPOSE, 0, 0), Call::of(CAPTURE, 0, 0)];
        let mut room = s.open_capture();
        let rng = ChaCha8Rng::of_words(&s.words, 0);
        let mut theirs = || {
            let mut g = rng.clone();
            room.propose(0);
            let ran = room.run(room.round_slots, &mut g);
            (ran.0, ran.1, g.cursor())
        };
        let mut ours = || s.ask(&calls, &[], Lent::of(2, 0));
        let (o, (end, met, cursor)) = (ours(), theirs());
        assert_eq!(
            (o.answer, o.told[EACH], o.out[0], o.told[EACH + 1], met),
            (0, 0, end, cursor, true)
        );
        time::beside(
            &format!("proposal and round of a room of 64, mesh, seed {seed} ({end} slots, {cursor} words)"),
            &mut || {
                std::hint::black_box(ours());
            },
            &mut || {
                std::hint::black_box(theirs());
            },
        );
    }
}

pub fn run(o: &Options) -> Tally {
    let mut t = Tally::new("room");
    if o.times_only {
        times();
        return t;
    }
    let mut m = Met::new();
    let mut r = Prng::of(o.seed, "room");
    for _ in 0..24_000 * o.scale {
        let s = setup_of(&mut r);
        met(&mut m, "openings");
        if r.chance(1, 8) {
            refused_opening(&mut t, &mut m, &mut r, s);
        } else {
            list(&mut t, &mut m, &mut r, &s);
        }
    }
    for (what, times) in &m {
        println!("room: {what}: {times}");
    }
    times();
    t
}
