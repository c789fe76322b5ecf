//! Part `room`: rooms of both kinds, opened and called by lists of calls, refused ones among them, and compared after
//! every call with the Rust's rooms: the whole account, and every reading. What is due is reckoned here, from the
//! Rust's rooms; what the rules add to the Rust (refusals, bytes sent, the progress raise) beside them and in oracle.rs.
//! The comparisons are in room/compared.rs.
#![cfg_attr(not(feature = "room"), allow(dead_code))]

use crate::capture::node_numbers;
use crate::oracle::{caught, config, counts, graph_of_rows, records, rows_since, Capture, PipelineRoom};
use ctsim::metrics::MetricsCollector;
use ctsim::node::Node;
use ctsim::protocol::two_pc_pipeline::{NodeTwoPcState, TwoPcState};
use ctsim::protocol::ProposalOutcome;
use rand_chacha::ChaCha8Rng;

#[cfg(feature = "room")]
mod compared;
#[cfg(feature = "room")]
pub use compared::run;
mod sample;
pub use sample::sample;

const FOREVER: u64 = u32::MAX as u64;

/// An opening, and what all calls of a list are lent.
#[derive(Clone, Debug)]
struct Setup {
    kind: u64,
    links: Vec<u64>,
    t: u64,
    term: u64,
    interval: u64,
    bound: u64,
    loss: f64,
    p: f64,
    seed: u64,
    timeout: u64,
    repeats: u64,
    slots: u64,
    given: bool,
    words: Vec<u64>,
    buffer: usize,
}

/// A call by its number, with its three arguments: a position or place, a cursor, place or transaction, and rows
/// used.
#[derive(Clone, Copy, Debug, PartialEq)]
struct Call {
    which: u64,
    a: u64,
    b: u64,
    c: u64,
}

const PROPOSE: u64 = 1;
const CAPTURE: u64 = 2;
const PIPELINE: u64 = 3;
const FIRST_READING: u64 = 4;
const NODE: u64 = 18;
const TEXT: u64 = 19;
const LOG_LEN: u64 = 20;
const LOG_ENTRY: u64 = 21;
const PENDING: u64 = 22;
const RECORD: u64 = 23;

/// The outcomes of a proposal by their numbers, from 1 on.
const OUTCOMES: [&str; 4] = ["", "Committed", "Aborted", "TimedOut"];

/// The readings by their numbers, from the first on.
const READINGS: [&str; 20] = [
    "kind",
    "num_nodes",
    "settings",
    "slot",
    "next_row",
    "bytes_sent",
    "metrics",
    "link_pdr",
    "flood_coverage",
    "term",
    "round",
    "stopped",
    "initiator",
    "proposal_outcome",
    "node",
    "packet_text",
    "log_len",
    "log_entry",
    "pending",
    "record",
];

impl Call {
    fn of(which: u64, a: u64, b: u64) -> Call {
        Call { which, a, b, c: 0 }
    }

    fn is_reading(&self) -> bool {
        (FIRST_READING..=RECORD).contains(&self.which)
    }
}

/// What a call is to tell: its refusal, the numbers behind it, and floats. The Rust says nothing of the numbers at
/// the places in `open`.
#[derive(Clone, Debug, Default, PartialEq)]
struct Said {
    refusal: u64,
    numbers: Vec<u64>,
    floats: Vec<f64>,
    open: Vec<usize>,
}

impl Said {
    fn refused(refusal: u64) -> Said {
        Said {
            refusal,
            ..Said::default()
        }
    }

    fn of(numbers: Vec<u64>) -> Said {
        Said {
            numbers,
            ..Said::default()
        }
    }

    fn one(x: u64) -> Said {
        Said::of(vec![x])
    }

    fn ratio(x: Option<f64>) -> Said {
        Said {
            numbers: vec![u64::from(x.is_some())],
            floats: x.into_iter().collect(),
            ..Said::default()
        }
    }
}

impl Setup {
    fn n(&self) -> usize {
        self.links.len()
    }

    fn is_pipeline(&self) -> bool {
        self.kind == 1
    }

    fn told(&self) -> String {
        let words = self.words.len();
        format!(
            "{:?} and {words} words",
            Setup {
                words: Vec::new(),
                ..self.clone()
            }
        )
    }

    /// The numbers of the opening.
    fn numbers(&self) -> [u64; 10] {
        [
            self.kind,
            self.t,
            self.term,
            self.interval,
            self.bound,
            self.seed,
            self.timeout,
            self.repeats,
            self.slots,
            u64::from(self.given),
        ]
    }

    /// All conditions of RULES 15 for a refused opening that hold.
    fn refusals(&self) -> Vec<u64> {
        let n = self.n();
        let size = (1..=64).contains(&n);
        let beyond = size && self.links.iter().any(|l| n < 64 && l >> n != 0);
        let holds = [
            !size,
            beyond,
            !(self.loss >= 0.0 && self.loss < 1.0),
            self.is_pipeline() && self.repeats as u32 == 0,
            self.interval == 0,
            self.t > 64,
        ];
        (2..8).zip(holds).filter(|x| x.1).map(|x| x.0).collect()
    }

    fn length(&self) -> u64 {
        if self.given || !self.is_pipeline() {
            return self.slots;
        }
        let reckoned = (graph_of_rows(&self.links).diameter() as u64 + 2) * u64::from(self.repeats as u32);
        reckoned.max(3)
    }

    fn open_capture(&self) -> Capture {
        Capture::open(
            graph_of_rows(&self.links),
            self.term,
            self.p,
            self.seed,
            self.loss,
            self.timeout,
            self.slots,
            self.interval,
        )
    }

    fn open_pipeline(&self) -> PipelineRoom {
        let slots = self.given.then_some(self.slots);
        let c = config(
            self.n(),
            self.t as usize,
            self.p,
            self.loss,
            self.repeats as u32,
            slots,
            self.interval,
            self.bound,
        );
        PipelineRoom::open(c, graph_of_rows(&self.links), &self.words, 0)
    }
}

/// The Rust's room. That of a pipeline can't be copied: after a round that is to be refused it is opened anew, and
/// its accepted rounds are run again.
enum Theirs {
    Capture {
        room: Capture,
        proposed: bool,
    },
    Pipeline {
        room: PipelineRoom,
        cursors: Vec<u64>,
        /// the round in which each transaction was generated
        born: Vec<u64>,
    },
}

struct Side<'a> {
    setup: &'a Setup,
    length: u64,
    room: Theirs,
    rows: Vec<u64>,
}

fn committed(s: TwoPcState) -> u64 {
    assert!(s != TwoPcState::Prepare);
    u64::from(s == TwoPcState::Committed)
}

fn marks_of(bits: &[bool]) -> u64 {
    bits.iter().enumerate().fold(0, |m, (i, b)| m | u64::from(*b) << i)
}

impl<'a> Side<'a> {
    /// A room as opened; the row buffer holds `was` everywhere.
    fn open(setup: &'a Setup, was: u64) -> Side<'a> {
        let room = if setup.is_pipeline() {
            Theirs::Pipeline {
                room: setup.open_pipeline(),
                cursors: Vec::new(),
                born: Vec::new(),
            }
        } else {
            Theirs::Capture {
                room: setup.open_capture(),
                proposed: false,
            }
        };
        Side {
            setup,
            length: setup.length(),
            room,
            rows: vec![was; setup.buffer],
        }
    }

    fn nodes(&self) -> &[Node] {
        match &self.room {
            Theirs::Capture { room, .. } => &room.nodes,
            Theirs::Pipeline { room, .. } => &room.core.nodes,
        }
    }

    fn metrics(&self) -> &MetricsCollector {
        match &self.room {
            Theirs::Capture { room, .. } => &room.metrics,
            Theirs::Pipeline { room, .. } => &room.core.metrics,
        }
    }

    /// Slot, next row slot, bytes sent.
    fn clock(&self) -> (u64, u64, u64) {
        match &self.room {
            Theirs::Capture { room, .. } => (room.slot, room.next_row, room.bytes),
            Theirs::Pipeline { room, .. } => (room.core.current_slot, room.core.next_snapshot, room.bytes),
        }
    }

    /// The conditions of RULES 15 for this call that hold in the present state, but for 16 and the rows of 17. A text is to be
    /// written to a buffer of so many bytes.
    fn refusals(&self, c: &Call, text: usize) -> Vec<u64> {
        let mut k = Vec::new();
        let mut test = |number: u64, holds: bool| {
            if holds {
                k.push(number);
            }
        };
        let (n, which, pipeline) = (self.setup.n() as u64, c.which, self.setup.is_pipeline());
        test(8, (which == PROPOSE || (NODE..RECORD).contains(&which)) && c.a >= n);
        let held = self.nodes().get(c.a.min(64) as usize).map_or(0, |v| v.payload.len());
        test(10, which == TEXT && held > text);
        let own = [PIPELINE, 14, 15, LOG_LEN, LOG_ENTRY, PENDING, RECORD];
        match &self.room {
            Theirs::Capture { room, proposed } => {
                test(11, own.contains(&which));
                test(12, (which == CAPTURE || which == 16) && !proposed);
                test(13, which == PROPOSE && room.protocol.current_term == u64::MAX);
            }
            Theirs::Pipeline { room, .. } => {
                test(11, [PROPOSE, CAPTURE, 13, 17].contains(&which));
                test(
                    14,
                    which == PIPELINE && (room.stopped || room.core.current_slot >= self.setup.bound),
                );
            }
        }
        if which == if pipeline { PIPELINE } else { CAPTURE } {
            let end = u128::from(self.clock().0) + u128::from(self.length);
            test(15, end > u128::from(FOREVER));
            test(17, c.c > self.rows.len() as u64 / 5);
        }
        k
    }

    /// Whether so many numbers of new rows fit behind the used ones.
    fn fits(&self, used: u64, new: usize) -> bool {
        used <= self.rows.len() as u64 / 5 && 5 * used as usize + new <= self.rows.len()
    }

    fn write(&mut self, used: u64, new: &[u64]) {
        self.rows[5 * used as usize..][..new.len()].copy_from_slice(new);
    }

    fn replay(&mut self) {
        if let Theirs::Pipeline { room, cursors, .. } = &mut self.room {
            let mut anew = self.setup.open_pipeline();
            for c in cursors.iter() {
                anew.core.rng = ChaCha8Rng::of_words(&self.setup.words, *c);
                anew.round().expect("a round that was run before");
            }
            *room = anew;
        }
    }

    /// A round of the room's own kind, which no lower number refuses: its refusal, or the new rows and the cursor.
    fn ran(&mut self, c: &Call) -> Result<(Vec<u64>, u64), u64> {
        let words = &self.setup.words;
        match &mut self.room {
            Theirs::Capture { room, .. } => {
                let mut rng = ChaCha8Rng::of_words(words, c.b);
                let before = room.metrics.snapshots.len();
                let ran = caught(|| room.run(room.round_slots, &mut rng.clone())).map_err(|_| 16u64)?;
                let new = rows_since(&ran.3, before);
                if !self.fits(c.c, new.len()) {
                    return Err(17);
                }
                let Theirs::Capture { room, .. } = &mut self.room else {
                    unreachable!()
                };
                room.round(&mut rng).expect("the words were there");
                Ok((new, rng.cursor()))
            }
            Theirs::Pipeline { room, .. } => {
                let (before, round, generated) = (
                    room.core.metrics.snapshots.len(),
                    room.core.round_num,
                    room.door.tx_counter(),
                );
                room.core.rng = ChaCha8Rng::of_words(words, c.b);
                if room.round().is_err() {
                    self.replay();
                    return Err(16);
                }
                let (new, cursor) = (rows_since(&room.core.metrics, before), room.core.rng.cursor());
                let more = room.door.tx_counter() - generated;
                if !self.fits(c.c, new.len()) {
                    self.replay();
                    return Err(17);
                }
                let Theirs::Pipeline { cursors, born, .. } = &mut self.room else {
                    unreachable!()
                };
                cursors.push(c.b);
                born.extend((0..more).map(|_| round));
                Ok((new, cursor))
            }
        }
    }

    /// The room makes the call. `text` is the buffer that is lent for texts.
    fn call(&mut self, c: &Call, text: &mut [u8]) -> Said {
        let round = c.which == CAPTURE || c.which == PIPELINE;
        let kept = |k: u64| Said {
            refusal: k,
            numbers: if round { vec![c.b, c.c] } else { Vec::new() },
            ..Said::default()
        };
        if c.is_reading() {
            return self.read(c, text);
        }
        if let Some(k) = self.refusals(c, 0).into_iter().filter(|k| *k < 16).min() {
            return kept(k);
        }
        match (c.which, &mut self.room) {
            (PROPOSE, Theirs::Capture { room, proposed }) => {
                room.propose(c.a as usize);
                *proposed = true;
                Said::default()
            }
            (CAPTURE | PIPELINE, _) => match self.ran(c) {
                Err(k) => kept(k),
                Ok((new, cursor)) => {
                    self.write(c.c, &new);
                    Said::of(vec![cursor, c.c + new.len() as u64 / 5])
                }
            },
            _ => Said::default(),
        }
    }

    // ---- readings ----

    /// A reading, which changes nothing but the buffer for texts.
    fn read(&self, c: &Call, text: &mut [u8]) -> Said {
        if let Some(k) = self.refusals(c, text.len()).into_iter().min() {
            let numbers = match c.which {
                // an outcome is one of three; what is refused is beside the one that says least
                17 => vec![3],
                NODE => vec![0; 8],
                LOG_ENTRY => vec![0; 3],
                PENDING => vec![0; 37],
                RECORD => vec![0; 5],
                _ => vec![0],
            };
            return Said {
                numbers,
                ..Said::refused(k)
            };
        }
        if c.which < NODE {
            return self.read_whole(c.which);
        }
        let v = c.a.min(64) as usize;
        match (c.which, &self.room) {
            (NODE, _) => Said::of(node_numbers(&self.nodes()[v]).to_vec()),
            (TEXT, _) => {
                let held = &self.nodes()[v].payload;
                text[..held.len()].copy_from_slice(held);
                Said::one(held.len() as u64)
            }
            (_, Theirs::Pipeline { room, born, .. }) => {
                let states = room.door.states();
                match c.which {
                    LOG_LEN => Said::one(states[v].log.len() as u64),
                    LOG_ENTRY => Said::of(match states[v].log.get(c.b.min(64) as usize) {
                        Some((t, o)) => vec![1, *t, committed(*o)],
                        None => vec![0; 3],
                    }),
                    PENDING => pending(&states[v], born, c.b),
                    _ => Said::of(record(room, c.a)),
                }
            }
            _ => unreachable!(),
        }
    }

    fn read_whole(&self, which: u64) -> Said {
        let (s, m, clock) = (self.setup, self.metrics(), self.clock());
        match (which, &self.room) {
            (4, _) => Said::one(if s.is_pipeline() { 1 } else { 2 }),
            (5, _) => Said::one(s.n() as u64),
            (6, _) => Said {
                floats: vec![s.loss, s.p],
                ..Said::of(vec![
                    s.seed,
                    s.timeout,
                    u64::from(s.repeats as u32),
                    s.slots,
                    u64::from(s.given),
                ])
            },
            (7, _) => Said::one(clock.0),
            (8, _) => Said::one(clock.1),
            (9, _) => Said::one(clock.2),
            (10, _) => Said::of(counts(m).to_vec()),
            (11, _) => Said::ratio(m.link_pdr()),
            (12, _) => Said::ratio(m.flood_coverage()),
            (13, Theirs::Capture { room, .. }) => Said::one(room.protocol.current_term),
            (14, Theirs::Pipeline { room, .. }) => Said::one(room.core.round_num),
            (15, Theirs::Pipeline { room, .. }) => Said::one(u64::from(room.stopped)),
            (16, Theirs::Capture { room, .. }) => Said::one(room.initiator as u64),
            (16, Theirs::Pipeline { room, .. }) => Said::one(room.core.initiator() as u64),
            (17, Theirs::Capture { room, .. }) => Said::one(match room.graded() {
                ProposalOutcome::Committed => 1,
                ProposalOutcome::Aborted => 2,
                ProposalOutcome::TimedOut => 3,
            }),
            _ => unreachable!(),
        }
    }
}

/// What a position holds of transaction t: whether it is pending, abort, votes, start round, data. Of what it has
/// logged the Rust keeps neither abort nor votes.
fn pending(s: &NodeTwoPcState, born: &[u64], t: u64) -> Said {
    let mut numbers = vec![0; 37];
    numbers[3] = born.get(t.min(64) as usize).copied().unwrap_or(0);
    let mut open = Vec::new();
    if let Some(p) = s.pending.iter().find(|p| p.tx_id == t) {
        assert!(p.start_round == numbers[3]);
        numbers[..3].copy_from_slice(&[1, u64::from(p.abort_flag), marks_of(&p.bitmap)]);
        numbers[4] = p.data.len() as u64;
        for (i, b) in p.data.iter().enumerate() {
            numbers[5 + i] = u64::from(*b);
        }
    } else if s.log.iter().any(|e| e.0 == t) {
        open = vec![1, 2];
    }
    Said {
        numbers,
        open,
        ..Said::default()
    }
}

/// The record at place k. Where there is none, the slots are those of transaction 0.
fn record(room: &PipelineRoom, k: u64) -> Vec<u64> {
    let all = records(&room.core.metrics);
    if let Some((t, start, end, yes)) = all.get(k.min(64) as usize) {
        return vec![1, *t, u64::from(*yes), *start, *end];
    }
    let end = all.iter().find(|r| r.0 == 0).map_or(0, |r| r.2);
    vec![0, 0, 0, room.door.tx_start(0).unwrap_or(0), end]
}
