//! Part `capture`: capture rounds on a state of numbers, compared with the Rust's `run_ce_round` after every slot. What the rules add to the
//! Rust (bytes sent, the progress raise, refusals) is computed here beside it.
#![cfg_attr(not(feature = "engines"), allow(dead_code))]

use crate::oracle::{Capture, HEADER};
use crate::prng::Prng;
use ctsim::node::{Node, NodeState};
use ctsim::protocol::two_pc_ce::{CeTwoPcPacket, TwoPcCePhase};

/// Where the parts of a state stand in its numbers.
pub const METRICS: usize = 8;
pub const NODES: usize = 16;
pub const HELD: usize = 528;
pub const PAYLOAD: usize = 38;
pub const NUMBERS: usize = HELD + 64 * PAYLOAD;

/// The 38 numbers of a payload: nothing, a text that nobody reads, or a packet.
pub fn payload_numbers(payload: &[u8]) -> Vec<u64> {
    let mut out = vec![0; PAYLOAD];
    if payload.is_empty() {
        return out;
    }
    let Ok(p) = serde_json::from_slice::<CeTwoPcPacket>(payload) else {
        out[0] = 1;
        return out;
    };
    out[0] = 2;
    out[1] = p.term;
    out[2] = match p.phase {
        TwoPcCePhase::Prepare => 0,
        TwoPcCePhase::Committed => 1,
        TwoPcCePhase::Aborted => 2,
    };
    out[3] = p.proposal_data.len() as u64;
    out[4] = p.flags_bitmap.len() as u64;
    out[5] = p
        .flags_bitmap
        .iter()
        .enumerate()
        .fold(0, |m, (i, b)| m | u64::from(*b) << i);
    for (i, b) in p.proposal_data.iter().enumerate() {
        out[6 + i] = u64::from(*b);
    }
    out
}

pub fn node_numbers(v: &Node) -> [u64; 8] {
    let state = match v.state {
        NodeState::Listen => 0,
        NodeState::Flood => 1,
        NodeState::Sleep => 2,
    };
    [
        state,
        u64::from(v.flood_remaining),
        v.last_progress_slot,
        u64::from(v.goal_reached),
        v.progress_count as u64,
        v.slots_listen,
        v.slots_flood,
        v.slots_sleep,
    ]
}

/// The numbers of a room of the Rust's: of its positions, and zeros behind them.
pub fn state_numbers(room: &Capture, used: u64, cursor: u64, goal: bool) -> Vec<u64> {
    let mut out = vec![0; NUMBERS];
    out[..6].copy_from_slice(&[room.slot, room.next_row, room.bytes, used, cursor, u64::from(goal)]);
    let m = &room.metrics;
    out[METRICS + 2] = m.ce_timeouts;
    out[METRICS + 3] = m.rx_attempts;
    out[METRICS + 4] = m.rx_success;
    for (i, v) in room.nodes.iter().enumerate() {
        out[NODES + 8 * i..][..8].copy_from_slice(&node_numbers(v));
        out[HELD + PAYLOAD * i..][..PAYLOAD].copy_from_slice(&payload_numbers(&v.payload));
    }
    out
}

/// The text of a payload by its numbers, as serde writes it; what nobody reads is "?".
pub fn payload_text(x: &[u64]) -> Vec<u8> {
    match x[0] {
        0 => Vec::new(),
        1 => b"?".to_vec(),
        _ => {
            assert!(x[4] == 64 || x[5] >> x[4] == 0, "a mark behind a bitmap's length");
            serde_json::to_vec(&CeTwoPcPacket {
                term: x[1],
                phase: [TwoPcCePhase::Prepare, TwoPcCePhase::Committed, TwoPcCePhase::Aborted][x[2] as usize],
                proposal_data: x[6..6 + x[3] as usize].iter().map(|b| *b as u8).collect(),
                flags_bitmap: (0..x[4]).map(|i| x[5] >> i & 1 == 1).collect(),
            })
            .unwrap()
        }
    }
}

/// What a position sends, behind a header: our engine holds no bytes of a text that nobody reads, and a room never
/// holds one.
fn sent_len(payload: &[u8]) -> u64 {
    if serde_json::from_slice::<CeTwoPcPacket>(payload).is_ok() {
        payload.len() as u64 + HEADER
    } else {
        HEADER
    }
}

#[cfg(feature = "engines")]
fn words(r: &mut Prng, count: usize) -> Vec<u64> {
    let like = r.below(8);
    (0..count)
        .map(|_| match like {
            0 => 0,
            1 => u64::MAX,
            2 => u64::MAX * r.below(2),
            3 => (1 << 63) - r.below(2),
            4 => r.number(),
            _ => r.next(),
        })
        .collect()
}

/// The Rust's answers for the gate's program engine_cases, always the same ones: no seed and no scale. A line that starts with `<` is one
/// of the program's input, one with `>` is due as its output; crates/engine_cases/src/main.rt says what the numbers mean.
pub fn sample() {
    println!("# The Rust: {}", ctsim::SOURCE);
    println!("# made by differential/run --sample capture | differential/engine_cases.py");
    let mut r = Prng::of(0, "sample capture");
    for k in 0..40 {
        sampled::room(&mut r, k);
    }
}

mod sampled {
    use super::*;
    use crate::oracle::{caught, rows_of_graph, rows_since};
    use ctsim::network::NetworkGraph;
    use rand_chacha::ChaCha8Rng;

    const LOSSES: [f64; 4] = [0.0, -0.0, 0.3, 0.96875];
    const ABORTS: [f64; 4] = [0.0, 1.0, 0.0005, 0.25];
    const BUFFER: usize = 600;
    const UNUSED: u64 = 7;
    const STEP: u64 = 0x9E37_79B9_7F4A_7C15;

    fn digest(xs: &[u64]) -> u64 {
        let low = 1u64 << 32;
        xs.iter().fold(0, |h, x| (h % low) * 1_000_003 + x % low + x / low)
    }

    fn topology(n: usize, number: u64, argument: usize) -> NetworkGraph {
        match number {
            1 => NetworkGraph::full_mesh(n),
            2 => NetworkGraph::line(n),
            3 => NetworkGraph::ring(n),
            4 => NetworkGraph::grid(argument, n / argument),
            _ => NetworkGraph::tree(n, argument),
        }
    }

    struct Sampled {
        room: Capture,
        words: Vec<u64>,
        used: u64,
        cursor: u64,
        goal: bool,
    }

    impl Sampled {
        fn state(&self) -> Vec<u64> {
            state_numbers(&self.room, self.used, self.cursor, self.goal)
        }

        /// One round into a buffer of so many numbers, by the Rust and by the refusals of RULES 15; the answer is printed.
        fn round(&mut self, slots: u64, numbers: usize) {
            println!("< 4 {} {slots} {numbers}", self.room.initiator);
            let mut rows = vec![UNUSED; BUFFER];
            let refusal = self.accepted(slots, numbers, &mut rows).err().unwrap_or(0);
            let state = self.state();
            let shown: Vec<String> = state[..6]
                .iter()
                .chain(&state[METRICS + 2..METRICS + 5])
                .map(u64::to_string)
                .collect();
            println!("> {refusal} {} {} {}", shown.join(" "), digest(&state), digest(&rows));
        }

        fn accepted(&mut self, slots: u64, numbers: usize, rows: &mut [u64]) -> Result<(), u64> {
            if self.room.slot + slots > u64::from(u32::MAX) {
                return Err(15);
            }
            let mut rng = ChaCha8Rng::of_words(&self.words, self.cursor);
            let (end, goal, nodes, metrics, next_row) = caught(|| self.room.run(slots, &mut rng)).map_err(|_| 16u64)?;
            let due = rows_since(&metrics, self.room.metrics.snapshots.len());
            let at = self.used as usize * 5;
            if at + due.len() > numbers {
                return Err(17);
            }
            rows[at..][..due.len()].copy_from_slice(&due);
            // Bytes sent (RULES 8.6): every flooding position of a slot whose goal test failed
            let last = end - self.room.slot - u64::from(goal);
            for k in 0..last {
                let before = self.room.run(k, &mut ChaCha8Rng::of_words(&self.words, self.cursor)).2;
                let floods = before.iter().filter(|v| v.state == NodeState::Flood);
                self.room.bytes += floods.map(|v| sent_len(&v.payload)).sum::<u64>();
            }
            (self.room.nodes, self.room.metrics, self.room.next_row) = (nodes, metrics, next_row);
            (self.room.slot, self.goal, self.cursor) = (end, goal, rng.cursor());
            self.used += due.len() as u64 / 5;
            Ok(())
        }

        /// The rows that a round would have due.
        fn rows_due(&self, slots: u64) -> usize {
            let mut rng = ChaCha8Rng::of_words(&self.words, self.cursor);
            caught(|| self.room.run(slots, &mut rng))
                .map_or(0, |r| r.3.snapshots.len() - self.room.metrics.snapshots.len())
        }
    }

    pub fn room(r: &mut Prng, k: u64) {
        let n = match k {
            0 => 1,
            1 => 64,
            2 => 63,
            _ => 1 + r.index(8),
        };
        let number = 1 + k % 5;
        let divisors: Vec<usize> = (1..=n).filter(|d| n % d == 0).collect();
        let argument = match number {
            4 => *r.pick(&divisors),
            5 => 1 + r.index(3),
            _ => 0,
        };
        let graph = topology(n, number, argument);
        let (loss, abort) = (r.index(4), if r.chance(1, 2) { 0 } else { r.index(4) });
        let (timeout, interval) = (*r.pick(&[0, 1, 3, 10, 1000]), *r.pick(&[1, 2, 5, 40]));
        let (seed, first) = (r.next(), r.next());
        let count = if k % 7 == 6 { r.index(30) } else { 4000 };
        println!("< 1 {n} {number} {argument} {timeout} {loss} {abort} {seed} {interval} {first} {STEP} {count}");
        let words = (0..count as u64)
            .map(|i| first.wrapping_add(i.wrapping_mul(STEP)))
            .collect();
        assert_eq!(rows_of_graph(&graph).len(), n);
        let mut s = Sampled {
            room: Capture::open(graph, 0, ABORTS[abort], seed, LOSSES[loss], timeout, 0, interval),
            words,
            used: 0,
            cursor: 0,
            goal: false,
        };
        if k % 3 == 2 {
            by_hand(r, &mut s);
        }
        for turn in 0..1 + r.below(3) {
            if k % 3 != 2 && (turn == 0 || r.chance(1, 2)) {
                let initiator = r.index(n);
                println!("< 2 {} {initiator}", s.room.protocol.current_term);
                s.room.propose(initiator);
            }
            let slots = if n > 8 { 200 } else { 1 + r.below(50) };
            let full = (s.used as usize + s.rows_due(slots)) * 5;
            if full > BUFFER {
                break;
            }
            if s.rows_due(slots) > 0 {
                s.round(slots, full - 1);
            }
            if r.chance(1, 4) {
                s.round((1 << 32) - s.room.slot, full);
            }
            s.round(slots, full);
        }
    }

    /// Packets of final phases, most with full bitmaps: here positions sleep.
    fn by_hand(r: &mut Prng, s: &mut Sampled) {
        let n = s.room.nodes.len();
        let phase = *r.pick(&[TwoPcCePhase::Committed, TwoPcCePhase::Aborted]);
        for i in 0..n {
            let marks = *r.pick(&[n, n, n, n.saturating_sub(1), (n + 1).min(64)]);
            let payload = serde_json::to_vec(&CeTwoPcPacket {
                term: 1 + r.below(2),
                phase: if i == 0 || r.chance(1, 4) {
                    TwoPcCePhase::Prepare
                } else {
                    phase
                },
                proposal_data: (0..r.index(3)).map(|_| r.next() as u8).collect(),
                flags_bitmap: (0..marks).map(|_| r.chance(5, 6)).collect(),
            })
            .unwrap();
            for (k, x) in payload_numbers(&payload).iter().enumerate().filter(|x| *x.1 != 0) {
                println!("< 3 {} {x}", HELD + PAYLOAD * i + k);
            }
            s.room.nodes[i].payload = payload;
        }
        s.room.initiator = r.index(n);
    }
}

#[cfg(feature = "engines")]
pub use compared::run;

#[cfg(feature = "engines")]
mod compared {
    use super::*;
    use crate::graph::random_rows_of;
    use crate::oracle::{caught, graph_of_rows, rows_of_graph, rows_since};
    use crate::tally::Tally;
    use crate::time;
    use crate::Options;
    use ctsim::network::NetworkGraph;
    use rand_chacha::ChaCha8Rng;
    use std::collections::BTreeMap;

    extern "C" {
        #[allow(clippy::too_many_arguments)]
        fn ce_round(
            state: *mut u64,
            state_count: usize,
            words: *const u64,
            words_count: usize,
            links: *const u64,
            links_count: usize,
            rows: *mut u64,
            rows_count: usize,
            n: usize,
            abort_probability: f64,
            seed: u64,
            listen_timeout: u64,
            loss_rate: f64,
            interval: u64,
            initiator: usize,
            slots: u64,
        ) -> u64;
    }

    const WAS: u64 = 0xA5A5_A5A5_A5A5_A5A5;

    /// All that one call is lent and told.
    #[derive(Clone)]
    struct Call {
        state: Vec<u64>,
        words: Vec<u64>,
        links: Vec<u64>,
        rows: Vec<u64>,
        n: usize,
        p: f64,
        seed: u64,
        timeout: u64,
        loss: f64,
        interval: u64,
        initiator: usize,
        slots: u64,
    }

    impl Call {
        /// Refusal, and state and rows as they are afterwards.
        fn made(&self) -> (u64, Vec<u64>, Vec<u64>) {
            let (mut state, mut rows) = (self.state.clone(), self.rows.clone());
            let refusal = unsafe {
                ce_round(
                    state.as_mut_ptr(),
                    state.len(),
                    self.words.as_ptr(),
                    self.words.len(),
                    self.links.as_ptr(),
                    self.links.len(),
                    rows.as_mut_ptr(),
                    rows.len(),
                    self.n,
                    self.p,
                    self.seed,
                    self.timeout,
                    self.loss,
                    self.interval,
                    self.initiator,
                    self.slots,
                )
            };
            (refusal, state, rows)
        }

        fn told(&self) -> String {
            let held: Vec<String> = (0..self.n)
                .map(|i| {
                    String::from_utf8_lossy(&payload_text(&self.state[HELD + PAYLOAD * i..][..PAYLOAD])).into_owned()
                })
                .collect();
            format!(
                "n {} links {:x?} p {:?} seed {} timeout {} loss {:?} interval {} initiator {} slots {} counters {:?} rows {} words {} {:x?} held {}",
                self.n,
                self.links,
                self.p,
                self.seed,
                self.timeout,
                self.loss,
                self.interval,
                self.initiator,
                self.slots,
                &self.state[..6],
                self.rows.len(),
                self.words.len(),
                &self.words[..self.words.len().min(40)],
                held.join(" ")
            )
        }

        fn size(&self) -> usize {
            self.n * (self.slots.min(1000) as usize + 1)
        }
    }

    /// A state by its meaning: counters, room counts, and of each position its node's numbers and the bytes that it holds.
    #[derive(PartialEq, Debug)]
    struct Seen {
        refusal: u64,
        counters: Vec<u64>,
        metrics: Vec<u64>,
        nodes: Vec<[u64; 8]>,
        held: Vec<String>,
        rows: Vec<u64>,
    }

    fn seen(n: usize, refusal: u64, state: &[u64], rows: &[u64]) -> Seen {
        Seen {
            refusal,
            counters: state[..6].to_vec(),
            metrics: state[METRICS..METRICS + 8].to_vec(),
            nodes: (0..n)
                .map(|i| state[NODES + 8 * i..][..8].try_into().unwrap())
                .collect(),
            held: (0..n)
                .map(|i| String::from_utf8(payload_text(&state[HELD + PAYLOAD * i..][..PAYLOAD])).unwrap())
                .collect(),
            rows: rows.to_vec(),
        }
    }

    /// Whether what is none of the first n positions' is as it was.
    fn rest(n: usize, state: &[u64]) -> Vec<u64> {
        let mut out = state[6..8].to_vec();
        out.extend(&state[NODES + 8 * n..HELD]);
        out.extend(&state[HELD + PAYLOAD * n..]);
        out
    }

    type Met = BTreeMap<&'static str, u64>;

    fn met(m: &mut Met, what: &'static str, times: u64) {
        *m.entry(what).or_default() += times;
    }

    /// The Rust's round of at most k slots: where it ends, the room then, rows of this round, the cursor. None: a word was missing.
    struct Ran {
        end: u64,
        goal: bool,
        nodes: Vec<Node>,
        metrics: [u64; 8],
        next_row: u64,
        rows: Vec<u64>,
        cursor: u64,
    }

    fn rust_run(room: &Capture, rng: &ChaCha8Rng, slots: u64) -> Option<Ran> {
        let mut g = rng.clone();
        let (end, goal, nodes, metrics, next_row) = caught(|| room.run(slots, &mut g)).ok()?;
        let rows = rows_since(&metrics, room.metrics.snapshots.len());
        let mut m = [0; 8];
        m[2] = metrics.ce_timeouts;
        m[3] = metrics.rx_attempts;
        m[4] = metrics.rx_success;
        Some(Ran {
            end,
            goal,
            nodes,
            metrics: m,
            next_row,
            rows,
            cursor: g.cursor(),
        })
    }

    /// What is due after an accepted call, given what the Rust did and the bytes sent so far.
    fn due(call: &Call, ran: &Ran, bytes: u64) -> Seen {
        let used = call.state[3] as usize;
        let mut rows = call.rows.clone();
        rows[used * 5..][..ran.rows.len()].copy_from_slice(&ran.rows);
        Seen {
            refusal: 0,
            counters: vec![
                ran.end,
                ran.next_row,
                call.state[2].wrapping_add(bytes),
                (used + ran.rows.len() / 5) as u64,
                ran.cursor,
                u64::from(ran.goal),
            ],
            metrics: ran.metrics.to_vec(),
            nodes: ran.nodes.iter().map(node_numbers).collect(),
            held: ran
                .nodes
                .iter()
                .map(|v| String::from_utf8(payload_text(&payload_numbers(&v.payload))).unwrap())
                .collect(),
            rows,
        }
    }

    fn flooded(nodes: &[Node]) -> u64 {
        nodes
            .iter()
            .filter(|v| v.state == NodeState::Flood)
            .map(|v| sent_len(&v.payload))
            .sum()
    }

    fn refused(t: &mut Tally, m: &mut Met, kind: &str, call: &Call, number: u64) {
        let (refusal, state, rows) = call.made();
        let same = state == call.state && rows == call.rows;
        t.same(kind, call.size(), || call.told(), &(refusal, same), &(number, true));
        met(
            m,
            match number {
                2 => "refused 2",
                3 => "refused 3",
                4 => "refused 4",
                6 => "refused 6",
                8 => "refused 8",
                9 => "refused 9",
                15 => "refused 15",
                16 => "refused 16",
                _ => "refused 17",
            },
            1,
        );
    }

    /// The call with 15, 16 and 17 just met and just not met. `ran` is the Rust's whole round, which drew from `start` on.
    fn edges(t: &mut Tally, m: &mut Met, r: &mut Prng, call: &Call, ran: &Ran, whole: &Seen) {
        let start = call.state[4];
        let used = call.state[3] as usize;
        let due_rows = ran.rows.len();
        // exactly the words that are drawn, and one fewer
        if ran.cursor > start {
            let mut c = call.clone();
            c.words.truncate(ran.cursor as usize);
            let (refusal, state, rows) = c.made();
            t.same(
                "words exactly enough",
                c.size(),
                || c.told(),
                &seen(c.n, refusal, &state, &rows),
                whole,
            );
            c.words.truncate(ran.cursor as usize - 1);
            refused(t, m, "one word fewer", &c, 16);
            c.words
                .truncate(start as usize + r.index((ran.cursor - start) as usize));
            refused(t, m, "words short", &c, 16);
            // 16 before 17
            c.rows.truncate(used * 5);
            refused(t, m, "words short and rows full", &c, 16);
        }
        // the buffer exactly full, and one number short
        let mut c = call.clone();
        c.rows.truncate(used * 5 + due_rows);
        let (refusal, state, rows) = c.made();
        let mut full = seen(c.n, refusal, &state, &rows);
        full.rows.resize(call.rows.len(), WAS);
        t.same("rows exactly full", c.size(), || c.told(), &full, whole);
        met(m, "buffers exactly full", u64::from(due_rows > 0));
        if due_rows > 0 {
            let mut c = call.clone();
            c.rows.truncate(used * 5 + due_rows - 1 - r.index(5));
            refused(t, m, "rows one number short", &c, 17);
        }
        let mut c = call.clone();
        c.state[3] = match r.below(3) {
            0 => u64::MAX - r.below(3),
            1 => (1 << 63) / 5 * 4 + r.below(9),
            _ => c.rows.len() as u64 / 5 + 1 + r.below(3),
        };
        refused(t, m, "used count beyond the buffer", &c, 17);
        // 15 before 16 and 17
        c.words.clear();
        c.slots = (1u64 << 32) - c.state[0] + if r.chance(1, 2) { 0 } else { r.next() >> 33 };
        refused(t, m, "past the last slot", &c, 15);
        c.slots = u64::MAX - r.below(3);
        refused(t, m, "past the last slot by far", &c, 15);
        c.n = *r.pick(&[0, 65, usize::MAX]);
        refused(t, m, "positions", &c, 2);
        c.n = call.n;
        c.initiator = *r.pick(&[call.n, call.n + 1, 64, usize::MAX]);
        refused(t, m, "initiator", &c, 8);
    }

    /// The refusals of a call, the highest first.
    const REFUSALS: [u64; 9] = [17, 16, 15, 9, 8, 6, 4, 3, 2];

    /// The call changed so that this refusal holds; false where it cannot: 16 of a round that draws nothing, 3 of 64 positions.
    fn spoil(r: &mut Prng, c: &mut Call, ran: &Ran, number: u64) -> bool {
        match number {
            2 => c.n = *r.pick(&[0, 65, usize::MAX]),
            3 => {
                if c.n == 64 {
                    return false;
                }
                let row = r.index(c.n);
                c.links[row] |= 1 << (c.n + r.index(64 - c.n));
            }
            4 => {
                c.loss = *r.pick(&[
                    f64::NAN,
                    -f64::NAN,
                    1.0,
                    2.0,
                    -f64::from_bits(1),
                    -1.0,
                    f64::INFINITY,
                    f64::NEG_INFINITY,
                ])
            }
            6 => c.interval = 0,
            8 => c.initiator = *r.pick(&[c.n, c.n + 1, 64, usize::MAX]),
            9 => {
                // what is held, phase, lengths of data and bitmap, or one of the bytes
                let (byte, above) = (6 + r.index(32), r.below(300));
                let (place, most) = *r.pick(&[(0, 2), (2, 2), (3, 32), (4, 64), (byte, 255)]);
                let wrong = *r.pick(&[most + 1, most + 2 + above, 1 << 32, u64::MAX]);
                c.state[HELD + PAYLOAD * r.index(c.n) + place] = wrong;
            }
            15 => c.slots = u64::MAX - r.below(3),
            16 => {
                if ran.cursor == c.state[4] {
                    return false;
                }
                c.words.truncate(ran.cursor as usize - 1);
            }
            _ => c.state[3] = c.rows.len() as u64 / 5 + 1 + r.below(3),
        }
        true
    }

    /// Each refusal by itself, and several at once: the lowest is told. Numbers behind the positions refuse nothing.
    fn refusals(t: &mut Tally, m: &mut Met, r: &mut Prng, call: &Call, ran: &Ran, whole: &Seen) {
        for number in REFUSALS {
            let mut c = call.clone();
            if spoil(r, &mut c, ran, number) {
                refused(t, m, "one thing wrong", &c, number);
            }
        }
        let mut c = call.clone();
        let mut lowest = 0;
        for number in REFUSALS {
            if r.chance(1, 2) && spoil(r, &mut c, ran, number) {
                lowest = number;
            }
        }
        if lowest != 0 {
            refused(t, m, "several things wrong", &c, lowest);
        }
        let mut c = call.clone();
        for x in &mut c.state[HELD + PAYLOAD * call.n..] {
            *x = r.number();
        }
        let (refusal, state, rows) = c.made();
        let ours = seen(c.n, refusal, &state, &rows);
        t.same("numbers of no position", c.size(), || c.told(), &ours, whole);
    }

    /// One round, after every slot. Hands back the state after the whole of it, if it was accepted.
    fn round(
        t: &mut Tally,
        m: &mut Met,
        r: &mut Prng,
        room: &Capture,
        call: &Call,
    ) -> Option<(Vec<u64>, Vec<u64>, Ran)> {
        let rng = ChaCha8Rng::of_words(&call.words, call.state[4]);
        let Some(whole) = rust_run(room, &rng, call.slots) else {
            refused(t, m, "missing word", call, 16);
            return None;
        };
        let length = whole.end - call.state[0];
        let (mut bytes, mut acting) = (0, 0);
        let mut last = None;
        for k in 0..=length {
            let ran = rust_run(room, &rng, if k == length { call.slots } else { k }).unwrap();
            // the slot of the goal sends nothing
            bytes += if ran.goal { 0 } else { acting };
            let mut c = call.clone();
            c.slots = if k == length { call.slots } else { k };
            let (refusal, state, rows) = c.made();
            let ours = seen(c.n, refusal, &state, &rows);
            let theirs = due(&c, &ran, bytes);
            t.same("state after a slot", c.size(), || c.told(), &ours, &theirs);
            t.same(
                "what belongs to nobody",
                c.size(),
                || c.told(),
                &rest(c.n, &state),
                &rest(c.n, &c.state),
            );
            let sleepers = ran.nodes.iter().filter(|v| v.state == NodeState::Sleep).count() as u64;
            met(m, "positions asleep after a slot", sleepers);
            acting = flooded(&ran.nodes);
            if k == length {
                last = Some((state, rows, ours, ran));
            }
        }
        let (state, rows, ours, ran) = last?;
        met(m, "rounds", 1);
        met(m, "slots", length);
        met(m, "rounds with goal", u64::from(ran.goal));
        met(m, "recoveries", ran.metrics[2] - room.metrics.ce_timeouts);
        met(m, "frames heard", ran.metrics[4] - room.metrics.rx_success);
        met(
            m,
            "frames lost",
            ran.metrics[3] - room.metrics.rx_attempts - (ran.metrics[4] - room.metrics.rx_success),
        );
        met(m, "rows", ran.rows.len() as u64 / 5);
        met(m, "words drawn", ran.cursor - call.state[4]);
        if r.chance(1, 4) {
            edges(t, m, r, call, &ran, &ours);
            refusals(t, m, r, call, &ran, &ours);
        }
        Some((state, rows, ran))
    }

    fn count(r: &mut Prng) -> usize {
        match r.below(24) {
            0 => 64,
            1 => 1 + r.index(64),
            2 => 1,
            3 => 8 + r.index(9),
            _ => 1 + r.index(6),
        }
    }

    fn links(r: &mut Prng, m: &mut Met, n: usize) -> Vec<u64> {
        let (what, g) = match r.below(9) {
            0 => ("mesh", NetworkGraph::full_mesh(n)),
            1 => ("line", NetworkGraph::line(n)),
            2 => ("ring", NetworkGraph::ring(n)),
            3 => {
                let rows: Vec<usize> = (1..=n).filter(|k| n % k == 0).collect();
                let k = *r.pick(&rows);
                ("grid", NetworkGraph::grid(k, n / k))
            }
            4 => ("tree", NetworkGraph::tree(n, 1 + r.index(4))),
            5 => {
                let mut rows = rows_of_graph(&NetworkGraph::full_mesh(n));
                for (i, row) in rows.iter_mut().enumerate() {
                    *row |= u64::from(r.chance(1, 2)) << i;
                }
                ("mesh with links to oneself", graph_of_rows(&rows))
            }
            _ => ("any links", graph_of_rows(&random_rows_of(r, n))),
        };
        met(m, what, 1);
        rows_of_graph(&g)
    }

    fn loss(r: &mut Prng) -> f64 {
        match r.below(10) {
            0..=3 => 0.0,
            4 => -0.0,
            5 => f64::from_bits(1),
            6 => 1.0 - f64::EPSILON / 2.0,
            7 => (r.next() >> 11) as f64 / (1u64 << 53) as f64,
            _ => 0.3,
        }
    }

    fn abort(r: &mut Prng) -> f64 {
        match r.below(10) {
            0..=5 => 0.0,
            6 => 1.0,
            7 => *r.pick(&[f64::NAN, -1.0, 0.0005, 0.9999, f64::INFINITY]),
            _ => 0.2,
        }
    }

    fn slots(r: &mut Prng, n: usize) -> u64 {
        let most = if n > 16 { 12 } else { 40 };
        match r.below(12) {
            0 => 0,
            1 => 1 + r.below(2),
            2 if n <= 6 => 60 + r.below(60),
            _ => 1 + r.below(most),
        }
    }

    fn open(r: &mut Prng, m: &mut Met) -> (Capture, Vec<u64>) {
        let n = count(r);
        let rows = links(r, m, n);
        let interval = *r.pick(&[1, 1, 2, 3, 7, 50, (1 << 32) - 1]);
        let timeout = *r.pick(&[0, 1, 2, 3, 5, 10, 10, 30, 1000, u64::MAX]);
        let seed = if r.chance(1, 4) { r.below(3) } else { r.next() };
        let term = match r.below(8) {
            0 => u64::MAX - 6,
            1 => r.below(1000),
            _ => 0,
        };
        let (p, loss, slots) = (abort(r), loss(r), slots(r, n));
        let room = Capture::open(graph_of_rows(&rows), term, p, seed, loss, timeout, slots, interval);
        (room, rows)
    }

    /// The call for the room's present state. Numbers behind the positions are filled with some that have a meaning.
    fn call_of(room: &Capture, links: &[u64], words: Vec<u64>, state: Vec<u64>, rows: Vec<u64>) -> Call {
        let mut links = links.to_vec();
        // rows behind the positions are read by nobody
        links.resize(
            if room.slot % 2 == 0 { 64 } else { links.len() },
            if room.slot % 3 == 0 { 0 } else { u64::MAX },
        );
        Call {
            state,
            words,
            links,
            rows,
            n: room.nodes.len(),
            p: room.protocol.abort_probability,
            seed: room.protocol.seed,
            timeout: room.timeout,
            loss: room.loss,
            interval: room.interval,
            initiator: room.initiator,
            slots: room.round_slots,
        }
    }

    fn fill_rest(r: &mut Prng, n: usize, state: &mut Vec<u64>) {
        for i in n..64 {
            for k in 0..8 {
                state[NODES + 8 * i + k] = match k {
                    0 => r.below(3),
                    1 => r.next() >> 32,
                    3 => r.below(2),
                    _ => r.next(),
                };
            }
            for k in 0..PAYLOAD {
                state[HELD + PAYLOAD * i + k] = match k {
                    0 | 2 => r.below(3),
                    k if k >= 6 => r.below(256),
                    _ => r.next(),
                };
            }
        }
        state[6] = r.next();
        state[7] = r.next();
        state.extend((0..r.index(3)).map(|i| i as u64));
    }

    /// The proposal of both sides: the Rust's packets, as numbers for ours.
    fn propose(room: &mut Capture, state: &mut [u64], initiator: usize) {
        room.propose(initiator);
        for (i, v) in room.nodes.iter().enumerate() {
            state[HELD + PAYLOAD * i..][..PAYLOAD].copy_from_slice(&payload_numbers(&v.payload));
        }
    }

    /// The Rust's room after an accepted round, with bytes sent and the progress raise (RULES 8.6, 8.9) on both sides.
    fn close(room: &mut Capture, ran: Ran, state: &mut [u64]) {
        room.nodes = ran.nodes;
        room.metrics.ce_timeouts = ran.metrics[2];
        room.metrics.rx_attempts = ran.metrics[3];
        room.metrics.rx_success = ran.metrics[4];
        room.next_row = ran.next_row;
        room.slot = ran.end;
        if ran.goal && !room.term_done {
            room.term_done = true;
            for (i, v) in room.nodes.iter_mut().enumerate() {
                v.progress_count += 1;
                state[NODES + 8 * i + 4] += 1;
            }
        }
    }

    /// Rooms as calls lead to them: proposals and rounds in turn.
    fn rooms(t: &mut Tally, m: &mut Met, r: &mut Prng, count: u64) {
        for _ in 0..count {
            let (mut room, links) = open(r, m);
            met(m, "rooms", 1);
            let n = room.nodes.len();
            let count = if r.chance(1, 6) { r.index(60) } else { 6000 };
            let words = words(r, count);
            let mut state = state_numbers(&room, 0, 0, false);
            fill_rest(r, n, &mut state);
            let mut rows = vec![WAS; 5 * r.index(400)];
            for k in 0..1 + r.below(4) {
                if k == 0 || r.chance(2, 3) {
                    propose(&mut room, &mut state, r.index(n));
                }
                rows.resize(rows.len() + 5 * room.round_slots as usize, WAS);
                let call = call_of(&room, &links, words.clone(), state.clone(), rows.clone());
                let Some((after, filled, ran)) = round(t, m, r, &room, &call) else {
                    break;
                };
                (state, rows) = (after, filled);
                if ran.goal {
                    let committed = room.protocol.abort_probability;
                    met(
                        m,
                        if committed > 0.0 {
                            "goals where some may vote no"
                        } else {
                            "goals where all vote yes"
                        },
                        1,
                    );
                }
                close(&mut room, ran, &mut state);
                if r.chance(1, 3) {
                    room.round_slots = slots(r, n);
                }
            }
        }
    }

    fn bitmap(r: &mut Prng, n: usize) -> Vec<bool> {
        let length = match r.below(12) {
            0 | 1 => r.index(n + 1),
            2 | 3 => (n + 1 + r.index(3)).min(64),
            4 => 64,
            _ => n,
        };
        let like = r.below(4);
        (0..length).map(|_| like < 2 || (like == 2 && r.chance(3, 4))).collect()
    }

    fn by_hand(r: &mut Prng, n: usize, term: u64, phase: TwoPcCePhase) -> Vec<u8> {
        match r.below(10) {
            0 => Vec::new(),
            1 => r.pick(&[&b"?"[..], b"{}", b"[]", b"{\"term\":1}"]).to_vec(),
            _ => serde_json::to_vec(&CeTwoPcPacket {
                term: if r.chance(1, 5) { r.below(4) } else { term },
                phase: if r.chance(1, 3) {
                    *r.pick(&[TwoPcCePhase::Prepare, TwoPcCePhase::Committed, TwoPcCePhase::Aborted])
                } else {
                    phase
                },
                proposal_data: (0..*r.pick(&[0, 1, 2, 3, 32])).map(|_| r.next() as u8).collect(),
                flags_bitmap: bitmap(r, n),
            })
            .unwrap(),
        }
    }

    /// Rounds from packets, states, counts and slots given by hand: here positions sleep.
    fn hands(t: &mut Tally, m: &mut Met, r: &mut Prng, count: u64) {
        for _ in 0..count {
            let (mut room, links) = open(r, m);
            met(m, "rooms with packets by hand", 1);
            let n = room.nodes.len();
            let term = 1 + r.below(3);
            let phase = *r.pick(&[TwoPcCePhase::Committed, TwoPcCePhase::Aborted, TwoPcCePhase::Prepare]);
            for v in &mut room.nodes {
                v.payload = by_hand(r, n, term, phase);
                v.state = *r.pick(&[NodeState::Listen, NodeState::Flood, NodeState::Sleep]);
                v.flood_remaining = r.next() as u32;
                v.last_progress_slot = r.number();
                v.goal_reached = r.chance(1, 2);
                v.progress_count = (r.number() >> 1) as usize;
                v.slots_listen = r.number() >> 1;
                v.slots_flood = r.number() >> 1;
                v.slots_sleep = r.number() >> 1;
            }
            room.initiator = r.index(n);
            room.metrics.ce_timeouts = r.number() >> 1;
            room.metrics.rx_attempts = r.number() >> 1;
            room.metrics.rx_success = r.number() >> 1;
            room.bytes = r.number() >> 1;
            room.slot = match r.below(4) {
                0 => 0,
                1 => (1 << 32) - 1 - room.round_slots,
                _ => r.below((1 << 32) - room.round_slots),
            };
            room.next_row = room.slot + if r.chance(1, 2) { 0 } else { r.below(9) };
            let count = if r.chance(1, 8) { r.index(40) } else { 4000 };
            let words = words(r, count);
            let cursor = match r.below(8) {
                0 => u64::MAX - r.below(2),
                1 => words.len() as u64 + r.below(2),
                _ => r.below(5),
            };
            let used = r.below(4);
            let mut state = state_numbers(&room, used, cursor, r.chance(1, 2));
            fill_rest(r, n, &mut state);
            let rows = vec![WAS; 5 * (used + room.round_slots) as usize + r.index(9)];
            let call = call_of(&room, &links, words, state, rows);
            round(t, m, r, &room, &call);
        }
    }

    /// Shorter and longer lists than a state has numbers: the rule reads 0 behind the end and puts nothing there.
    fn lists(t: &mut Tally, r: &mut Prng, count: u64) {
        for _ in 0..count {
            let n = 1 + r.index(4);
            let mut call = Call {
                state: vec![0; NUMBERS],
                words: words(r, 40),
                links: vec![(1 << n) - 1; r.index(5)],
                rows: vec![WAS; 50],
                n,
                p: 0.0,
                seed: 0,
                timeout: r.below(4),
                loss: 0.3,
                interval: 1,
                initiator: 0,
                slots: r.below(6),
            };
            for x in &mut call.state {
                *x = r.below(3);
            }
            let cut = r.index(NUMBERS + 1);
            let mut long = call.clone();
            for x in &mut long.state[cut..] {
                *x = 0;
            }
            call.state.truncate(cut);
            let (a, mut b) = (call.made(), long.made());
            b.1.truncate(cut);
            t.same(
                "a state cut short",
                call.size(),
                || format!("cut at {cut} {}", long.told()),
                &a,
                &b,
            );
        }
    }

    /// Whole rounds of 64 positions, each with several lists of words.
    fn times() {
        let n = 64;
        let mut drawn: Vec<Prng> = (1..=5).map(|seed| Prng::of(seed, "capture times")).collect();
        for (what, g) in [
            ("mesh", NetworkGraph::full_mesh as fn(usize) -> NetworkGraph),
            ("line", NetworkGraph::line),
        ] {
            let links = rows_of_graph(&g(n));
            let mut room = Capture::open(g(n), 0, 0.0, 0, 0.3, 10, 100_000, (1 << 32) - 1);
            room.propose(0);
            for (seed, r) in (1..).zip(&mut drawn) {
                let words: Vec<u64> = (0..400_000).map(|_| r.next()).collect();
                let rng = ChaCha8Rng::of_words(&words, 0);
                let call = call_of(&room, &links, words, state_numbers(&room, 0, 0, false), vec![WAS; 5]);
                let ran = rust_run(&room, &rng, room.round_slots).unwrap();
                let (refusal, state, _) = call.made();
                assert_eq!((refusal, state[0], state[4]), (0, ran.end, ran.cursor));
                assert!(ran.goal);
                let mut theirs = || {
                    let mut g = rng.clone();
                    std::hint::black_box(room.run(room.round_slots, &mut g));
                };
                let mut ours = || {
                    std::hint::black_box(call.made());
                };
                let (slots, drew) = (ran.end, ran.cursor);
                let row = format!("round of a {what} of 64 to its goal, seed {seed} ({slots} slots, {drew} words)");
                time::beside(&row, &mut ours, &mut theirs);
            }
        }
    }

    pub fn run(o: &Options) -> Tally {
        let mut t = Tally::new("capture");
        if o.times_only {
            times();
            return t;
        }
        let mut m = Met::new();
        rooms(&mut t, &mut m, &mut Prng::of(o.seed, "capture rooms"), 20_000 * o.scale);
        hands(
            &mut t,
            &mut m,
            &mut Prng::of(o.seed, "capture by hand"),
            10_000 * o.scale,
        );
        lists(&mut t, &mut Prng::of(o.seed, "capture lists"), 2_000 * o.scale);
        for (what, times) in &m {
            println!("met: {what}: {times}");
        }
        times();
        t
    }
}
