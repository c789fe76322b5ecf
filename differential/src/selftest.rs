//! `--oracle-only`: no archive of ours. Holds the original program, driven with words, to examples that were worked out before, and
//! the harness's own pieces (draws, graphs of any links, the door) to what they should be.

use crate::oracle::*;
use crate::packets::{Ce, Family};
use crate::prng::Prng;
use ctsim::config::SimConfig;
use ctsim::network::NetworkGraph;
use ctsim::node::{Node, NodeState};
use ctsim::protocol::two_pc_ce::CeTwoPcPacket;
use ctsim::protocol::two_pc_pipeline::{deserialize_packet, TwoPcState};
use ctsim::protocol::ProposalOutcome;
use ctsim::sim::two_pc_pipeline::TwoPcPipelineSim;
use rand::seq::SliceRandom;
use rand::Rng;
use rand_chacha::ChaCha8Rng;
use std::fmt::Debug;

const F: u64 = u64::MAX;
const FOREVER: u64 = u32::MAX as u64;

#[derive(Default)]
struct Checks {
    done: u64,
    failed: u64,
}

impl Checks {
    fn is<T: PartialEq + Debug>(&mut self, what: &str, got: T, expected: T) {
        self.done += 1;
        if got != expected {
            self.failed += 1;
            println!("FAILED {what}: got {got:?}, expected {expected:?}");
        }
    }
}

/// `1 P [98] 01` as packet text.
fn text(term: u64, phase: &str, data: &str, bitmap: &str) -> Vec<u8> {
    let marks: Vec<&str> = bitmap
        .chars()
        .map(|c| if c == '1' { "true" } else { "false" })
        .collect();
    let phase = match phase {
        "P" => "Prepare",
        "C" => "Committed",
        _ => "Aborted",
    };
    format!(
        "{{\"term\":{term},\"phase\":\"{phase}\",\"proposal_data\":{data},\"flags_bitmap\":[{}]}}",
        marks.join(",")
    )
    .into_bytes()
}

fn counts(nodes: &[Node]) -> (u64, u64, u64) {
    (
        nodes.iter().map(|n| n.slots_listen).sum(),
        nodes.iter().map(|n| n.slots_flood).sum(),
        nodes.iter().map(|n| n.slots_sleep).sum(),
    )
}

fn draws(c: &mut Checks) {
    let mut g = ChaCha8Rng::of_words(&[0, 2047, 2048, F, 1 << 63, (1 << 63) - 1, 7, 8], 0);
    c.is("unit of 0", g.gen::<f64>(), 0.0);
    c.is("unit of 2047", g.gen::<f64>(), 0.0);
    c.is("unit of 2048", g.gen::<f64>(), 1.0 / 9007199254740992.0);
    c.is("unit of F..F", g.gen::<f64>().to_bits(), 0x3fefffffffffffff);
    c.is("coin of 2^63", g.gen_bool(0.5), false);
    c.is("coin of 2^63 - 1", g.gen_bool(0.5), true);
    c.is("pick from 0 to 4 of 7", g.gen_range(0..=4), 2);
    c.is("pick below 4 of 8", g.gen_range(0..4), 0);
    c.is("cursor", g.cursor(), 8);
    c.is("missing word", caught(|| g.gen::<f64>()).is_err(), true);
    c.is("a missing word leaves the cursor", g.cursor(), 8);
    let mut past = ChaCha8Rng::of_words(&[1], F);
    c.is("cursor past the end", caught(|| past.gen_bool(0.5)).is_err(), true);
    let mut list = [0, 1, 2, 3];
    list.shuffle(&mut ChaCha8Rng::of_words(&[5, 0, 3], 0));
    // i = 3: 5 mod 4 = 1; i = 2: 0; i = 1: 3 mod 2 = 1.
    c.is("shuffle", list, [2, 3, 0, 1]);
}

fn links(c: &mut Checks, seed: u64) {
    for n in 1..=64 {
        for g in [NetworkGraph::full_mesh(n), NetworkGraph::line(n), NetworkGraph::ring(n)] {
            let again = graph_of_rows(&rows_of_graph(&g));
            c.is("rows and back", rows_of_graph(&again), rows_of_graph(&g));
            c.is("diameter of rows", again.diameter(), g.diameter());
        }
    }
    // Diameter and reach against a table of distances, so that the transmuted graphs are known to be what they should be.
    let mut r = Prng::of(seed, "self-test links");
    for _ in 0..300 {
        let rows = crate::graph::random_rows(&mut r);
        let n = rows.len();
        let mut d = vec![vec![usize::MAX / 4; n]; n];
        for i in 0..n {
            for j in 0..n {
                if rows[i] >> j & 1 == 1 {
                    d[i][j] = 1;
                }
            }
            d[i][i] = 0;
        }
        for k in 0..n {
            for i in 0..n {
                for j in 0..n {
                    d[i][j] = d[i][j].min(d[i][k] + d[k][j]);
                }
            }
        }
        let far = |x: &&usize| **x < usize::MAX / 4;
        let longest = d.iter().flatten().filter(far).max().copied().unwrap_or(0);
        let g = graph_of_rows(&rows);
        c.is("diameter by distances", g.diameter(), longest);
        for i in 0..n {
            let by_distance: Vec<bool> = d[i].iter().map(|x| *x < usize::MAX / 4).collect();
            c.is("reach by distances", reached(&g, i), by_distance);
        }
    }
    c.is("G1: one way", graph_of_rows(&[2, 4, 0]).diameter(), 2);
    c.is(
        "G2: tree 1 is a line",
        rows_of_graph(&NetworkGraph::tree(9, 1)),
        rows_of_graph(&NetworkGraph::line(9)),
    );
}

fn merges(c: &mut Checks) {
    c.is("empty received", merge(2, 0.0, 0, 0, b"", b""), (false, Vec::new()));
    c.is(
        "F3: adopting votes",
        merge(2, 1.0, 0, 1, b"", &text(1, "P", "[97]", "11")),
        (true, text(1, "A", "[97]", "01")),
    );
    c.is(
        "F3: marked, no vote",
        merge(3, 1.0, 0, 1, &text(1, "P", "[98]", "010"), &text(1, "P", "[97]", "110")),
        (true, text(1, "P", "[98]", "110")),
    );
    c.is(
        "F4: data stays local",
        merge(2, 0.0, 0, 1, &text(1, "P", "[98]", "01"), &text(1, "A", "[97]", "10")),
        (true, text(1, "A", "[98]", "11")),
    );
    c.is(
        "F5: beyond n",
        merge(2, 0.0, 0, 0, &text(1, "P", "[]", "100"), &text(1, "P", "[]", "111")),
        (true, text(1, "P", "[]", "110")),
    );
    c.is(
        "F6: unanimity alone",
        merge(2, 0.0, 0, 0, &text(1, "P", "[]", "11"), &text(1, "P", "[]", "")),
        (true, text(1, "C", "[]", "10")),
    );
    c.is(
        "F7: redundant keeps a short bitmap",
        merge(2, 0.0, 0, 0, &text(1, "C", "[]", "1"), &text(1, "C", "[]", "1")),
        (false, text(1, "C", "[]", "1")),
    );
    c.is(
        "F8: own mark on a lower received phase",
        merge(2, 0.0, 0, 1, &text(1, "C", "[]", "10"), &text(1, "P", "[]", "11")),
        (true, text(1, "C", "[]", "11")),
    );
    let at = 0x61C8864680B583EC;
    c.is("m: position 0 no", votes_yes(1, 0, 0.0005, at), false);
    c.is("m: position 1 yes", votes_yes(1, 1, 0.0005, at), true);
    for v in 0..64 {
        c.is("m: seed ..83EB", votes_yes(1, v, f64::from_bits(1), at - 1), false);
    }
    c.is("D10: NaN votes yes", votes_yes(1, 0, f64::NAN, at - 1), true);
    let reads = |t: &str| serde_json::from_str::<CeTwoPcPacket>(t).is_ok();
    let loose = [
        "[1,\"Prepare\",[1],[true]]",
        "{\"term\":1,\"phase\":{\"Prepare\":null},\"proposal_data\":[1],\"flags_bitmap\":[true]}",
        " {\"flags_bitmap\":[ ],\"proposal_data\":[],\"x\":[{}],\"phase\":\"Prep\\u0061re\",\"\\u0074erm\":1}\n",
    ];
    for t in loose {
        c.is("F13: read by the Rust", reads(t), true);
    }
    let bad = ["1.0", "1e0", "-0", "01", "18446744073709551616", "1,\"term\":1"];
    for n in bad {
        let t = format!("{{\"term\":{n},\"phase\":\"Prepare\",\"proposal_data\":[],\"flags_bitmap\":[]}}");
        c.is("F13: refused by the Rust", reads(&t), false);
    }
}

/// Random merges: facts that hold in all of them, and every way of the rules is met.
fn merge_facts(c: &mut Checks, seed: u64) {
    let mut r = Prng::of(seed, "self-test merge");
    let mut ways = std::collections::BTreeMap::new();
    let read = |t: &[u8]| serde_json::from_slice::<CeTwoPcPacket>(t).ok();
    for _ in 0..40_000 {
        let case = crate::merges::random_case(&mut r);
        *ways.entry(case.way()).or_insert(0u64) += 1;
        let (new, after) = case.answer();
        if !new {
            c.is("Redundant never rewrites local", after, case.local);
            continue;
        }
        c.is("what a merge writes has the form of RULES 5.3", Ce::due(&after).0.is_some(), true);
        let (a, rec) = (read(&after).unwrap(), read(&case.received).unwrap());
        c.is("the bitmap has n entries or more", a.flags_bitmap.len() >= case.n, true);
        c.is("the own entry is marked", a.flags_bitmap[case.position], true);
        match read(&case.local) {
            Some(l) if l.term == rec.term => {
                c.is("a merge lowers no phase", a.phase as u64 >= l.phase as u64, true);
                c.is("data stays local", (a.term, a.proposal_data), (l.term, l.proposal_data));
            }
            _ => c.is(
                "adopting takes term and data",
                (a.term, a.proposal_data),
                (rec.term, rec.proposal_data),
            ),
        }
    }
    for (way, times) in &ways {
        println!("oracle only: merge, {way}: {times}");
    }
    c.is("ways met", ways.len() >= 24, true);
}

fn captures(c: &mut Checks) {
    let none = || ChaCha8Rng::of_words(&[], 0);
    let open = |g, timeout, slots, interval| Capture::open(g, 0, 0.0, 0, 0.0, timeout, slots, interval);

    let mut room = open(NetworkGraph::line(2), 100, 20, FOREVER);
    room.propose(0);
    let ran = room.round(&mut none()).unwrap();
    c.is("m: line of 2", (ran.end, ran.goal), (3, true));
    c.is("m: counts", counts(&room.nodes), (3, 3, 0));
    let held: Vec<usize> = room.nodes.iter().map(|n| n.payload.len()).collect();
    c.is("C4: held", held, vec![86, 87]);
    c.is("ALPHA", room.bytes, 194);
    c.is("progress", room.nodes[1].progress_count, 1);
    c.is("row of slot 0", room.metrics.snapshots.len(), 1);
    let states: Vec<Vec<NodeState>> = ran
        .moments
        .iter()
        .map(|m| m.iter().map(|n| n.state).collect())
        .collect();
    use NodeState::{Flood, Listen, Sleep};
    c.is(
        "D6: states slot by slot",
        states,
        vec![
            vec![Flood, Listen],
            vec![Listen, Flood],
            vec![Flood, Listen],
            vec![Flood, Listen],
        ],
    );

    let mut room = open(NetworkGraph::line(2), 100, 2, FOREVER);
    room.propose(0);
    let ran = room.round(&mut none()).unwrap();
    c.is(
        "D2: first",
        (ran.end, ran.goal, room.nodes[0].progress_count),
        (2, false, 0),
    );
    c.is("D2: outcome", room.outcome(), ProposalOutcome::Committed);
    let ran = room.round(&mut none()).unwrap();
    c.is(
        "D2: second",
        (ran.end, ran.goal, room.nodes[0].progress_count),
        (3, true, 1),
    );
    let ran = room.round(&mut none()).unwrap();
    c.is(
        "D2: third",
        (ran.end, ran.goal, room.nodes[0].progress_count),
        (4, true, 1),
    );

    let mut room = open(graph_of_rows(&[0, 1]), 1, 3, FOREVER);
    room.propose(0);
    let mut g = ChaCha8Rng::of_words(&[F, 0, F], 0);
    room.round(&mut g).unwrap();
    c.is(
        "C5",
        (
            room.metrics.rx_attempts,
            room.metrics.rx_success,
            room.bytes,
            g.cursor(),
        ),
        (1, 1, 107, 3),
    );
    let mut room = open(graph_of_rows(&[0, 1]), 1, 3, FOREVER);
    room.propose(0);
    let mut g = ChaCha8Rng::of_words(&[F, 0], 0);
    c.is("C5 with a word less", room.round(&mut g).is_err(), true);
    c.is(
        "and nothing moved",
        (room.slot, g.cursor(), counts(&room.nodes)),
        (0, 0, (0, 0, 0)),
    );

    let mut room = open(graph_of_rows(&[2, 0]), 100, 1, FOREVER);
    room.propose(0);
    room.round(&mut none()).unwrap();
    c.is("D1: links point to the hearer", room.nodes[1].payload.is_empty(), false);

    let mut room = open(NetworkGraph::line(1), 100, 50, 1);
    room.propose(0);
    let ran = room.round(&mut none()).unwrap();
    c.is(
        "m: room of 1, B4",
        (ran.end, ran.goal, room.metrics.snapshots.len()),
        (1, true, 1),
    );
    let mut room = open(NetworkGraph::line(2), 100, 0, 1);
    room.propose(0);
    let ran = room.round(&mut none()).unwrap();
    c.is(
        "m: round slots 0",
        (ran.end, ran.goal, counts(&room.nodes)),
        (0, false, (0, 0, 0)),
    );
    c.is(
        "D13: outcome of nothing",
        open(NetworkGraph::line(2), 1, 1, 1).outcome(),
        ProposalOutcome::Aborted,
    );
    c.is(
        "D13: undecided before a proposal",
        open(NetworkGraph::line(2), 1, 1, 1).graded(),
        ProposalOutcome::TimedOut,
    );
    let mut room = open(NetworkGraph::line(2), 100, 1, FOREVER);
    room.propose(0);
    room.round(&mut none()).unwrap();
    c.is(
        "a round of one slot: one has committed, the other not",
        (room.graded(), room.outcome()),
        (ProposalOutcome::TimedOut, ProposalOutcome::Aborted),
    );

    // D7: a sleeper alternates, seen only with packets given by hand.
    let mut room = open(graph_of_rows(&[2, 0, 0]), 100, 3, FOREVER);
    room.propose(0);
    room.nodes[1].payload = text(1, "C", "[]", "111");
    let ran = room.round(&mut none()).unwrap();
    let of_1: Vec<NodeState> = ran.moments.iter().map(|m| m[1].state).collect();
    c.is("D7: Flood, Sleep, Flood", of_1[1..].to_vec(), vec![Flood, Sleep, Flood]);
}

fn pipelines(c: &mut Checks) {
    let open = |g: NetworkGraph, t, p, loss, repeats, slots, words: &[u64]| {
        let n = g.num_nodes();
        PipelineRoom::open(config(n, t, p, loss, repeats, slots, FOREVER, FOREVER), g, words, 0)
    };
    let log = |r: &PipelineRoom, i: usize| r.door.states()[i].log.clone();
    use TwoPcState::{Aborted, Committed};

    let mut r = open(NetworkGraph::full_mesh(2), 0, 0.0, 0.0, 1, None, &[]);
    r.run().unwrap();
    let m = &r.core.metrics;
    c.is(
        "m: mesh of 2, T 0",
        (r.core.current_slot, counts(&r.core.nodes)),
        (2, (1, 2, 1)),
    );
    c.is(
        "m: covered, stopped",
        (m.flood_nodes_covered, r.stopped, r.rounds),
        (2, true, 1),
    );
    c.is("A7: bytes", r.bytes, 374);
    let p = deserialize_packet(&r.core.nodes[0].payload).unwrap();
    c.is(
        "E2: T 0",
        (p.transaction_id, p.transaction_data.len(), p.nack_tx_id),
        (0, 0, 0),
    );

    let mut r = open(NetworkGraph::full_mesh(2), 0, 0.0, 0.0, 2, Some(1), &[]);
    r.run().unwrap();
    c.is("C7: covered by bytes", r.core.metrics.flood_nodes_covered, 1);

    let mut r = open(NetworkGraph::line(3), 1, 0.0, 0.0, 1, Some(1), &[F; 8]);
    r.round().unwrap();
    let states: Vec<NodeState> = r.core.nodes.iter().map(|n| n.state).collect();
    c.is(
        "line of 3, round slots 1",
        states,
        vec![NodeState::Sleep, NodeState::Flood, NodeState::Listen],
    );
    let pending: Vec<usize> = r.door.states().iter().map(|s| s.pending.len()).collect();
    c.is("position 1 takes no part", pending, vec![1, 0, 0]);

    let mut r = open(NetworkGraph::line(2), 1, 0.5, 0.0, 1, None, &[0, F]);
    r.run().unwrap();
    c.is(
        "E1: logs",
        (log(&r, 0), log(&r, 1)),
        (vec![(0, Aborted)], vec![(0, Aborted)]),
    );
    c.is("E1: rounds and words", (r.rounds, r.core.rng.cursor()), (1, 2));
    let mut r = open(NetworkGraph::line(2), 1, 0.5, 0.0, 1, None, &[0]);
    c.is("E1: one word", r.run().is_err(), true);

    let mut words = vec![F; 1004];
    words[1] = 0;
    let mut r = open(NetworkGraph::line(2), 1, 0.0, 0.5, 1, None, &words);
    r.run().unwrap();
    c.is("E4: rounds, words", (r.rounds, r.core.rng.cursor()), (1003, 1004));
    c.is("E4: nacks, bytes", (r.core.metrics.nacks_sent, r.bytes), (0, 374945));
    c.is("E5: logs", (log(&r, 0), log(&r, 1)), (vec![(0, Committed)], vec![]));
    c.is("E7: r stays", r.core.round_num, 1002);

    let mut r = open(NetworkGraph::line(2), 1, 0.0, 0.5, 1, None, &[F, F, 0, 0, F]);
    r.run().unwrap();
    c.is(
        "E6: mixed logs",
        (log(&r, 0), log(&r, 1)),
        (vec![(0, Aborted)], vec![(0, Committed)]),
    );
    c.is("E6: bytes", r.bytes, 954);
    let records: Vec<(usize, ProposalOutcome)> = r
        .core
        .metrics
        .proposals
        .iter()
        .map(|p| (p.proposal_id, p.outcome))
        .collect();
    c.is("E6: record", records, vec![(0, ProposalOutcome::Aborted)]);

    let mut r = open(NetworkGraph::line(2), 3, 0.0, 0.0, 1, Some(0), &[F; 3]);
    r.run().unwrap();
    c.is(
        "E8: slots 0",
        (r.rounds, r.core.current_slot, r.core.rng.cursor(), r.bytes),
        (1005, 0, 3, 0),
    );

    let mut r = open(NetworkGraph::full_mesh(2), 0, 0.0, 0.0, 1, Some(0xFFFFFFFE), &[]);
    r.run().unwrap();
    c.is("A4: T 0", (r.bytes, r.core.current_slot), (374, 2));
}

/// The rounds driven through the door against the program's own `TwoPcPipelineSim::run`.
fn door(c: &mut Checks, seed: u64) {
    let mut r = Prng::of(seed, "self-test door");
    for _ in 0..40 {
        let n = 1 + r.index(6);
        let t = r.index(6);
        let loss = *r.pick(&[0.0, 0.1, 0.5]);
        let p = *r.pick(&[0.0, 0.1, 0.7]);
        let repeats = 1 + r.below(3) as u32;
        let slots = *r.pick(&[None, None, Some(1), Some(4)]);
        let rows: Vec<u64> = (0..n).map(|_| r.next() & ((1 << n) - 1)).collect();
        let words: Vec<u64> = (0..200_000).map(|_| r.next()).collect();
        let g = graph_of_rows(&rows);
        let config = config(n, t, p, loss, repeats, slots, 7, FOREVER);
        let mut ours = PipelineRoom::open(config.clone(), g.clone(), &words, 0);
        ours.run().unwrap();
        rand_chacha::lend(&words);
        let (metrics, l, f, s) = TwoPcPipelineSim::new(config, g).run();
        c.is("door: words", rand_chacha::drawn(), ours.core.rng.cursor());
        c.is("door: counts", (l, f, s), counts(&ours.core.nodes));
        c.is(
            "door: metrics",
            format!("{metrics:?}"),
            format!("{:?}", ours.core.metrics),
        );
    }
}

/// Random capture rooms: facts that hold in all of them, and a round draws exactly as many words as its cursor says.
fn capture_facts(c: &mut Checks, seed: u64) {
    let mut r = Prng::of(seed, "self-test capture");
    let (mut goals, mut sent) = (0, 0);
    for _ in 0..150 {
        let n = 1 + r.index(7);
        let rows = crate::graph::random_rows_of(&mut r, n);
        let p = *r.pick(&[0.0, 0.0, 0.2, 1.0]);
        let loss = *r.pick(&[0.0, 0.3, 0.9]);
        let (vote_seed, timeout, slots) = (r.next(), r.below(6), r.below(25));
        let mut room = Capture::open(
            graph_of_rows(&rows),
            r.below(3),
            p,
            vote_seed,
            loss,
            timeout,
            slots,
            1 + r.below(9),
        );
        let words: Vec<u64> = (0..4000).map(|_| r.next()).collect();
        let mut g = ChaCha8Rng::of_words(&words, 0);
        for _ in 0..4 {
            if r.chance(1, 2) || room.protocol.current_term == 0 {
                room.propose(r.index(n));
            }
            let before = g.cursor();
            let (slot, bytes) = (room.slot, room.bytes);
            // One word fewer than the round draws: it is missing, and the room and the cursor stay.
            let drawn = room.cursor_after(&g).unwrap();
            if drawn > before {
                let mut short = ChaCha8Rng::of_words(&words[..drawn as usize - 1], before);
                c.is("one word short", room.round(&mut short).is_err(), true);
                c.is(
                    "nothing moved",
                    (short.cursor(), room.slot, room.bytes),
                    (before, slot, bytes),
                );
            }
            let mut just = ChaCha8Rng::of_words(&words[..drawn as usize], before);
            let ran = room.round(&mut just).unwrap();
            c.is("just enough words", just.cursor(), drawn);
            g = ChaCha8Rng::of_words(&words, drawn);
            goals += u64::from(ran.goal);
            sent += room.bytes - bytes;
            let (l, f, s) = counts(&room.nodes);
            c.is("counts add up", l + f + s, n as u64 * room.slot);
            c.is("D7: nobody sleeps", s, 0);
            for m in &ran.moments {
                let phases: Vec<String> = m
                    .iter()
                    .filter_map(|x| serde_json::from_slice::<CeTwoPcPacket>(&x.payload).ok())
                    .map(|k| format!("{:?}", k.phase))
                    .collect();
                let both = phases.iter().any(|x| x == "Committed") && phases.iter().any(|x| x == "Aborted");
                c.is("D8: not both", both, false);
            }
        }
    }
    c.is(
        "some rounds reach the goal and some bytes are sent",
        goals > 50 && sent > 50_000,
        true,
    );
}

/// Random pipeline rooms: logs only grow, no id twice, counts add up.
fn pipeline_facts(c: &mut Checks, seed: u64) {
    let mut r = Prng::of(seed, "self-test pipeline");
    let mut mixed = 0;
    for _ in 0..60 {
        let n = 1 + r.index(6);
        let rows = crate::graph::random_rows_of(&mut r, n);
        let (t, p) = (r.index(6), *r.pick(&[0.0, 0.1, 0.5]));
        let (loss, repeats) = (*r.pick(&[0.0, 0.3, 0.8]), 1 + r.below(3) as u32);
        let slots = *r.pick(&[None, None, None, Some(0), Some(1), Some(3)]);
        let words: Vec<u64> = (0..100_000).map(|_| r.next()).collect();
        let settings = config(n, t, p, loss, repeats, slots, 1 + r.below(50), FOREVER);
        let mut room = PipelineRoom::open(settings, graph_of_rows(&rows), &words, 0);
        let mut logs: Vec<Vec<(u64, TwoPcState)>> = vec![Vec::new(); n];
        let mut kept = true;
        while !room.stopped {
            room.round().unwrap();
            for (i, s) in room.door.states().iter().enumerate() {
                kept &= s.log.starts_with(&logs[i]);
                kept &= s
                    .log
                    .iter()
                    .all(|(a, _)| s.log.iter().filter(|(b, _)| a == b).count() == 1);
                kept &= s.log.iter().all(|(a, _)| s.pending.iter().all(|k| k.tx_id != *a));
                logs[i] = s.log.clone();
            }
        }
        c.is("logs only grow, no id twice, none logged and pending", kept, true);
        let (l, f, s) = counts(&room.core.nodes);
        c.is("counts add up", l + f + s, n as u64 * room.core.current_slot);
        c.is("at most T + 1002 rounds", room.rounds <= t as u64 + 1002, true);
        let of = |id: u64, o: TwoPcState| logs.iter().any(|l| l.contains(&(id, o)));
        mixed += (0..t as u64)
            .filter(|id| of(*id, TwoPcState::Committed) && of(*id, TwoPcState::Aborted))
            .count();
    }
    println!("oracle only: {mixed} transactions of random pipeline rooms were logged Committed by one position and Aborted by another");
}

/// `validate` is private; `from_file` leads to it, and the stand-in for toml reads JSON.
fn validate(c: &mut Checks) {
    let path = std::env::temp_dir().join(format!("keldusni-differential-{}", std::process::id()));
    let accepted = |nodes: &str, loss: &str| {
        let text = format!(
            "{{\"seed\":0,\"phy_mode\":\"ci\",\"network\":{{\"num_nodes\":{nodes},\"topology\":\"line\",\"loss_rate\":{loss}}},\
             \"ci\":{{\"flood_repeats\":1}},\"protocol\":\"2pc\"}}"
        );
        std::fs::write(&path, text).unwrap();
        let is = SimConfig::from_file(&path).is_ok();
        std::fs::remove_file(&path).unwrap();
        is
    };
    let table = [
        ("2", "0.0", true),
        ("1", "0.0", false),
        ("0", "0.0", false),
        ("65", "0.0", true),
        ("2", "-0.0", true),
        ("2", "1.0", false),
        // an exact one: serde_json may round a decimal by one place too many
        ("2", "0.9990234375", true),
        ("2", "-5e-324", false),
    ];
    for (nodes, loss, is) in table {
        c.is(&format!("validate {nodes} {loss}"), accepted(nodes, loss), is);
    }
}

/// A flood by itself, from states and payloads given by hand.
fn floods(c: &mut Checks) {
    let g = NetworkGraph::line(3);
    let mut nodes: Vec<Node> = (0..3).map(Node::new).collect();
    nodes[0].payload = b"abc".to_vec();
    let mut metrics = ctsim::metrics::MetricsCollector::new();
    let (mut next, mut rng) = (0, ChaCha8Rng::of_words(&[F, 0], 0));
    let end = flood(0, 0, &mut nodes, &g, 1, None, &mut rng, 0.5, &mut metrics, &mut next, 1);
    c.is("flood: end", end.ok(), Some(2));
    c.is(
        "flood: attempts",
        (metrics.rx_attempts, metrics.rx_success, rng.cursor()),
        (2, 1, 2),
    );
    c.is(
        "flood: covered",
        (metrics.flood_nodes_covered, metrics.snapshots.len()),
        (2, 2),
    );
    let mut rng = ChaCha8Rng::of_words(&[F], 0);
    let end = flood(2, 0, &mut nodes, &g, 1, None, &mut rng, 0.5, &mut metrics, &mut next, 1);
    c.is("flood: a word is missing", end.is_err(), true);
}

pub fn run(seed: u64) -> bool {
    let mut c = Checks::default();
    draws(&mut c);
    links(&mut c, seed);
    merges(&mut c);
    merge_facts(&mut c, seed);
    captures(&mut c);
    floods(&mut c);
    pipelines(&mut c);
    door(&mut c, seed);
    capture_facts(&mut c, seed);
    pipeline_facts(&mut c, seed);
    validate(&mut c);
    crate::packets::oracle_only(seed, 39_000);
    println!("oracle only: {} checks, {} failed", c.done, c.failed);
    c.failed == 0
}
