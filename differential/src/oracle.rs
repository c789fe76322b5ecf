//! The original program, driven with a given list of words: graphs of any links, merges, capture rounds, identical
//! floods, pipeline rounds. What the rules add to the Rust (bytes sent, the progress raise of a capture room) is added
//! here, beside it, and marked so.

use ctsim::config::{CeConfig, CiConfig, NetworkConfig, SimConfig};
use ctsim::door::{Open, Pipeline, TwoPcPipeline};
use ctsim::metrics::MetricsCollector;
use ctsim::network::NetworkGraph;
use ctsim::node::{Node, NodeState};
use ctsim::phy::ce::run_ce_round;
use ctsim::phy::ci::flood_identical_round;
use ctsim::protocol::two_pc_ce::{CeTwoPcPacket, TwoPcCE, TwoPcCePhase};
use ctsim::protocol::{MergeResult, ProposalOutcome, Protocol};
use ctsim::sim::pipeline::CiPipelineCore;
use rand_chacha::{ChaCha8Rng, MissingWord};
use std::collections::HashSet;
use std::panic::{catch_unwind, resume_unwind, AssertUnwindSafe};

/// The bytes that the radio puts before every payload (RULES 7.5). The Rust counts no bytes at all.
pub const HEADER: u64 = 11;

/// Panics that say "no word left" are answers here: they print nothing.
pub fn quiet_panics() {
    let before = std::panic::take_hook();
    std::panic::set_hook(Box::new(move |info| {
        if info.payload().downcast_ref::<MissingWord>().is_none() {
            before(info);
        }
    }));
}

/// Runs `f`, and says so if it drew a word that was not there.
pub fn caught<T>(f: impl FnOnce() -> T) -> Result<T, MissingWord> {
    match catch_unwind(AssertUnwindSafe(f)) {
        Ok(t) => Ok(t),
        Err(e) => match e.downcast::<MissingWord>() {
            Ok(m) => Err(*m),
            Err(e) => resume_unwind(e),
        },
    }
}

// ---- links ----

/// A graph of any links: mark j of row i is a link from i to j. `NetworkGraph` has no constructor for one-way links, and its one
/// field is private; a struct of one field that has the field's size holds nothing else.
pub fn graph_of_rows(rows: &[u64]) -> NetworkGraph {
    assert_eq!(
        std::mem::align_of::<Vec<HashSet<usize>>>(),
        std::mem::align_of::<NetworkGraph>()
    );
    assert_eq!(
        std::mem::size_of::<Vec<HashSet<usize>>>(),
        std::mem::size_of::<NetworkGraph>()
    );
    let adj: Vec<HashSet<usize>> = rows
        .iter()
        .map(|r| (0..64).filter(|j| r >> j & 1 == 1).collect())
        .collect();
    // SAFETY: NetworkGraph is a struct of this one field, of the same size and alignment (above).
    unsafe { std::mem::transmute::<Vec<HashSet<usize>>, NetworkGraph>(adj) }
}

pub fn rows_of_graph(g: &NetworkGraph) -> Vec<u64> {
    (0..g.num_nodes())
        .map(|i| g.neighbors(i).iter().fold(0, |r, j| r | 1 << j))
        .collect()
}

/// The positions that i reaches, by the Rust's neighbours. A position reaches itself (RULES 2.3).
pub fn reached(g: &NetworkGraph, i: usize) -> Vec<bool> {
    let mut seen = vec![false; g.num_nodes()];
    seen[i] = true;
    let mut waiting = vec![i];
    while let Some(u) = waiting.pop() {
        for v in g.neighbors(u) {
            if !seen[v] {
                seen[v] = true;
                waiting.push(v);
            }
        }
    }
    seen
}

// ---- merge and votes ----

pub fn protocol(n: usize, term: u64, p: f64, seed: u64) -> TwoPcCE {
    TwoPcCE {
        num_nodes: n,
        current_term: term,
        abort_probability: p,
        seed,
    }
}

/// `merge`: true for NewInfo, and what local is afterwards.
pub fn merge(n: usize, p: f64, seed: u64, position: usize, local: &[u8], received: &[u8]) -> (bool, Vec<u8>) {
    let mut local = local.to_vec();
    let r = protocol(n, 0, p, seed).merge(&mut local, received, position);
    (r == MergeResult::NewInfo, local)
}

/// `should_abort_app` is private: the initiator of a proposal shows its vote. True for yes. Terms from 1.
pub fn votes_yes(term: u64, position: usize, p: f64, seed: u64) -> bool {
    let text = protocol(0, term - 1, p, seed).init_proposal(position, position + 1);
    let packet: ctsim::protocol::two_pc_ce::CeTwoPcPacket = serde_json::from_slice(&text).unwrap();
    packet.phase != ctsim::protocol::two_pc_ce::TwoPcCePhase::Aborted
}

// ---- what the program's metrics hold ----

/// The rows written since there were `from` of them, five numbers each.
#[allow(dead_code)]
pub fn rows_since(m: &MetricsCollector, from: usize) -> Vec<u64> {
    m.snapshots[from..]
        .iter()
        .flat_map(|s| {
            [
                s.slot,
                s.nodes_goal_reached as u64,
                s.nodes_listening as u64,
                s.nodes_flooding as u64,
                s.nodes_sleeping as u64,
            ]
        })
        .collect()
}

/// The counts, in the order in which ours stand in a list of numbers.
#[allow(dead_code)]
pub fn counts(m: &MetricsCollector) -> [u64; 8] {
    [
        m.nacks_sent,
        m.piggybacks_sent,
        m.ce_timeouts,
        m.rx_attempts,
        m.rx_success,
        m.flood_rounds,
        m.flood_nodes_total,
        m.flood_nodes_covered,
    ]
}

/// The records: transaction, slots at which it was generated and recorded, and whether it was committed.
#[allow(dead_code)]
pub fn records(m: &MetricsCollector) -> Vec<(u64, u64, u64, bool)> {
    m.proposals
        .iter()
        .map(|p| {
            let yes = p.outcome == ProposalOutcome::Committed;
            (p.proposal_id as u64, p.start_slot, p.end_slot, yes)
        })
        .collect()
}

// ---- capture rooms ----

pub struct Capture {
    pub protocol: TwoPcCE,
    pub nodes: Vec<Node>,
    pub graph: NetworkGraph,
    pub loss: f64,
    pub timeout: u64,
    pub round_slots: u64,
    pub interval: u64,
    pub metrics: MetricsCollector,
    pub next_row: u64,
    pub slot: u64,
    pub initiator: usize,
    /// Ours (RULES 8.9): the present term's goal was reached in an earlier round.
    pub term_done: bool,
    /// Ours (RULES 7.5): bytes sent over all rounds.
    pub bytes: u64,
}

/// A capture round that ran to its own end.
pub struct Ran {
    pub end: u64,
    pub goal: bool,
    /// The positions at the round's start and after each of its slots. The last of a round with goal was only ticked.
    pub moments: Vec<Vec<Node>>,
}

impl Capture {
    #[allow(clippy::too_many_arguments)]
    pub fn open(
        graph: NetworkGraph,
        start_term: u64,
        p: f64,
        seed: u64,
        loss: f64,
        timeout: u64,
        round_slots: u64,
        interval: u64,
    ) -> Capture {
        let n = graph.num_nodes();
        Capture {
            protocol: protocol(n, start_term, p, seed),
            nodes: (0..n).map(Node::new).collect(),
            graph,
            loss,
            timeout,
            round_slots,
            interval,
            metrics: MetricsCollector::new(),
            next_row: 0,
            slot: 0,
            initiator: 0,
            term_done: false,
            bytes: 0,
        }
    }

    pub fn propose(&mut self, initiator: usize) {
        let n = self.nodes.len();
        let text = self.protocol.init_proposal(initiator, n);
        for i in 0..n {
            self.nodes[i].payload = self.protocol.init_node_payload(i);
        }
        self.nodes[initiator].payload = text;
        self.initiator = initiator;
        self.term_done = false;
    }

    pub fn run(&self, slots: u64, rng: &mut ChaCha8Rng) -> (u64, bool, Vec<Node>, MetricsCollector, u64) {
        let mut nodes = self.nodes.clone();
        let mut metrics = self.metrics.clone();
        let mut next_row = self.next_row;
        let (end, goal) = run_ce_round(
            self.slot,
            self.initiator,
            &mut nodes,
            &self.graph,
            &CeConfig {
                listen_timeout: self.timeout,
                max_round_slots: slots,
            },
            &self.protocol,
            rng,
            self.loss,
            &mut metrics,
            &mut next_row,
            self.interval,
        );
        (end, goal, nodes, metrics, next_row)
    }

    /// The positions before each of the first `slots` slots of a round: it is run anew with every shorter length, and since the words are the same the slots are.
    fn moments(&self, slots: u64, rng: &ChaCha8Rng) -> Vec<Vec<Node>> {
        (0..slots).map(|k| self.run(k, &mut rng.clone()).2).collect()
    }

    /// One round. A missing word leaves room and generator as they were.
    pub fn round(&mut self, rng: &mut ChaCha8Rng) -> Result<Ran, MissingWord> {
        let mut whole = rng.clone();
        let after = caught(|| self.run(self.round_slots, &mut whole))?;
        let (end, goal) = (after.0, after.1);
        let mut moments = self.moments(end - self.slot, rng);
        moments.push(after.2.clone());
        let acted = moments.len() - 1 - usize::from(goal);
        self.settle(after, &moments[..acted]);
        *rng = whole;
        Ok(Ran { end, goal, moments })
    }

    /// A round of many slots, of which the first `short` alone are looked at one by one; None if anybody floods behind them.
    pub fn long_round(&mut self, short: u64, rng: &mut ChaCha8Rng) -> Option<Result<(), MissingWord>> {
        let mut whole = rng.clone();
        let after = match caught(|| self.run(self.round_slots, &mut whole)) {
            Ok(after) => after,
            Err(missing) => return Some(Err(missing)),
        };
        let floods = |nodes: &[Node]| nodes.iter().map(|v| v.slots_flood).sum::<u64>();
        let early = self.run(short, &mut rng.clone()).2;
        if floods(&early) != floods(&after.2) || after.0 - self.slot < short {
            return None;
        }
        let moments = self.moments(short, rng);
        self.settle(after, &moments);
        *rng = whole;
        Some(Ok(()))
    }

    /// The room after a round. Bytes sent (RULES 8.6): every flooding position of a slot whose goal test failed (`acted`).
    fn settle(&mut self, after: (u64, bool, Vec<Node>, MetricsCollector, u64), acted: &[Vec<Node>]) {
        let goal = after.1;
        for node in acted.iter().flatten() {
            if node.state == NodeState::Flood {
                self.bytes += node.payload.len() as u64 + HEADER;
            }
        }
        (self.slot, _, self.nodes, self.metrics, self.next_row) = after;
        // The progress raise (RULES 8.9): the first round of a term that reaches the goal.
        if goal && !self.term_done {
            self.term_done = true;
            for node in &mut self.nodes {
                node.progress_count += 1;
            }
        }
    }

    /// Where the cursor would stand after a round; room and generator are not moved.
    pub fn cursor_after(&self, rng: &ChaCha8Rng) -> Result<u64, MissingWord> {
        let mut whole = rng.clone();
        caught(|| self.run(self.round_slots, &mut whole))?;
        Ok(whole.cursor())
    }

    pub fn outcome(&self) -> ProposalOutcome {
        let payloads: Vec<Vec<u8>> = self.nodes.iter().map(|n| n.payload.clone()).collect();
        self.protocol.proposal_outcome(&payloads)
    }

    /// The outcome of RULES 6.7, from the packets that the Rust's positions hold. With TimedOut taken for Aborted it is
    /// the Rust's own.
    pub fn graded(&self) -> ProposalOutcome {
        let holds = |n: &Node, phase| {
            serde_json::from_slice::<CeTwoPcPacket>(&n.payload).is_ok_and(|p| p.phase == phase)
        };
        let aborted = self.nodes.iter().filter(|n| holds(n, TwoPcCePhase::Aborted)).count();
        let committed = self.nodes.iter().filter(|n| holds(n, TwoPcCePhase::Committed)).count();
        let (graded, mapped) = if aborted > 0 {
            (ProposalOutcome::Aborted, ProposalOutcome::Aborted)
        } else if committed == self.nodes.len() {
            (ProposalOutcome::Committed, ProposalOutcome::Committed)
        } else {
            (ProposalOutcome::TimedOut, ProposalOutcome::Aborted)
        };
        assert_eq!(mapped, self.outcome(), "proposal_outcome, TimedOut taken for Aborted");
        graded
    }
}

// ---- identical flood ----

/// One flood of what the initiator holds, from any states.
#[allow(clippy::too_many_arguments)]
pub fn flood(
    start: u64,
    initiator: usize,
    nodes: &mut [Node],
    graph: &NetworkGraph,
    repeats: u32,
    round_slots: Option<u64>,
    rng: &mut ChaCha8Rng,
    loss: f64,
    metrics: &mut MetricsCollector,
    next_row: &mut u64,
    interval: u64,
) -> Result<u64, MissingWord> {
    let config = CiConfig {
        flood_repeats: repeats,
        round_slots,
    };
    caught(|| {
        flood_identical_round(
            start, initiator, nodes, graph, &config, rng, loss, metrics, next_row, interval,
        )
    })
}

// ---- pipeline rooms ----

#[allow(clippy::too_many_arguments)]
pub fn config(
    n: usize,
    transactions: usize,
    p: f64,
    loss: f64,
    repeats: u32,
    round_slots: Option<u64>,
    interval: u64,
    bound: u64,
) -> SimConfig {
    SimConfig {
        seed: 0,
        phy_mode: "ci".into(),
        network: NetworkConfig {
            num_nodes: n,
            topology: String::new(),
            loss_rate: loss,
            graph_file: None,
        },
        ci: Some(CiConfig {
            flood_repeats: repeats,
            round_slots,
        }),
        ce: None,
        protocol: String::new(),
        num_proposals: transactions,
        snapshot_interval: interval,
        max_slots: bound,
        abort_probability: p,
        quiet: true,
    }
}

pub struct PipelineRoom {
    pub core: CiPipelineCore,
    pub door: Box<dyn Pipeline>,
    pub rounds: u64,
    pub stopped: bool,
    /// Ours (RULES 7.5): bytes sent over all rounds.
    pub bytes: u64,
}

impl PipelineRoom {
    pub fn open(config: SimConfig, graph: NetworkGraph, words: &[u64], cursor: u64) -> PipelineRoom {
        let (n, t, p) = (graph.num_nodes(), config.num_proposals, config.abort_probability);
        let mut core = CiPipelineCore::new(config, graph);
        core.rng = ChaCha8Rng::of_words(words, cursor);
        PipelineRoom {
            core,
            door: TwoPcPipeline::open(n, t, p),
            rounds: 0,
            stopped: false,
            bytes: 0,
        }
    }

    pub fn floods(&self) -> u64 {
        self.core.nodes.iter().map(|n| n.slots_flood).sum()
    }

    /// One round, as `run_ci_pipeline` does it. A missing word leaves the room half done: what comes after is to be replayed
    /// from the opening, since the Rust's state can't be copied.
    pub fn round(&mut self) -> Result<(), MissingWord> {
        assert!(!self.stopped && self.core.current_slot < self.core.config.max_slots);
        caught(|| {
            self.door.prepare_round(&mut self.core);
            let length = self.core.nodes[self.core.initiator()].payload.len() as u64;
            let before = self.floods();
            self.core.flood_identical();
            // Bytes sent (RULES 7.5): every flooder sends a header and the initiator's payload.
            self.bytes += (self.floods() - before) * (length + HEADER);
            self.door.process_round(&mut self.core);
            self.rounds += 1;
            if self.door.should_stop(&self.core) {
                self.stopped = true;
            } else {
                self.core.round_num += 1;
            }
        })
    }

    pub fn run(&mut self) -> Result<(), MissingWord> {
        while !self.stopped && self.core.current_slot < self.core.config.max_slots {
            self.round()?;
        }
        Ok(())
    }
}
