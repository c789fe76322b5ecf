//! The original program, compiled from its own files (see build.rs), and a door into its pipeline.
#![allow(dead_code, unused, non_local_definitions)]

/// The pipeline protocol `TwoPcCi` is private to its file. The file prints one line when it starts; this
/// `println!` stands before the file, prints the same, and in that one place also says, inside the file and so with sight of what
/// is private there, how to make a `TwoPcCi` and read its fields. The file is not changed, and what the line does is not either.
macro_rules! println {
    (
        "Starting Non-blocking 2PC Pipeline (CI mode): {} nodes, {} TXs, diameter={}",
        $($rest:tt)*
    ) => {{
        impl crate::door::Pipeline for TwoPcCi {
            fn prepare_round(&mut self, core: &mut CiPipelineCore) {
                CiProtocol::prepare_round(self, core)
            }
            fn process_round(&mut self, core: &mut CiPipelineCore) {
                CiProtocol::process_round(self, core)
            }
            fn should_stop(&self, core: &CiPipelineCore) -> bool {
                CiProtocol::should_stop(self, core)
            }
            fn states(&self) -> &[NodeTwoPcState] {
                &self.states
            }
            fn tx_counter(&self) -> u64 {
                self.tx_counter
            }
            fn txs_generated(&self) -> usize {
                self.txs_generated
            }
            fn tx_start(&self, tx: u64) -> Option<u64> {
                self.tx_starts.get(&tx).copied()
            }
            fn piggyback(&self) -> (Option<u64>, Option<TwoPcState>) {
                (self.piggyback_tx, self.piggyback_state)
            }
            fn recorded(&self, tx: u64) -> bool {
                self.recorded.contains(&tx)
            }
        }
        impl crate::door::Open for crate::door::TwoPcPipeline {
            // The same start as in `TwoPcPipelineSim::run`.
            fn open(n: usize, num_txs: usize, abort_probability: f64) -> Box<dyn crate::door::Pipeline> {
                Box::new(TwoPcCi {
                    states: vec![NodeTwoPcState::new(n); n],
                    tx_counter: 0,
                    txs_generated: 0,
                    num_txs,
                    abort_probability,
                    tx_starts: HashMap::new(),
                    piggyback_tx: None,
                    piggyback_state: None,
                    stop: false,
                    recorded: HashSet::new(),
                })
            }
        }
        std::println!(
            "Starting Non-blocking 2PC Pipeline (CI mode): {} nodes, {} TXs, diameter={}",
            $($rest)*
        )
    }};
    ($($all:tt)*) => {
        std::println!($($all)*)
    };
}

include!(concat!(env!("OUT_DIR"), "/tree.rs"));

/// What `TwoPcCi` shows through the door.
pub mod door {
    use crate::protocol::two_pc_pipeline::{NodeTwoPcState, TwoPcState};
    use crate::sim::pipeline::CiPipelineCore;

    pub trait Pipeline {
        fn prepare_round(&mut self, core: &mut CiPipelineCore);
        fn process_round(&mut self, core: &mut CiPipelineCore);
        fn should_stop(&self, core: &CiPipelineCore) -> bool;
        fn states(&self) -> &[NodeTwoPcState];
        fn tx_counter(&self) -> u64;
        fn txs_generated(&self) -> usize;
        fn tx_start(&self, tx: u64) -> Option<u64>;
        fn piggyback(&self) -> (Option<u64>, Option<TwoPcState>);
        fn recorded(&self, tx: u64) -> bool;
    }

    pub trait Open {
        fn open(n: usize, num_txs: usize, abort_probability: f64) -> Box<dyn Pipeline>;
    }

    pub struct TwoPcPipeline;
}
