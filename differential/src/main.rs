//! Compares our archives with the original program, part by part. See README.md.

mod capture;
mod frame;
mod graph;
mod late;
mod merges;
mod oracle;
mod packets;
mod pipeline;
mod prng;
mod room;
mod selftest;
mod tally;
#[allow(dead_code)]
mod time;

use tally::Tally;

struct Options {
    seed: u64,
    scale: u64,
    /// no comparison, the times alone
    times_only: bool,
}

/// A part: its name and what runs it, if its archive is linked.
type Part = (&'static str, Option<fn(&Options) -> Tally>);

fn parts() -> Vec<Part> {
    #[allow(unused_mut, clippy::vec_init_then_push)]
    let mut all: Vec<Part> = vec![
        ("graph", None),
        ("packets", None),
        ("merge", None),
        ("capture", None),
        ("pipeline", None),
        ("room", None),
        ("frame", None),
        ("late", None),
    ];
    // no archive: it runs the program that PLANNER names
    if std::env::var_os("PLANNER").is_some() {
        all[6].1 = Some(frame::run);
    }
    #[cfg(feature = "graph")]
    {
        all[0].1 = Some(graph::run);
    }
    #[cfg(feature = "packets")]
    {
        all[1].1 = Some(packets::run);
        all[2].1 = Some(merges::run);
        all[7].1 = Some(late::run);
    }
    #[cfg(feature = "engines")]
    {
        all[3].1 = Some(capture::run);
    }
    #[cfg(feature = "pipeline")]
    {
        all[4].1 = Some(pipeline::run);
    }
    #[cfg(feature = "room")]
    {
        all[5].1 = Some(room::run);
    }
    all
}

fn usage(why: &str) -> ! {
    eprintln!("{why}");
    eprintln!("differential [--seed N] [--scale N] [--times | --oracle-only | --sample PART] [PART...]");
    std::process::exit(2)
}

fn main() {
    let mut options = Options {
        seed: 1,
        scale: 1,
        times_only: false,
    };
    let (mut wanted, mut oracle_only, mut sample) = (Vec::new(), false, None);
    let mut args = std::env::args().skip(1);
    while let Some(a) = args.next() {
        let mut number = || match args.next().map(|n| n.parse::<u64>()) {
            Some(Ok(n)) => n,
            _ => usage(&format!("{a} wants a number")),
        };
        match a.as_str() {
            "--seed" => options.seed = number(),
            "--scale" => options.scale = number(),
            "--times" => options.times_only = true,
            "--oracle-only" => oracle_only = true,
            "--sample" => sample = Some(args.next().unwrap_or_else(|| usage("--sample wants a part"))),
            _ if a.starts_with('-') => usage(&format!("unknown: {a}")),
            _ => wanted.push(a),
        }
    }
    oracle::quiet_panics();
    if let Some(part) = sample {
        match part.as_str() {
            "graph" => graph::sample(),
            "packets" => packets::sample(),
            "merge" => merges::sample(),
            "late" => late::sample(),
            "capture" => capture::sample(),
            "pipeline" => pipeline::sample(),
            "room" => room::sample(),
            "frame" => frame::sample(),
            _ => usage(&format!("no sample of {part}")),
        }
        return;
    }
    println!("the Rust: {}", ctsim::SOURCE);
    println!("seed {}, scale {}", options.seed, options.scale);
    if oracle_only {
        std::process::exit(if selftest::run(options.seed) { 0 } else { 1 });
    }
    let all = parts();
    for w in &wanted {
        match all.iter().find(|p| p.0 == w) {
            None => usage(&format!("no part {w}")),
            Some((_, None)) => usage(&format!("part {w}: its archive is not linked, or PLANNER not set")),
            _ => {}
        }
    }
    let (mut compared, mut differences, mut ran) = (0, 0, 0);
    for (name, run) in all {
        let Some(run) = run else { continue };
        if !wanted.is_empty() && !wanted.iter().any(|w| w == name) {
            continue;
        }
        let t = run(&options);
        t.print();
        ran += 1;
        compared += t.compared;
        differences += t.differences;
    }
    if ran == 0 {
        println!("no part was run: no archive is linked");
    }
    println!("total: {compared} compared, {differences} differences");
    std::process::exit(if differences > 0 || ran == 0 { 1 } else { 0 });
}
