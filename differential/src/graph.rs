//! Part `graph`: neighbours, diameter, builders. The Rust's `neighbors` and `diameter` are the oracle; the refusals
//! are those of RULES 15.

use crate::oracle::{graph_of_rows, rows_of_graph};
use crate::prng::Prng;
use ctsim::network::NetworkGraph;

/// Marks of the positions below n.
fn all_of(n: usize) -> u64 {
    if n == 64 {
        u64::MAX
    } else {
        (1 << n) - 1
    }
}

fn count(r: &mut Prng) -> usize {
    match r.below(8) {
        0 => 64,
        1 => 1 + r.index(4),
        2 => 60 + r.index(5),
        _ => 1 + r.index(64),
    }
}

/// Links of many shapes: one-way, to oneself, with parts that nobody reaches.
pub fn random_rows(r: &mut Prng) -> Vec<u64> {
    let n = count(r);
    random_rows_of(r, n)
}

pub fn random_rows_of(r: &mut Prng, n: usize) -> Vec<u64> {
    let mut rows = vec![0u64; n];
    // An order of the positions, so that no shape leans on their numbers.
    let mut order: Vec<usize> = (0..n).collect();
    for i in (1..n).rev() {
        order.swap(i, r.index(i + 1));
    }
    match r.below(9) {
        // a handful of links, from none to one a position
        0 => {
            for _ in 0..r.index(n + 1) {
                rows[r.index(n)] |= 1 << r.index(n);
            }
        }
        // one to three links a position
        1 => {
            let each = 1 + r.index(3);
            for row in rows.iter_mut() {
                for _ in 0..each {
                    *row |= 1 << r.index(n);
                }
            }
        }
        // a tree or a forest, links down, up or both ways
        2 | 3 => {
            let way = r.below(4);
            let near = 1 + r.index(4);
            for k in 1..n {
                if r.chance(1, 16) {
                    continue;
                }
                let above = order[if r.chance(1, 2) {
                    r.index(k)
                } else {
                    k - 1 - r.index(near.min(k))
                }];
                let below = order[k];
                let down = way == 0 || way == 2 || (way == 3 && r.chance(1, 2));
                if down || way == 3 {
                    rows[above] |= 1 << below;
                }
                if way == 1 || way == 2 || (way == 3 && !down) {
                    rows[below] |= 1 << above;
                }
            }
        }
        // one long way round, open or closed, with a few short cuts
        4 => {
            for k in 1..n {
                rows[order[k - 1]] |= 1 << order[k];
            }
            if r.chance(1, 2) {
                rows[order[n - 1]] |= 1 << order[0];
            }
            for _ in 0..r.index(4) {
                rows[r.index(n)] |= 1 << r.index(n);
            }
        }
        // two or more parts with links inside and few or none between, one way
        5 => {
            let parts = 2 + r.index(4);
            let dense = 1 + r.below(15);
            for i in 0..n {
                for j in 0..n {
                    if i % parts == j % parts && r.chance(dense, 16) {
                        rows[order[i]] |= 1 << order[j];
                    }
                }
            }
            if r.chance(1, 2) {
                rows[r.index(n)] |= 1 << r.index(n);
            }
        }
        // dense: nearly all links
        6 => {
            for row in rows.iter_mut() {
                *row = (r.next() | r.next() | r.next()) & all_of(n);
            }
        }
        // half of all links
        7 => {
            for row in rows.iter_mut() {
                *row = r.next() & all_of(n);
            }
        }
        // any density
        _ => {
            let dense = r.below(65);
            for row in rows.iter_mut() {
                for j in 0..n {
                    if r.chance(dense, 64) {
                        *row |= 1 << j;
                    }
                }
            }
        }
    }
    // links to oneself: none, some, all
    match r.below(4) {
        0 => (0..n).for_each(|i| rows[i] &= !(1 << i)),
        1 => (0..n).for_each(|i| rows[i] |= 1 << i),
        _ => {}
    }
    rows
}

/// The Rust's builder. Topologies 1 mesh, 2 line, 3 ring, 4 grid (rows), 5 tree (branching).
fn built(topology: u64, n: usize, argument: u64) -> NetworkGraph {
    match topology {
        1 => NetworkGraph::full_mesh(n),
        2 => NetworkGraph::line(n),
        3 => NetworkGraph::ring(n),
        4 => NetworkGraph::grid(argument as usize, n / argument as usize),
        // The Rust counts j up to the branching, which would not end for very large ones. From 64 on every branching
        // gives the same links below 64 positions (0 with all others), so those above 4096 stand for 64.
        5 if argument > 4096 => NetworkGraph::tree(n, 64),
        5 => NetworkGraph::tree(n, argument as usize),
        _ => panic!("no such topology"),
    }
}

fn line(words: &[String], end: &str) -> String {
    words.join(" ") + end
}

fn numbers(list: &[u64]) -> Vec<String> {
    list.iter().map(|x| x.to_string()).collect()
}

/// The Rust's answers for the gate, always the same ones: no seed and no scale.
pub fn sample() {
    let mut r = Prng::of(0, "sample graph");
    println!("# The Rust: {}", ctsim::SOURCE);
    println!("# n row0 .. row(n-1) | diameter | i count neighbours of i, rising");
    let sizes = [
        1, 1, 1, 2, 2, 2, 3, 3, 4, 5, 6, 7, 8, 12, 16, 31, 32, 33, 48, 60, 62, 63, 64, 64, 64, 64,
    ];
    for k in 0..64 {
        let n = match sizes.get(k) {
            Some(n) => *n,
            None => 1 + r.index(64),
        };
        let rows = random_rows_of(&mut r, n);
        let g = graph_of_rows(&rows);
        let i = r.index(n);
        let near: Vec<u64> = g.neighbors(i).iter().map(|j| *j as u64).collect();
        let mut all = vec![n as u64];
        all.extend(&rows);
        let mut of_i = vec![i as u64, near.len() as u64];
        of_i.extend(&near);
        println!(
            "{}{}{}",
            line(&numbers(&all), " | "),
            line(&[g.diameter().to_string()], " | "),
            line(&numbers(&of_i), "")
        );
    }
    println!("# topology n argument | row0 .. row(n-1) | diameter");
    let builders: [(u64, usize, u64); 36] = [
        (1, 1, 0),
        (1, 2, 0),
        (1, 5, 0),
        (1, 63, 0),
        (1, 64, 0),
        (2, 1, 0),
        (2, 2, 0),
        (2, 3, 0),
        (2, 63, 0),
        (2, 64, 0),
        (3, 1, 0),
        (3, 2, 0),
        (3, 3, 0),
        (3, 4, 0),
        (3, 63, 0),
        (3, 64, 0),
        (4, 1, 1),
        (4, 6, 1),
        (4, 6, 2),
        (4, 6, 3),
        (4, 6, 6),
        (4, 64, 8),
        (4, 64, 2),
        (4, 63, 7),
        (5, 1, 0),
        (5, 7, 0),
        (5, 7, 1),
        (5, 7, 2),
        (5, 40, 3),
        (5, 64, 2),
        (5, 64, 7),
        (5, 64, 63),
        (5, 64, 64),
        (5, 64, 255),
        (5, 64, 4294967296),
        (5, 64, 18446744073709551615),
    ];
    for (topology, n, argument) in builders {
        let g = built(topology, n, argument);
        println!(
            "{}{}{}",
            line(&numbers(&[topology, n as u64, argument]), " | "),
            line(&numbers(&rows_of_graph(&g)), " | "),
            line(&[g.diameter().to_string()], "")
        );
    }
}

#[cfg(feature = "graph")]
pub use comparison::run;

#[cfg(feature = "graph")]
mod comparison {
    use super::*;
    use crate::oracle::reached;
    use crate::tally::Tally;
    use crate::{time, Options};

    mod c {
        extern "C" {
            pub fn graph_build(topology: u64, n: u64, argument: u64, rows: *mut u64, rows_len: usize) -> u64;
            pub fn graph_neighbors(
                rows: *const u64,
                n: usize,
                i: u64,
                out: *mut u64,
                out_len: usize,
                count: *mut u64,
            ) -> u64;
            pub fn graph_diameter(rows: *const u64, n: usize, out: *mut u64) -> u64;
            pub fn graph_has_link(rows: *const u64, n: usize, i: u64, j: u64, out: *mut u64) -> u64;
            pub fn graph_reaches(rows: *const u64, n: usize, i: u64, j: u64, out: *mut u64) -> u64;
        }
    }

    /// What a lent number is before the call: an untouched one still is.
    const WAS: u64 = 0xA5A5_A5A5_A5A5_A5A5;
    /// Lent lists are this long, of which the call is told of fewer.
    const LENT: usize = 72;

    // An answer is the refusal and everything that was lent, so that what a call must leave alone is compared too.

    fn build(topology: u64, n: u64, argument: u64, told: usize) -> (u64, Vec<u64>) {
        let mut rows = vec![WAS; LENT];
        let r = unsafe { c::graph_build(topology, n, argument, rows.as_mut_ptr(), told) };
        (r, rows)
    }

    fn neighbors(rows: &[u64], i: u64, told: usize) -> (u64, Vec<u64>, u64) {
        let (mut out, mut count) = (vec![WAS; LENT], WAS);
        let r = unsafe { c::graph_neighbors(rows.as_ptr(), rows.len(), i, out.as_mut_ptr(), told, &mut count) };
        (r, out, count)
    }

    fn diameter(rows: &[u64]) -> (u64, u64) {
        let mut out = WAS;
        let r = unsafe { c::graph_diameter(rows.as_ptr(), rows.len(), &mut out) };
        (r, out)
    }

    fn has_link(rows: &[u64], i: u64, j: u64) -> (u64, u64) {
        let mut out = WAS;
        let r = unsafe { c::graph_has_link(rows.as_ptr(), rows.len(), i, j, &mut out) };
        (r, out)
    }

    fn reaches(rows: &[u64], i: u64, j: u64) -> (u64, u64) {
        let mut out = WAS;
        let r = unsafe { c::graph_reaches(rows.as_ptr(), rows.len(), i, j, &mut out) };
        (r, out)
    }

    fn lent(first: &[u64]) -> Vec<u64> {
        let mut v = first.to_vec();
        v.resize(64, 0);
        v.resize(LENT, WAS);
        v
    }

    fn size(rows: &[u64]) -> usize {
        rows.len() * 100 + rows.iter().map(|r| r.count_ones() as usize).sum::<usize>()
    }

    fn shown(rows: &[u64]) -> String {
        format!("n {} rows {rows:?}", rows.len())
    }

    /// All that is asked of one graph. `every` asks for all pairs, else for some. The Rust's diameter is handed back.
    fn compare(t: &mut Tally, rows: &[u64], every: bool, r: &mut Prng) -> usize {
        let n = rows.len();
        let g = graph_of_rows(rows);
        let at = size(rows);
        let d = g.diameter();
        t.same("diameter", at, || shown(rows), &diameter(rows), &(0, d as u64));
        let mut reach: Vec<Option<Vec<bool>>> = vec![None; n];
        for i in 0..n {
            let near: Vec<u64> = g.neighbors(i).iter().map(|j| *j as u64).collect();
            let told = if every { 64 } else { 64 + r.index(9) };
            t.same(
                "neighbours",
                at,
                || format!("{} i {i} out_len {told}", shown(rows)),
                &neighbors(rows, i as u64, told),
                &(0, lent(&near), near.len() as u64),
            );
        }
        let mut pair = |i: usize, j: usize| {
            let there = reach[i].get_or_insert_with(|| reached(&g, i))[j];
            let is = g.neighbors(i).contains(&j);
            let input = || format!("{} i {i} j {j}", shown(rows));
            let (i, j) = (i as u64, j as u64);
            t.same("has_link", at, input, &has_link(rows, i, j), &(0, u64::from(is)));
            t.same("reaches", at, input, &reaches(rows, i, j), &(0, u64::from(there)));
        };
        if every {
            for i in 0..n {
                for j in 0..n {
                    pair(i, j);
                }
            }
        } else {
            for _ in 0..8 {
                pair(r.index(n), r.index(n));
            }
            let i = r.index(n);
            pair(i, i);
        }
        d
    }

    const KINDS: [&str; 4] = ["diameter", "neighbours", "has_link", "reaches"];

    /// Takes positions and links away as long as this kind of difference stays.
    fn shrink(t: &mut Tally, kind: &str, rows: &[u64], r: &mut Prng) {
        let mut differs = |rows: &[u64]| {
            let mut trial = Tally::new("graph");
            compare(&mut trial, rows, true, r);
            trial.times(kind) > 0
        };
        let mut rows = rows.to_vec();
        if !differs(&rows) {
            return;
        }
        'again: loop {
            for gone in 0..rows.len() {
                let low = (1u64 << gone) - 1;
                let fewer: Vec<u64> = (0..rows.len())
                    .filter(|i| *i != gone)
                    .map(|i| (rows[i] & low) | ((rows[i] >> 1) & !low))
                    .collect();
                if !fewer.is_empty() && differs(&fewer) {
                    rows = fewer;
                    continue 'again;
                }
            }
            for i in 0..rows.len() {
                for j in 0..rows.len() {
                    if rows[i] >> j & 1 == 1 {
                        rows[i] ^= 1 << j;
                        if differs(&rows) {
                            continue 'again;
                        }
                        rows[i] ^= 1 << j;
                    }
                }
            }
            break;
        }
        let mut trial = Tally::new("graph");
        compare(&mut trial, &rows, true, r);
        t.take_smallest(kind, &trial);
    }

    fn builders(t: &mut Tally, r: &mut Prng) {
        let mut branchings: Vec<u64> = (0..=70).collect();
        branchings.extend([127, 128, 255, 256, 4096]);
        branchings.extend([
            1 << 31,
            1 << 32,
            1 << 63,
            (1 << 63) + 1,
            u64::MAX - 63,
            u64::MAX - 1,
            u64::MAX,
        ]);
        // i × b + j wraps to a small number if it is taken modulo 2^64: 2 × (2^63 + 1) + 1 = 3.
        for k in 2..64u64 {
            branchings.push((u64::MAX / k).wrapping_add(1));
            branchings.push(r.next());
        }
        for n in 1..=64u64 {
            let mut all: Vec<(u64, u64)> = vec![(1, 0), (2, 0), (3, 0)];
            all.extend((1..=n).filter(|rows| n % rows == 0).map(|rows| (4, rows)));
            all.extend(branchings.iter().map(|b| (5, *b)));
            for (topology, argument) in all {
                let g = built(topology, n as usize, argument);
                let rows = rows_of_graph(&g);
                let input = || format!("topology {topology} n {n} argument {argument}");
                t.same(
                    "build",
                    n as usize,
                    input,
                    &build(topology, n, argument, 64),
                    &(0, lent(&rows)),
                );
                t.same(
                    "build",
                    n as usize,
                    input,
                    &build(topology, n, argument, LENT),
                    &(0, lent(&rows)),
                );
                t.same(
                    "diameter of built",
                    n as usize,
                    input,
                    &diameter(&rows),
                    &(0, g.diameter() as u64),
                );
                let short = r.index(64);
                let input = || format!("topology {topology} n {n} argument {argument} rows_len {short}");
                t.same(
                    "build, short list",
                    n as usize,
                    input,
                    &build(topology, n, argument, short),
                    &(10, vec![WAS; LENT]),
                );
            }
        }
    }

    fn refusals(t: &mut Tally, r: &mut Prng) {
        let untouched = vec![WAS; LENT];
        let odd = [
            0,
            1,
            2,
            3,
            4,
            5,
            6,
            7,
            8,
            63,
            64,
            65,
            255,
            256,
            1 << 32,
            (1 << 32) + 1,
            1 << 63,
            u64::MAX,
        ];
        for topology in odd {
            for n in (0..=66).chain([127, 128, 256, 257, 1 << 32, (1 << 32) + 1, u64::MAX - 1, u64::MAX]) {
                for argument in odd.iter().copied().chain([r.next(), 9, 16, 21, 32]) {
                    let right = match topology {
                        1..=3 => argument == 0,
                        4 => argument != 0 && n % argument == 0,
                        5 => true,
                        _ => false,
                    };
                    let refusal = if !(1..=64).contains(&n) {
                        2
                    } else if !right {
                        3
                    } else {
                        continue;
                    };
                    for told in [64, LENT, 63, 0] {
                        let input = || format!("topology {topology} n {n} argument {argument} rows_len {told}");
                        t.same(
                            "build refused",
                            0,
                            input,
                            &build(topology, n, argument, told),
                            &(refusal, untouched.clone()),
                        );
                    }
                }
            }
        }
        // Rows: 2, 3, then 8, then 10. Beyond 64 rows any marks.
        let all_refused = |t: &mut Tally, rows: &[u64], i: u64, j: u64, told: usize, refusal: u64| {
            let input = || format!("{} i {i} j {j} out_len {told}", shown(rows));
            let at = size(rows);
            t.same(
                "neighbours refused",
                at,
                input,
                &neighbors(rows, i, told),
                &(refusal, untouched.clone(), WAS),
            );
            if refusal < 8 {
                t.same("diameter refused", at, input, &diameter(rows), &(refusal, WAS));
            }
            if refusal < 10 {
                t.same("has_link refused", at, input, &has_link(rows, i, j), &(refusal, WAS));
                t.same("reaches refused", at, input, &reaches(rows, i, j), &(refusal, WAS));
            }
        };
        for told in [64, LENT, 63, 0] {
            for n in [0, 65, 66, 128, 1000] {
                for i in [0, 1, 64, u64::MAX] {
                    all_refused(t, &vec![0; n], i, 0, told, 2);
                    all_refused(t, &vec![u64::MAX; n], 0, i, told, 2);
                }
            }
            for n in 1..64usize {
                for mark in n..64 {
                    let mut rows = random_rows_of(r, n);
                    let at = r.index(n);
                    rows[at] |= 1 << mark;
                    let i = *r.pick(&[0, n as u64 - 1, n as u64, 64, u64::MAX]);
                    all_refused(t, &rows, i, r.index(n) as u64, told, 3);
                }
            }
            for n in 1..=64usize {
                let rows = random_rows_of(r, n);
                for i in [n as u64, n as u64 + 1, 64, 65, 128, 1 << 32, 1 << 63, u64::MAX] {
                    if i >= n as u64 {
                        let other = r.index(n) as u64;
                        all_refused(t, &rows, i, other, told, 8);
                        let input = || format!("{} i {other} j {i}", shown(&rows));
                        t.same(
                            "has_link refused",
                            size(&rows),
                            input,
                            &has_link(&rows, other, i),
                            &(8, WAS),
                        );
                        t.same(
                            "reaches refused",
                            size(&rows),
                            input,
                            &reaches(&rows, other, i),
                            &(8, WAS),
                        );
                    }
                }
                if told < 64 {
                    all_refused(t, &rows, r.index(n) as u64, 0, told, 10);
                }
            }
        }
    }

    fn times() {
        for (what, g) in [("line", NetworkGraph::line(64)), ("mesh", NetworkGraph::full_mesh(64))] {
            let rows = rows_of_graph(&g);
            time::beside(
                &format!("diameter of a {what} of 64"),
                &mut || {
                    std::hint::black_box(diameter(std::hint::black_box(&rows)));
                },
                &mut || {
                    std::hint::black_box(std::hint::black_box(&g).diameter());
                },
            );
        }
    }

    pub fn run(options: &Options) -> Tally {
        let mut t = Tally::new("graph");
        if options.times_only {
            times();
            return t;
        }
        let mut r = Prng::of(options.seed, "graph");
        builders(&mut t, &mut r);
        refusals(&mut t, &mut r);
        // every graph of one or two positions, and every one of three
        for n in 1..=3u64 {
            for links in 0..1u64 << (n * n) {
                let rows: Vec<u64> = (0..n).map(|i| links >> (i * n) & all_of(n as usize)).collect();
                compare(&mut t, &rows, true, &mut r);
            }
        }
        let graphs = 12_000 * options.scale;
        let mut shrunk = 0;
        let (mut deepest, mut parted, mut longest) = (0, 0, vec![0u64; 64]);
        for _ in 0..graphs {
            let rows = random_rows(&mut r);
            let before = t.differences;
            let d = compare(&mut t, &rows, false, &mut r);
            if t.differences > before && shrunk < 20 {
                shrunk += 1;
                for kind in KINDS {
                    shrink(&mut t, kind, &rows, &mut r);
                }
            }
            longest[d] += 1;
            deepest = deepest.max(d);
            let g = graph_of_rows(&rows);
            parted += u64::from(reached(&g, 0).contains(&false));
        }
        println!(
            "graph: {graphs} random graphs, diameters 0 to {deepest} ({} of 10 or more), in {parted} position 0 does not reach all",
            longest[10..].iter().sum::<u64>()
        );
        times();
        t
    }
}
