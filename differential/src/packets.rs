//! Part `packets`: the text of both packet families. The Rust's packet types with serde_json are the oracle: a text is to be
//! accepted exactly if the Rust reads it, would itself write the very same bytes, and the limits hold.
#![cfg_attr(not(feature = "packets"), allow(dead_code))]

use crate::prng::Prng;
use ctsim::protocol::two_pc_ce::{CeTwoPcPacket, TwoPcCePhase};
use ctsim::protocol::two_pc_pipeline::{TwoPcPacket, TwoPcState};
use std::collections::BTreeMap;

pub const BITMAP: usize = 64;
pub const DATA: usize = 32;

/// A packet family: the Rust's type, and our numbers for it.
pub trait Family {
    const NAME: &'static str;
    /// How many numbers, and which of them are the phase, the data's and the bitmap's length and the marks.
    const NUMBERS: usize;
    const PHASE: usize;
    const DATA_LENGTH: usize;
    const BITMAP_LENGTH: usize;
    const MARKS: usize;
    type Packet: serde::Serialize + serde::de::DeserializeOwned;

    fn random(r: &mut Prng, bitmap: usize, data: usize) -> Self::Packet;
    fn numbers(p: &Self::Packet) -> Vec<u64>;
    fn lists(p: &Self::Packet) -> (&[bool], &[u8]);

    #[cfg(feature = "packets")]
    fn read(text: &[u8], stated: u64, numbers: &mut [u64], data: &mut [u8]) -> u64;
    #[cfg(feature = "packets")]
    fn write(numbers: &[u64], data: &[u8], buf: &mut [u8], at: u64, next: &mut u64) -> u64;

    fn text(p: &Self::Packet) -> Vec<u8> {
        serde_json::to_vec(p).unwrap()
    }

    /// The packet that a text is to be read as, if any; and whether the Rust reads it at all.
    fn due(text: &[u8]) -> (Option<Self::Packet>, bool) {
        match serde_json::from_slice::<Self::Packet>(text) {
            Err(_) => (None, false),
            Ok(p) => {
                let (bitmap, data) = Self::lists(&p);
                let within = bitmap.len() <= BITMAP && data.len() <= DATA;
                if within && Self::text(&p) == text {
                    (Some(p), true)
                } else {
                    (None, true)
                }
            }
        }
    }
}

fn marks_of(bitmap: &[bool]) -> u64 {
    bitmap
        .iter()
        .take(64)
        .enumerate()
        .fold(0, |m, (i, b)| m | u64::from(*b) << i)
}

fn random_bitmap(r: &mut Prng, length: usize) -> Vec<bool> {
    let (like, one) = (r.below(4), r.index(length.max(1)));
    (0..length)
        .map(|i| match like {
            0 => false,
            1 => true,
            2 => i == one,
            _ => r.chance(1, 2),
        })
        .collect()
}

fn random_data(r: &mut Prng, length: usize) -> Vec<u8> {
    (0..length)
        .map(|_| match r.below(3) {
            0 => *r.pick(&[0, 1, 9, 10, 11, 99, 100, 101, 127, 128, 199, 200, 249, 250, 254, 255]),
            _ => r.next() as u8,
        })
        .collect()
}

pub struct Ce;

impl Family for Ce {
    const NAME: &'static str = "capture";
    const NUMBERS: usize = 5;
    const PHASE: usize = 1;
    const DATA_LENGTH: usize = 2;
    const BITMAP_LENGTH: usize = 3;
    const MARKS: usize = 4;
    type Packet = CeTwoPcPacket;

    fn random(r: &mut Prng, bitmap: usize, data: usize) -> CeTwoPcPacket {
        CeTwoPcPacket {
            term: r.number(),
            phase: *r.pick(&[TwoPcCePhase::Prepare, TwoPcCePhase::Committed, TwoPcCePhase::Aborted]),
            proposal_data: random_data(r, data),
            flags_bitmap: random_bitmap(r, bitmap),
        }
    }

    fn numbers(p: &CeTwoPcPacket) -> Vec<u64> {
        vec![
            p.term,
            p.phase as u64,
            p.proposal_data.len() as u64,
            p.flags_bitmap.len() as u64,
            marks_of(&p.flags_bitmap),
        ]
    }

    fn lists(p: &CeTwoPcPacket) -> (&[bool], &[u8]) {
        (&p.flags_bitmap, &p.proposal_data)
    }

    #[cfg(feature = "packets")]
    fn read(text: &[u8], stated: u64, numbers: &mut [u64], data: &mut [u8]) -> u64 {
        let (n, d) = (numbers.as_mut_ptr(), data.as_mut_ptr());
        unsafe { c::ce_packet_read(text.as_ptr(), text.len(), stated, n, numbers.len(), d, data.len()) }
    }

    #[cfg(feature = "packets")]
    fn write(numbers: &[u64], data: &[u8], buf: &mut [u8], at: u64, next: &mut u64) -> u64 {
        let (n, d) = (numbers.as_ptr(), data.as_ptr());
        unsafe { c::ce_packet_write(n, numbers.len(), d, data.len(), buf.as_mut_ptr(), buf.len(), at, next) }
    }
}

pub struct Pipe;

impl Family for Pipe {
    const NAME: &'static str = "pipeline";
    const NUMBERS: usize = 12;
    const PHASE: usize = 1;
    const DATA_LENGTH: usize = 6;
    const BITMAP_LENGTH: usize = 2;
    const MARKS: usize = 3;
    type Packet = TwoPcPacket;

    fn random(r: &mut Prng, bitmap: usize, data: usize) -> TwoPcPacket {
        let states = [TwoPcState::Prepare, TwoPcState::Committed, TwoPcState::Aborted];
        TwoPcPacket {
            transaction_id: r.number(),
            state: *r.pick(&states),
            flags_bitmap: random_bitmap(r, bitmap),
            abort_flag: r.chance(1, 2),
            nack_tx_id: r.number(),
            transaction_data: random_data(r, data),
            sender: r.number() as usize,
            piggyback_tx: if r.chance(1, 2) { Some(r.number()) } else { None },
            piggyback_state: if r.chance(1, 2) { Some(*r.pick(&states)) } else { None },
        }
    }

    fn numbers(p: &TwoPcPacket) -> Vec<u64> {
        vec![
            p.transaction_id,
            p.state as u64,
            p.flags_bitmap.len() as u64,
            marks_of(&p.flags_bitmap),
            u64::from(p.abort_flag),
            p.nack_tx_id,
            p.transaction_data.len() as u64,
            p.sender as u64,
            u64::from(p.piggyback_tx.is_some()),
            p.piggyback_tx.unwrap_or(0),
            u64::from(p.piggyback_state.is_some()),
            p.piggyback_state.map_or(0, |s| s as u64),
        ]
    }

    fn lists(p: &TwoPcPacket) -> (&[bool], &[u8]) {
        (&p.flags_bitmap, &p.transaction_data)
    }

    #[cfg(feature = "packets")]
    fn read(text: &[u8], stated: u64, numbers: &mut [u64], data: &mut [u8]) -> u64 {
        let (n, d) = (numbers.as_mut_ptr(), data.as_mut_ptr());
        unsafe { c::pipeline_packet_read(text.as_ptr(), text.len(), stated, n, numbers.len(), d, data.len()) }
    }

    #[cfg(feature = "packets")]
    fn write(numbers: &[u64], data: &[u8], buf: &mut [u8], at: u64, next: &mut u64) -> u64 {
        let (n, d) = (numbers.as_ptr(), data.as_ptr());
        unsafe { c::pipeline_packet_write(n, numbers.len(), d, data.len(), buf.as_mut_ptr(), buf.len(), at, next) }
    }
}

#[cfg(feature = "packets")]
pub mod c {
    extern "C" {
        pub fn ce_packet_read(
            text: *const u8,
            text_cap: usize,
            text_len: u64,
            numbers: *mut u64,
            numbers_len: usize,
            data: *mut u8,
            data_cap: usize,
        ) -> u64;
        pub fn ce_packet_write(
            numbers: *const u64,
            numbers_len: usize,
            data: *const u8,
            data_cap: usize,
            buf: *mut u8,
            cap: usize,
            at: u64,
            next: *mut u64,
        ) -> u64;
        pub fn pipeline_packet_read(
            text: *const u8,
            text_cap: usize,
            text_len: u64,
            numbers: *mut u64,
            numbers_len: usize,
            data: *mut u8,
            data_cap: usize,
        ) -> u64;
        pub fn pipeline_packet_write(
            numbers: *const u64,
            numbers_len: usize,
            data: *const u8,
            data_cap: usize,
            buf: *mut u8,
            cap: usize,
            at: u64,
            next: *mut u64,
        ) -> u64;
    }
}

fn random<F: Family>(r: &mut Prng) -> F::Packet {
    let bitmap = if r.chance(1, 2) {
        r.index(6)
    } else {
        r.index(BITMAP + 1)
    };
    let data = if r.chance(1, 2) { r.index(4) } else { r.index(DATA + 1) };
    F::random(r, bitmap, data)
}

// ---- texts, written and spoilt ----

/// A written packet taken apart: its members' names (with quotes) and values.
type Members = Vec<(String, String)>;

/// Compact packet text has commas and colons between members only outside brackets, and no escapes.
fn taken_apart(text: &[u8]) -> Members {
    let text = std::str::from_utf8(text).unwrap();
    let inside = &text[1..text.len() - 1];
    let (mut depth, mut from, mut parts) = (0, 0, Vec::new());
    for (i, b) in inside.bytes().enumerate() {
        match b {
            b'[' => depth += 1,
            b']' => depth -= 1,
            b',' if depth == 0 => {
                parts.push(&inside[from..i]);
                from = i + 1;
            }
            _ => {}
        }
    }
    parts.push(&inside[from..]);
    parts
        .iter()
        .map(|p| {
            let (name, value) = p.split_once(':').unwrap();
            (name.to_string(), value.to_string())
        })
        .collect()
}

fn put_together(members: &Members) -> Vec<u8> {
    let parts: Vec<String> = members.iter().map(|(n, v)| format!("{n}:{v}")).collect();
    format!("{{{}}}", parts.join(",")).into_bytes()
}

/// Where blanks may stand: before, behind and between the tokens of a compact text.
fn between_tokens(text: &[u8]) -> Vec<usize> {
    let mut places = Vec::new();
    let mut quoted = false;
    for (i, b) in text.iter().enumerate() {
        let mark = b"{}[],:".contains(b);
        if !quoted && (mark || (i > 0 && b"{}[],:".contains(&text[i - 1]))) {
            places.push(i);
        }
        if *b == b'"' {
            quoted = !quoted;
        }
    }
    places.push(text.len());
    places
}

fn insert(text: &mut Vec<u8>, at: usize, what: &[u8]) {
    text.splice(at..at, what.iter().copied());
}

fn one_of<'a>(r: &mut Prng, from: &[&'a [u8]]) -> &'a [u8] {
    from[r.index(from.len())]
}

/// One letter of a quoted name as \uXXXX.
fn escaped(r: &mut Prng, quoted: &str) -> String {
    let inside = &quoted[1..quoted.len() - 1];
    let at = r.index(inside.len());
    let code = inside.as_bytes()[at];
    let hex = if r.chance(1, 2) {
        format!("\\u{code:04x}")
    } else {
        format!("\\u{code:04X}")
    };
    format!("\"{}{hex}{}\"", &inside[..at], &inside[at + 1..])
}

/// The members whose values begin so.
fn those(members: &Members, begin: fn(&str) -> bool) -> Vec<usize> {
    (0..members.len()).filter(|i| begin(&members[*i].1)).collect()
}

fn is_number(v: &str) -> bool {
    v.as_bytes()[0].is_ascii_digit()
}

fn is_name(v: &str) -> bool {
    v.starts_with('"')
}

fn is_mark(v: &str) -> bool {
    v.starts_with("[true") || v.starts_with("[false") || v == "true" || v == "false"
}

fn is_data(v: &str) -> bool {
    v.starts_with('[') && v.as_bytes()[1].is_ascii_digit()
}

/// Another value for one of the members that begin so.
fn revalued(r: &mut Prng, mut m: Members, begin: fn(&str) -> bool, values: &[&str]) -> Members {
    let at = those(&m, begin);
    if !at.is_empty() {
        let i = *r.pick(&at);
        m[i].1 = r.pick(values).to_string();
    }
    m
}

const ODD: &[u8] = b"{}[]\",:0123456789-+.eE tfn\\/u \t\n\r";
const UNKNOWN: [&str; 9] = [
    "0",
    "null",
    "[]",
    "{}",
    "[[],[{}]]",
    "{\"a\":[{\"b\":null}]}",
    "\"\\ud83d\\ude00\"",
    "-1.5e-7",
    "{\"term\":1,\"term\":2}",
];

/// The kinds of texts. Each is made from a written one.
pub const KINDS: [&str; 39] = [
    "written",
    "one byte changed to any",
    "one byte changed to a likely one",
    "one byte left out",
    "one byte put in",
    "cut behind",
    "cut before",
    "joined with another",
    "blanks between tokens",
    "a blank anywhere",
    "no blanks of JSON between tokens",
    "members in another order",
    "bitmap over 64",
    "data over 32",
    "number over 2^64 - 1",
    "byte over 255",
    "escape in a member's name",
    "escape in a phase",
    "array in place of the object",
    "phase as an object",
    "a member twice",
    "number written otherwise",
    "byte order mark",
    "unknown member",
    "a member left out",
    "a member's name misspelt",
    "comma too many",
    "something behind",
    "phase otherwise",
    "mark otherwise",
    "null in place of a value",
    "hardly a text",
    "the other family's text",
    "deep unknown member",
    "data otherwise",
    "several bytes changed",
    "no UTF-8",
    "value of another member",
    "leading zero",
];

fn spoilt<F: Family, G: Family>(r: &mut Prng, kind: &str) -> Vec<u8> {
    let mut t = F::text(&random::<F>(r));
    let m = taken_apart(&t);
    match kind {
        "written" => t,
        "one byte changed to any" => {
            let i = r.index(t.len());
            t[i] = r.next() as u8;
            t
        }
        "one byte changed to a likely one" => {
            let i = r.index(t.len());
            t[i] = *r.pick(ODD);
            t
        }
        "one byte left out" => {
            t.remove(r.index(t.len()));
            t
        }
        "one byte put in" => {
            let b = if r.chance(1, 4) { r.next() as u8 } else { *r.pick(ODD) };
            t.insert(r.index(t.len() + 1), b);
            t
        }
        "cut behind" => {
            t.truncate(r.index(t.len()));
            t
        }
        "cut before" => t.split_off(1 + r.index(t.len() - 1)),
        "joined with another" => {
            t.extend_from_slice(one_of(r, &[b"", b",", b"\n", b" "]));
            t.extend(F::text(&random::<F>(r)));
            t
        }
        "blanks between tokens" => {
            for _ in 0..1 + r.index(5) {
                let at = *r.pick(&between_tokens(&t));
                insert(&mut t, at, one_of(r, &[b" ", b"\n", b"\t", b"\r", b"  ", b"\r\n"]));
            }
            t
        }
        "a blank anywhere" => {
            let at = r.index(t.len() + 1);
            insert(&mut t, at, one_of(r, &[b" ", b"\n", b"\t", b"\r"]));
            t
        }
        "no blanks of JSON between tokens" => {
            let at = *r.pick(&between_tokens(&t));
            let blank = one_of(
                r,
                &[
                    b"\x0c",
                    b"\x0b",
                    b"\0",
                    b"\xc2\xa0",
                    b"\xe2\x80\xa8",
                    b"/**/",
                    b"//\n",
                    b"\x1f",
                ],
            );
            insert(&mut t, at, blank);
            t
        }
        "members in another order" => {
            let mut m = m;
            for i in (1..m.len()).rev() {
                let j = r.index(i + 1);
                m.swap(i, j);
            }
            put_together(&m)
        }
        "bitmap over 64" => {
            let (bitmap, data) = (BITMAP + r.index(4), r.index(3));
            F::text(&F::random(r, bitmap, data))
        }
        "data over 32" => {
            let (bitmap, data) = (r.index(4), DATA + r.index(4));
            F::text(&F::random(r, bitmap, data))
        }
        "number over 2^64 - 1" => put_together(&revalued(
            r,
            m,
            is_number,
            &[
                "18446744073709551615",
                "18446744073709551616",
                "18446744073709551620",
                "18446744073709551625",
                "20000000000000000000",
                "36893488147419103232",
                "99999999999999999999",
                "100000000000000000000",
                "184467440737095516150",
                "340282366920938463463374607431768211456",
                "340282366920938463463374607431768211457",
            ],
        )),
        "byte over 255" => put_together(&revalued(
            r,
            m,
            is_data,
            &[
                "[255]",
                "[256]",
                "[257]",
                "[0,256]",
                "[300,1]",
                "[511]",
                "[512]",
                "[1000]",
                "[65536]",
                "[18446744073709551616]",
                "[-1]",
            ],
        )),
        "escape in a member's name" => {
            let mut m = m;
            let i = r.index(m.len());
            m[i].0 = escaped(r, &m[i].0.clone());
            put_together(&m)
        }
        "escape in a phase" => {
            let mut m = m;
            let at = those(&m, is_name);
            let i = *r.pick(&at);
            m[i].1 = escaped(r, &m[i].1.clone());
            put_together(&m)
        }
        "array in place of the object" => {
            let mut values: Vec<String> = m.iter().map(|x| x.1.clone()).collect();
            match r.below(6) {
                0 => values.push("null".into()),
                1 => {
                    values.pop();
                }
                2 => values.insert(0, m[0].0.clone()),
                _ => {}
            }
            format!("[{}]", values.join(",")).into_bytes()
        }
        "phase as an object" => {
            let mut m = m;
            let at = those(&m, is_name);
            let i = *r.pick(&at);
            let held = r
                .pick(&["null", "null", "null", "[]", "{}", "0", "\"\"", "true", "[null]"])
                .to_string();
            m[i].1 = format!("{{{}:{held}}}", m[i].1);
            put_together(&m)
        }
        "a member twice" => {
            let mut m = m;
            let twice = m[r.index(m.len())].clone();
            m.insert(r.index(m.len() + 1), twice);
            put_together(&m)
        }
        "number written otherwise" => {
            let mut m = m;
            let at = those(&m, is_number);
            let i = *r.pick(&at);
            let v = m[i].1.clone();
            m[i].1 = match r.below(18) {
                0 => format!("{v}.0"),
                1 => format!("{v}e0"),
                2 => format!("{v}E0"),
                3 => format!("{v}e+0"),
                4 => format!("{v}e-0"),
                5 => "-0".into(),
                6 => format!("-{v}"),
                7 => format!("+{v}"),
                8 => format!("\"{v}\""),
                9 => format!("0x{v}"),
                10 => format!("{v}."),
                11 => format!(".{v}"),
                12 => "0e9".into(),
                13 => "-0.0".into(),
                14 => format!("{v}_0"),
                15 => format!("[{v}]"),
                16 => "Infinity".into(),
                _ => "".into(),
            };
            put_together(&m)
        }
        "byte order mark" => {
            insert(
                &mut t,
                0,
                one_of(r, &[b"\xef\xbb\xbf", b"\xfe\xff", b"\xff\xfe", b"\xef\xbb"]),
            );
            t
        }
        "unknown member" => {
            let mut m = m;
            let name = r
                .pick(&["\"x\"", "\"\"", "\"terms\"", "\"\\u0000\"", "\"Term\""])
                .to_string();
            let value = r.pick(&UNKNOWN).to_string();
            m.insert(r.index(m.len() + 1), (name, value));
            put_together(&m)
        }
        "a member left out" => {
            let mut m = m;
            m.remove(r.index(m.len()));
            put_together(&m)
        }
        "a member's name misspelt" => {
            let mut m = m;
            let i = r.index(m.len());
            let name = m[i].0.clone();
            m[i].0 = match r.below(6) {
                0 => name.to_uppercase(),
                1 => name.replace('_', ""),
                2 => format!("\" {}", &name[1..]),
                3 => format!("{} \"", &name[..name.len() - 1]),
                4 => name.replace('"', "'"),
                _ => name.replace('"', ""),
            };
            put_together(&m)
        }
        "comma too many" => {
            let marks: Vec<usize> = (0..t.len()).filter(|i| b"{}[],".contains(&t[*i])).collect();
            let at = *r.pick(&marks) + r.index(2);
            t.insert(at, b',');
            t
        }
        "something behind" => {
            let behind = one_of(
                r,
                &[
                    b" ", b"\n", b"\0", b"\r\n", b"}", b",", b"]", b"x", b"null", b"\xff", b"{}",
                ],
            );
            t.extend_from_slice(behind);
            t
        }
        "phase otherwise" => {
            let values = [
                "\"prepare\"",
                "\"PREPARE\"",
                "\"Prepared\"",
                "\"Commit\"",
                "\"Abort\"",
                "\"\"",
                "0",
                "1",
                "2",
                "null",
                "Prepare",
                "'Prepare'",
                "[\"Prepare\"]",
                "true",
                "\"Prepare \"",
                "\"Prepar\"",
                "\"Committed\\u0000\"",
                "{}",
                "{\"Prepare\":null,\"Prepare\":null}",
            ];
            put_together(&revalued(r, m, is_name, &values))
        }
        "mark otherwise" => {
            let values = [
                "[1]",
                "[0]",
                "[\"true\"]",
                "[null]",
                "[True]",
                "[TRUE]",
                "[tru]",
                "[truee]",
                "[true false]",
                "[true,]",
                "[,true]",
                "[true",
                "true]",
                "[[true]]",
                "1",
                "0",
                "null",
                "True",
                "\"true\"",
                "[]",
                "[false]",
                "[true,true]",
                "true",
                "false",
            ];
            put_together(&revalued(r, m, is_mark, &values))
        }
        "null in place of a value" => {
            let mut m = m;
            let i = r.index(m.len());
            m[i].1 = "null".into();
            put_together(&m)
        }
        "hardly a text" => {
            let bits: [&[u8]; 16] = [
                b"",
                b" ",
                b"{}",
                b"[]",
                b"null",
                b"0",
                b"\"\"",
                b"true",
                b"{",
                b"}",
                b"[",
                b"{\"term\":",
                b"\0",
                b"\n",
                b"{{}}",
                b"[[]]",
            ];
            r.pick(&bits).to_vec()
        }
        "the other family's text" => G::text(&random::<G>(r)),
        "deep unknown member" => {
            let mut m = m;
            let depth = *r.pick(&[1, 2, 16, 17, 125, 126, 127, 128, 129, 400]);
            let value = "[".repeat(depth) + &"]".repeat(depth);
            m.insert(r.index(m.len() + 1), ("\"x\"".into(), value));
            put_together(&m)
        }
        "data otherwise" => {
            let values = [
                "\"tx1\"",
                "[\"1\"]",
                "[[1]]",
                "[1.0]",
                "[1e0]",
                "[-0]",
                "[01]",
                "[00]",
                "[1,]",
                "[,1]",
                "[1 2]",
                "[null]",
                "[true]",
                "null",
                "{\"0\":1}",
                "1",
                "[]",
                "[1,2,3]",
                "[007]",
                "[+1]",
                "[0x1]",
                "[255,0]",
            ];
            put_together(&revalued(r, m, is_data, &values))
        }
        "several bytes changed" => {
            for _ in 0..2 + r.index(3) {
                let i = r.index(t.len());
                t[i] = if r.chance(1, 2) {
                    *r.pick(ODD)
                } else {
                    t[r.index(t.len())]
                };
            }
            t
        }
        "no UTF-8" => {
            let quotes: Vec<usize> = (0..t.len()).filter(|i| t[*i] == b'"').collect();
            let at = *r.pick(&quotes);
            insert(
                &mut t,
                at,
                one_of(r, &[b"\x80", b"\xff", b"\xc3\x28", b"\xed\xa0\x80", b"\xc0\x80"]),
            );
            t
        }
        "value of another member" => {
            let mut m = m;
            let (i, j) = (r.index(m.len()), r.index(m.len()));
            m[i].1 = m[j].1.clone();
            put_together(&m)
        }
        "leading zero" => {
            let digits: Vec<usize> = (1..t.len())
                .filter(|i| t[*i].is_ascii_digit() && !t[*i - 1].is_ascii_digit())
                .collect();
            let at = *r.pick(&digits);
            t.insert(at, b'0');
            t
        }
        _ => unreachable!("no text of kind {kind}"),
    }
}

/// Of a kind: texts, texts the Rust reads, texts due to be accepted.
type Counts = BTreeMap<(&'static str, &'static str), [u64; 3]>;

fn counted(counts: &mut Counts, family: &'static str, kind: &'static str, read: bool, due: bool) {
    let c = counts.entry((family, kind)).or_default();
    c[0] += 1;
    c[1] += u64::from(read);
    c[2] += u64::from(due);
}

fn print_counts(counts: &Counts) {
    for ((family, kind), [texts, read, due]) in counts {
        if read > due {
            println!(
                "packets: {family}, {kind}: {texts} texts, the Rust reads {read}, of these {} outside the form of RULES 5.3",
                read - due
            );
        }
    }
    let sum = |i: usize| counts.values().map(|c| c[i]).sum::<u64>();
    println!(
        "packets: {} texts in all, the Rust reads {}, of these {} outside the form of RULES 5.3 (to be refused)",
        sum(0),
        sum(1),
        sum(1) - sum(2)
    );
}

/// The oracle's side alone: what the Rust reads, by kind.
pub fn oracle_only(seed: u64, texts: u64) {
    let mut counts = Counts::new();
    let mut r = Prng::of(seed, "packets oracle");
    for k in 0..texts {
        let kind = KINDS[k as usize % KINDS.len()];
        let (due, read) = Ce::due(&spoilt::<Ce, Pipe>(&mut r, kind));
        counted(&mut counts, Ce::NAME, kind, read, due.is_some());
        let (due, read) = Pipe::due(&spoilt::<Pipe, Ce>(&mut r, kind));
        counted(&mut counts, Pipe::NAME, kind, read, due.is_some());
    }
    print_counts(&counts);
}

pub fn hexadecimal(text: &[u8]) -> String {
    text.iter().map(|b| format!("{b:02X}")).collect()
}

fn sample_line<F: Family>(text: &[u8], kind: &str) {
    let (due, read) = F::due(text);
    let (numbers, data) = match &due {
        None => (Vec::new(), Vec::new()),
        Some(p) => (F::numbers(p), F::lists(p).1.iter().map(|b| *b as u64).collect()),
    };
    let list = |l: &[u64]| l.iter().map(|x| x.to_string()).collect::<Vec<_>>().join(" ");
    println!(
        "{} {} {} | {} | {} | {} | {kind}",
        if F::NAME == Ce::NAME { 1 } else { 2 },
        u64::from(read),
        u64::from(due.is_some()),
        hexadecimal(text),
        list(&numbers),
        list(&data)
    );
}

fn sample_of<F: Family, G: Family>(r: &mut Prng) {
    for (bitmap, data) in [
        (0, 0),
        (1, 0),
        (0, 1),
        (2, 3),
        (BITMAP, DATA),
        (BITMAP + 1, 0),
        (0, DATA + 1),
    ] {
        sample_line::<F>(&F::text(&F::random(r, bitmap, data)), "written");
    }
    for kind in KINDS {
        // two of each kind, each the shortest of a few
        for _ in 0..2 {
            let tries: Vec<Vec<u8>> = (0..8).map(|_| spoilt::<F, G>(r, kind)).collect();
            let shortest = tries.iter().min_by_key(|t| t.len()).unwrap();
            sample_line::<F>(shortest, kind);
        }
    }
}

/// The Rust's answers for the gate, always the same ones: no seed and no scale.
pub fn sample() {
    let mut r = Prng::of(0, "sample packets");
    println!("# The Rust: {}", ctsim::SOURCE);
    println!("# family (1 capture, 2 pipeline), whether the Rust reads the text, whether it has the form of RULES 5.3");
    println!("# | the text in hexadecimal | if it has that form: its numbers | its data bytes | what kind of text");
    sample_of::<Ce, Pipe>(&mut r);
    sample_of::<Pipe, Ce>(&mut r);
}

#[cfg(feature = "packets")]
pub use comparison::run;

#[cfg(feature = "packets")]
mod comparison {
    use super::*;
    use crate::tally::Tally;
    use crate::{time, Options};

    const WAS: u64 = 0xA5A5_A5A5_A5A5_A5A5;
    const WAS_BYTE: u8 = 0xA5;

    /// Bytes that print as text.
    #[derive(PartialEq)]
    struct Text(Vec<u8>);

    impl std::fmt::Debug for Text {
        fn fmt(&self, f: &mut std::fmt::Formatter) -> std::fmt::Result {
            write!(f, "`{}`", shown(&self.0))
        }
    }

    // Answers are the refusal and all that was lent.

    type Read = (u64, Vec<u64>, Vec<u8>);
    type Written = (u64, Text, u64);

    fn read<F: Family>(buf: &[u8], stated: u64, numbers: usize, data: usize) -> Read {
        let (mut n, mut d) = (vec![WAS; numbers], vec![WAS_BYTE; data]);
        let r = F::read(buf, stated, &mut n, &mut d);
        (r, n, d)
    }

    fn write<F: Family>(numbers: &[u64], data: &[u8], buf: &[u8], at: u64) -> Written {
        let (mut b, mut next) = (buf.to_vec(), WAS);
        let r = F::write(numbers, data, &mut b, at, &mut next);
        (r, Text(b), next)
    }

    fn shown(text: &[u8]) -> String {
        text.escape_ascii().to_string().replace("\\\"", "\"")
    }

    /// What is due for a text, read into so many numbers and data bytes.
    fn read_due<F: Family>(text: &[u8], numbers: usize, data: usize) -> Read {
        let (mut n, mut d) = (vec![WAS; numbers], vec![WAS_BYTE; data]);
        match F::due(text).0 {
            None => (9, n, d),
            Some(p) => {
                n[..F::NUMBERS].copy_from_slice(&F::numbers(&p));
                let bytes = F::lists(&p).1;
                d[..DATA].fill(0);
                d[..bytes.len()].copy_from_slice(bytes);
                (0, n, d)
            }
        }
    }

    fn differs<F: Family>(text: &[u8]) -> bool {
        read::<F>(text, text.len() as u64, F::NUMBERS, DATA) != read_due::<F>(text, F::NUMBERS, DATA)
    }

    /// Leaves out bytes as long as the difference stays.
    fn shrunk<F: Family>(text: &[u8]) -> Vec<u8> {
        let mut text = text.to_vec();
        let mut step = text.len() / 2;
        while step > 0 {
            let mut at = 0;
            while at + step <= text.len() {
                let mut less = text.clone();
                less.drain(at..at + step);
                if differs::<F>(&less) {
                    text = less;
                } else {
                    at += 1;
                }
            }
            step /= 2;
        }
        text
    }

    fn compare_text<F: Family>(t: &mut Tally, r: &mut Prng, text: &[u8], kind: &'static str, counts: &mut Counts) {
        let (due, rust_reads) = F::due(text);
        counted(counts, F::NAME, kind, rust_reads, due.is_some());
        // Behind the stated length there may be anything, above all what would go on well.
        let mut buf = text.to_vec();
        match r.below(4) {
            0 => buf.extend((0..r.index(9)).map(|_| r.next() as u8)),
            1 => buf.extend(&F::text(&random::<F>(r))[r.index(4)..]),
            2 => buf.extend(b"}"),
            _ => {}
        }
        let (numbers, data) = (F::NUMBERS + r.index(3), DATA + r.index(9));
        let label = format!(
            "{} read, {}",
            F::NAME,
            if due.is_some() {
                "to be accepted"
            } else {
                "to be refused"
            }
        );
        let same = t.same(
            &label,
            buf.len() + 1000,
            || format!("{} ({kind}), in a buffer of {}", shown(text), buf.len()),
            &read::<F>(&buf, text.len() as u64, numbers, data),
            &read_due::<F>(text, numbers, data),
        );
        if !same && t.times(&label) <= 20 && differs::<F>(text) {
            let small = shrunk::<F>(text);
            let mut trial = Tally::new("packets");
            trial.same(
                &label,
                small.len(),
                || shown(&small),
                &read::<F>(&small, small.len() as u64, F::NUMBERS, DATA),
                &read_due::<F>(&small, F::NUMBERS, DATA),
            );
            t.take_smallest(&label, &trial);
        }
    }

    /// One packet written: with bytes around it, exactly full, one short, and at places beyond the buffer; then read back.
    fn compare_packet<F: Family>(t: &mut Tally, r: &mut Prng, p: &F::Packet) {
        let numbers = F::numbers(p);
        let text = F::text(p);
        let bytes = F::lists(p).1;
        let mut data = bytes.to_vec();
        data.resize(DATA, 0);
        // What stands behind the data's length is no part of the packet.
        if r.chance(1, 4) {
            (bytes.len()..DATA).for_each(|i| data[i] = r.next() as u8);
        }
        let before = if r.chance(1, 4) { 0 } else { r.index(9) };
        let behind = if r.chance(1, 4) { 0 } else { r.index(9) };
        let around: Vec<u8> = (0..before + text.len() + behind).map(|_| r.next() as u8).collect();
        let size = text.len();
        let input = || format!("{} at {before} of {} (numbers {numbers:?})", shown(&text), around.len());
        let mut due = around.clone();
        due[before..before + size].copy_from_slice(&text);
        t.same(
            &format!("{} written", F::NAME),
            size,
            input,
            &write::<F>(&numbers, &data, &around, before as u64),
            &(0, Text(due), (before + size) as u64),
        );
        let short = &around[..before + size - 1];
        t.same(
            &format!("{} written, one byte short", F::NAME),
            size,
            input,
            &write::<F>(&numbers, &data, short, before as u64),
            &(10, Text(short.to_vec()), WAS),
        );
        let any = &around[..r.index(before + size)];
        let at = match r.below(5) {
            0 => any.len() as u64,
            1 => any.len() as u64 + 1,
            2 => u64::MAX - r.below(size as u64 + 2),
            3 => 1 << 63,
            _ => before as u64,
        };
        t.same(
            &format!("{} written, no room", F::NAME),
            size,
            || format!("{} at {at} of {}", shown(&text), any.len()),
            &write::<F>(&numbers, &data, any, at),
            &(10, Text(any.to_vec()), WAS),
        );
        t.same(
            &format!("{} read back", F::NAME),
            size,
            input,
            &read::<F>(&text, size as u64, F::NUMBERS, DATA),
            &read_due::<F>(&text, F::NUMBERS, DATA),
        );
    }

    /// Refusals of the reader for lengths (10, before 9) and of the writer for numbers outside the limits (9, behind a stated length over its buffer).
    fn refusals<F: Family>(t: &mut Tally, r: &mut Prng) {
        for _ in 0..2000 {
            let mut text = F::text(&random::<F>(r));
            if r.chance(1, 3) {
                let i = r.index(text.len());
                text[i] = *r.pick(ODD);
            }
            let over = *r.pick(&[1, 2, 1 << 32, 1 << 63, u64::MAX - text.len() as u64]);
            let stated = text.len() as u64 + over;
            let size = text.len();
            t.same(
                &format!("{} read, stated length", F::NAME),
                size,
                || format!("{} stated {stated} of {size}", shown(&text)),
                &read::<F>(&text, stated, F::NUMBERS, DATA),
                &(10, vec![WAS; F::NUMBERS], vec![WAS_BYTE; DATA]),
            );
            let (mut n, mut d) = (F::NUMBERS, DATA);
            match r.below(3) {
                0 => n = r.index(F::NUMBERS),
                1 => d = r.index(DATA),
                _ => (n, d) = (r.index(F::NUMBERS), r.index(DATA)),
            }
            t.same(
                &format!("{} read, short lists", F::NAME),
                size,
                || format!("{} into {n} numbers and {d} bytes", shown(&text)),
                &read::<F>(&text, size as u64, n, d),
                &(10, vec![WAS; n], vec![WAS_BYTE; d]),
            );
            let mut numbers = F::numbers(&random::<F>(r));
            let over = r.number();
            let (which, least) = *r.pick(&[
                (F::PHASE, 3),
                (F::DATA_LENGTH, DATA as u64 + 1),
                (F::BITMAP_LENGTH, BITMAP as u64 + 1),
            ]);
            numbers[which] = least.max(if r.chance(1, 2) { over } else { least });
            let (buf, at) = (vec![WAS_BYTE; 1000], r.below(9));
            // Data of the stated length is there where that can be, so that only 9 is true; a longer statement is 10, before 9.
            let data = vec![1; 64.max(numbers[F::DATA_LENGTH].min(1000) as usize)];
            let due = if numbers[F::DATA_LENGTH] > data.len() as u64 { 10 } else { 9 };
            t.same(
                &format!("{} written, outside the limits", F::NAME),
                1,
                || format!("numbers {numbers:?} at {at} of 1000, {} data bytes", data.len()),
                &write::<F>(&numbers, &data, &buf, at),
                &(due, Text(buf.clone()), WAS),
            );
        }
    }

    /// Numbers that no packet has (9), lists that are too short (10, before 9), and a list of just as many data bytes as are stated.
    fn odd_numbers<F: Family>(t: &mut Tally, r: &mut Prng) {
        for _ in 0..2000 {
            let bitmap = r.index(BITMAP);
            let p = F::random(r, bitmap, 3);
            let (mut n, mut data) = (F::numbers(&p), F::lists(&p).1.to_vec());
            let size = if r.chance(1, 2) { 3 + r.index(30) } else { 3 };
            data.resize(size, 7);
            let (what, mut due) = match r.below(6) {
                0 => {
                    n[F::MARKS] |= 1 << (bitmap + r.index(BITMAP - bitmap));
                    ("a mark at or above the bitmap's length", 9)
                }
                1 => {
                    n.truncate(r.index(F::NUMBERS));
                    ("too few numbers", 10)
                }
                2 => ("as many data bytes lent as stated, or more", 0),
                _ if F::NUMBERS < 12 => continue,
                3 => {
                    n[*r.pick(&[4, 8, 10])] = 2 + r.below(300);
                    ("a yes or no that is neither 0 nor 1", 9)
                }
                4 => {
                    (n[8], n[9]) = (0, r.number().max(1));
                    ("a number beside an absent piggyback_tx", 9)
                }
                _ => {
                    (n[10], n[11]) = (0, 1 + r.below(4));
                    ("a phase beside an absent piggyback_state", 9)
                }
            };
            if r.chance(1, 4) {
                data.truncate(r.index(3));
                due = 10;
            }
            let buf = vec![WAS_BYTE; 1000];
            let mut left = buf.clone();
            let mut next = WAS;
            if due == 0 {
                let text = F::text(&p);
                next = 3 + text.len() as u64;
                left[3..3 + text.len()].copy_from_slice(&text);
            }
            t.same(
                &format!("{} written, {what}", F::NAME),
                1,
                || format!("numbers {n:?}, {} data bytes", data.len()),
                &write::<F>(&n, &data, &buf, 3),
                &(due, Text(left), next),
            );
        }
    }

    fn family<F: Family, G: Family>(t: &mut Tally, r: &mut Prng, counts: &mut Counts, scale: u64) {
        // every length of both lists together, then many more
        for bitmap in 0..=BITMAP {
            for data in 0..=DATA {
                let p = F::random(r, bitmap, data);
                compare_packet::<F>(t, r, &p);
            }
        }
        for _ in 0..110_000 * scale {
            let p = random::<F>(r);
            compare_packet::<F>(t, r, &p);
        }
        for k in 0..200_000 * scale {
            let kind = KINDS[k as usize % KINDS.len()];
            let text = spoilt::<F, G>(r, kind);
            compare_text::<F>(t, r, &text, kind, counts);
        }
        // every change of one byte, every byte left out, every likely byte put in, every cut of a few texts
        for (bitmap, data) in [(0, 0), (1, 1), (2, 2)] {
            let text = F::text(&F::random(r, bitmap, data));
            for i in 0..=text.len() {
                let cut = &text[..i];
                compare_text::<F>(t, r, cut, "cut behind", counts);
                for b in ODD {
                    let mut more = text.clone();
                    more.insert(i, *b);
                    compare_text::<F>(t, r, &more, "one byte put in", counts);
                }
                if i == text.len() {
                    break;
                }
                for b in 0..=255 {
                    let mut other = text.clone();
                    other[i] = b;
                    compare_text::<F>(t, r, &other, "one byte changed to any", counts);
                }
                let mut less = text.clone();
                less.remove(i);
                compare_text::<F>(t, r, &less, "one byte left out", counts);
            }
        }
        refusals::<F>(t, r);
        odd_numbers::<F>(t, r);
    }

    fn timed<F: Family>(p: &F::Packet) {
        let (numbers, text) = (F::numbers(p), F::text(p));
        let mut data = F::lists(p).1.to_vec();
        data.resize(DATA, 0);
        let (mut buf, mut next) = (vec![0u8; 1000], 0);
        let (mut n, mut d) = (vec![0; F::NUMBERS], vec![0; DATA]);
        use std::hint::black_box;
        let what = format!("a {} packet of 64 marks, {} bytes", F::NAME, text.len());
        let mut ours = || {
            black_box(F::write(black_box(&numbers), &data, black_box(&mut buf), 0, &mut next));
        };
        time::beside(&format!("write {what}"), &mut ours, &mut || {
            black_box(serde_json::to_vec(black_box(p)).unwrap());
        });
        let mut reused = Vec::with_capacity(1000);
        time::beside(
            &format!("write {what}, the Rust into a buffer it keeps"),
            &mut ours,
            &mut || {
                reused.clear();
                serde_json::to_writer(&mut reused, black_box(p)).unwrap();
                black_box(&reused);
            },
        );
        time::beside(
            &format!("read {what}"),
            &mut || {
                black_box(F::read(black_box(&text), text.len() as u64, &mut n, &mut d));
            },
            &mut || {
                black_box(serde_json::from_slice::<F::Packet>(black_box(&text)).unwrap());
            },
        );
    }

    pub fn run(options: &Options) -> Tally {
        let mut t = Tally::new("packets");
        let mut counts = Counts::new();
        let mut r = Prng::of(options.seed, "packets");
        if !options.times_only {
            family::<Ce, Pipe>(&mut t, &mut r, &mut counts, options.scale);
            family::<Pipe, Ce>(&mut t, &mut r, &mut counts, options.scale);
            print_counts(&counts);
        }
        let marks: Vec<bool> = (0..64).map(|i| i % 3 != 1).collect();
        timed::<Ce>(&CeTwoPcPacket {
            term: 12345,
            phase: TwoPcCePhase::Prepare,
            proposal_data: b"tx12345".to_vec(),
            flags_bitmap: marks.clone(),
        });
        timed::<Pipe>(&TwoPcPacket {
            transaction_id: 63,
            state: TwoPcState::Prepare,
            flags_bitmap: marks,
            abort_flag: false,
            nack_tx_id: 17,
            transaction_data: b"tx63".to_vec(),
            sender: 63,
            piggyback_tx: Some(17),
            piggyback_state: Some(TwoPcState::Committed),
        });
        t
    }
}
