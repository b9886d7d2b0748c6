//! The proved code beside other programs, timed in one run on the host itself.
//!
//! `--quick` measures each line for a shorter time; `--write` also writes docs/SPEED.md and
//! docs/speed.svg.

mod plot;
mod programs;
mod table;

use programs::{ours, plain, programs, Program, INSTALL, MOST, TAG_LEN};
use std::hint::black_box;
use std::time::{Duration, Instant};
use table::{head, row, Line};

const SIZES: [usize; 5] = [64, 1_024, 4_096, 16_384, 65_536];

/// The longest text that a call takes.
const LONGEST: usize = SIZES[4];

/// A mark, then a message's number.
const IV: [u8; 12] = [10, 11, 12, 13, 0, 0, 0, 0, 0, 0, 1, 2];

/// Bytes that differ from place to place.
fn bytes(len: usize) -> Vec<u8> {
    (0..len).map(|i| (i * 7) as u8).collect()
}

/// A call that is timed.
type Timed<'a> = Box<dyn FnMut() + 'a>;

struct Bench {
    /// How often all programs of a line are timed in turn, and how long each: what slows the host
    /// for a while then slows them all, and the best of the turns stands.
    turns: usize,
    time: Duration,
    programs: Vec<Program>,
    lines: Vec<Line>,
}

impl Bench {
    /// The MB/s of the fastest of many calls: what disturbs a call only ever slows it down.
    fn speed(&self, size: usize, mut call: impl FnMut()) -> f64 {
        let mut best = Duration::MAX;
        let start = Instant::now();
        // A short call is timed many at once, or the clock's own steps would show.
        let calls = 1 + 16_384 / size;
        while start.elapsed() < self.time {
            let begun = Instant::now();
            (0..calls).for_each(|_| call());
            best = best.min(begun.elapsed());
        }
        (size * calls) as f64 / best.as_secs_f64() / 1e6
    }

    /// The same of several calls, timed in turn.
    fn speeds(&self, size: usize, mut calls: Vec<Timed>) -> Vec<f64> {
        let mut best = vec![0.0_f64; calls.len()];
        for _ in 0..self.turns {
            for (best, call) in best.iter_mut().zip(&mut calls) {
                *best = best.max(self.speed(size, call));
            }
        }
        best
    }

    fn add(&mut self, label: String, speeds: Vec<Option<f64>>) -> f64 {
        let line = Line { label, speeds };
        println!("{}", row(&line));
        let ours = line.ours();
        self.lines.push(line);
        ours
    }

    /// A line of what only the reference program does besides.
    fn add_two(&mut self, label: String, speeds: Vec<f64>) {
        let mut speeds: Vec<_> = speeds.into_iter().map(Some).collect();
        speeds.resize(self.programs.len(), None);
        self.add(label, speeds);
    }

    /// A line over all programs: each must write `due`.
    fn line(
        &mut self,
        label: String,
        size: usize,
        due: &[u8],
        call: impl Fn(&Program, &mut [u8]),
    ) -> f64 {
        let mut calls: Vec<Timed> = vec![];
        for program in &self.programs {
            let mut out = vec![0; due.len()];
            call(program, &mut out);
            assert!(out == due, "{label}: {} gives other bytes", program.name);
            let call = &call;
            calls.push(Box::new(move || call(program, &mut out)));
        }
        let speeds = self.speeds(size, calls);
        self.add(label, speeds.into_iter().map(Some).collect())
    }

    fn seal(&mut self, bits: usize, size: usize, piece: usize) -> f64 {
        let (key, text) = (bytes(bits / 8), bytes(size));
        let mut due = vec![0; size + TAG_LEN];
        (plain::PROGRAM.seal)(&key, &IV, &text, size, &mut due);
        let label = if piece < size {
            format!("channel, {bits} bits, {size} bytes in pieces of {piece}")
        } else {
            format!("seal, {bits} bits, {size} bytes")
        };
        self.line(label, size, &due, |program, out| {
            (program.seal)(&key, &IV, &text, piece, out);
        })
    }

    fn open(&mut self, bits: usize, size: usize) {
        let (key, text) = (bytes(bits / 8), bytes(size));
        let mut sealed = vec![0; size + TAG_LEN];
        (plain::PROGRAM.seal)(&key, &IV, &text, size, &mut sealed);
        let label = format!("open, {bits} bits, {size} bytes");
        self.line(label, size, &text, |program, out| {
            (program.open)(&key, &IV, &sealed, out);
        });
    }

    /// The block cipher alone, ours and the reference program's.
    fn cipher(&mut self, bits: usize) {
        let key = bytes(bits / 8);
        let (mut proved, mut plain) = (bytes(LONGEST), bytes(LONGEST));
        ours::encipher(&key, &mut proved);
        plain::encipher(&key, &mut plain);
        assert!(proved == plain, "the two ciphers differ");
        let calls: Vec<Timed> = vec![
            Box::new(|| ours::encipher(&key, &mut proved)),
            Box::new(|| plain::encipher(&key, &mut plain)),
        ];
        let speeds = self.speeds(LONGEST, calls);
        self.add_two(format!("cipher, {bits} bits, {LONGEST} bytes"), speeds);
    }

    /// The vector program's stored input, read and not sealed, by us and by the reference program.
    fn records(&mut self) {
        let path = concat!(env!("CARGO_MANIFEST_DIR"), "/../crates/vectors/stdin");
        let input = std::fs::read(path).expect("the vector program's input");
        assert_eq!(ours::records(&input), plain::records(&input));
        let calls: Vec<Timed> = vec![
            Box::new(|| {
                black_box(ours::records(&input));
            }),
            Box::new(|| {
                black_box(plain::records(&input));
            }),
        ];
        let speeds = self.speeds(input.len(), calls);
        self.add_two(format!("records, {} bytes", input.len()), speeds);
    }

    fn names(&self) -> Vec<&'static str> {
        self.programs.iter().map(|program| program.name).collect()
    }

    /// The speeds of the lines that begin so.
    fn speeds_of(&self, start: &str) -> Vec<Vec<f64>> {
        let lines = self
            .lines
            .iter()
            .filter(|line| line.label.starts_with(start));
        lines
            .map(|line| line.speeds.iter().flatten().copied().collect())
            .collect()
    }

    /// Writes the run to docs/.
    fn write(&self, host: &str, remarks: &str) {
        let docs = concat!(env!("CARGO_MANIFEST_DIR"), "/../docs");
        let rows: Vec<String> = self.lines.iter().map(row).collect();
        let page = format!(
            "# Speed\n\n\
             One run of `bench/run --write`, natively: {host}.\n\
             Each number is the fastest of many calls, key set up in each; the associated data is empty, the IV 12 bytes, the tag 16. A\n\
             channel's line counts opening, begin, every feed and finish; the reference program seals the same text at once.\n\n\
             {}\n{}\n\n{remarks}\n\n![Sealing at once, 128-bit key](speed.svg)\n",
            head(&self.names()),
            rows.join("\n")
        );
        let plot = plot::svg(
            "Sealing at once, 128-bit key, MB/s",
            &self.names(),
            &SIZES,
            &self.speeds_of("seal, 128"),
        );
        std::fs::write(format!("{docs}/SPEED.md"), page).expect("docs/SPEED.md");
        std::fs::write(format!("{docs}/speed.svg"), plot).expect("docs/speed.svg");
    }
}

fn main() {
    let given: Vec<String> = std::env::args().skip(1).collect();
    let has = |word: &str| given.iter().any(|arg| arg == word);
    let host = given
        .iter()
        .find(|arg| !arg.starts_with("--"))
        .cloned()
        .unwrap_or_default();
    let mut bench = Bench {
        turns: if has("--quick") { 1 } else { 5 },
        time: Duration::from_millis(if has("--quick") { 100 } else { 200 }),
        programs: programs(),
        lines: vec![],
    };
    println!("{host}");
    if bench.programs.len() < MOST {
        println!("Not all other programs are installed: {INSTALL}");
    }
    println!("{}", head(&bench.names()));
    for bits in [128, 256] {
        bench.cipher(bits);
    }
    let mut at_once = 0.0;
    for bits in [128, 256] {
        for size in SIZES {
            let speed = bench.seal(bits, size, size);
            if bits == 128 {
                at_once = speed;
            }
        }
    }
    for bits in [128, 256] {
        for size in SIZES {
            bench.open(bits, size);
        }
    }
    let by_64 = bench.seal(128, LONGEST, 64);
    bench.seal(128, LONGEST, 1_024);
    bench.records();
    let remarks = format!(
        "Our channel in pieces of 64 runs at {:.2} of our own seal at once.",
        by_64 / at_once
    );
    println!("{remarks}");
    if has("--write") {
        bench.write(&host, &remarks);
    }
}
