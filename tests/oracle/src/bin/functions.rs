//! The given Rust's own functions, one at a time.
//!
//! `functions NAME` reads lines from standard input and prints a line for each. Doubles are 16
//! hexadecimal digits, other numbers decimal, separated by blanks:
//!   cheby3        n s  n x-coefficients, n y, n z      -> value x y z, derivative x y z
//!   cheby3-value  n s  n x-coefficients, n y, n z      -> value x y z
//!   lagrange      n x  n nodes, n values               -> value
//!   hermite       n x  n nodes, n values, n slopes     -> value derivative
//!   pick_window   n et window  n epochs                -> start count, or `error`
//!   type2 | type3 n et  MID RADIUS and the series of one record of n coefficients -> six numbers, or `error`
//!   type9 | type13 n et degree  6n doubles of states, n epochs -> six numbers, or `error`
//! and without a count in front, matrices row by row:
//!   rotate        nine of a 3 by 3 matrix, six of a state -> six (rotate_state_inertial)
//!   product | sum nine, nine                              -> nine (matmul3, add3)
//!   sxform        nine of R, nine of dR                   -> 36 (sxform_from_rotation)
//!   invert        36                                      -> 36 (invert_sxform)
//!   apply         36, six of a state                      -> six (apply_sxform)
//!
//! `functions bench NAME ITERATIONS` calls one function so often, for counting instructions.

#![feature(bench_black_box)]
#![allow(stable_features)]

use oracle::daf::DafFile;
use oracle::kernel::{build, chebyshev, discrete, with_file, Part};
use oracle::spk::{reach, SpkFile};
use oracle::words::hex;
use oracle::frame;
use std::hint::black_box;
use std::io::BufRead;

/// The words of a line, taken one after the other.
struct Words<'a>(std::str::SplitWhitespace<'a>);

impl Words<'_> {
    fn whole(&mut self) -> usize {
        self.0.next().expect("a number").parse().expect("a decimal number")
    }
    fn double(&mut self) -> f64 {
        let word = self.0.next().expect("a double");
        f64::from_bits(u64::from_str_radix(word, 16).expect("16 hexadecimal digits"))
    }
    fn doubles(&mut self, n: usize) -> Vec<f64> {
        (0..n).map(|_| self.double()).collect()
    }
    fn row<const N: usize>(&mut self) -> [f64; N] {
        [(); N].map(|()| self.double())
    }
    fn rows<const N: usize>(&mut self) -> [[f64; N]; N] {
        [(); N].map(|()| self.row())
    }
}

/// A kernel of one segment that covers all epochs.
fn one_segment(data_type: i32, doubles: Vec<f64>) -> SpkFile {
    let numbers = vec![399, 3, 1, data_type];
    let part = Part { first: f64::NEG_INFINITY, last: f64::INFINITY, numbers, doubles };
    with_file(&build(b"DAF/SPK ", &[part]), |path| SpkFile::open(path).expect("an accepted kernel"))
}

/// A file whose second record on holds these epochs, at address 129.
fn epochs_file(epochs: &[f64]) -> DafFile {
    let mut bytes = build(b"DAF/SPK ", &[]);
    for e in epochs {
        bytes.extend_from_slice(&e.to_le_bytes());
    }
    with_file(&bytes, |path| DafFile::open(path).expect("a file record"))
}

fn answer(name: &str, line: &str) -> String {
    let mut w = Words(line.split_whitespace());
    if let Some(out) = answer_frame(name, &mut w) {
        return out;
    }
    let n = w.whole();
    let x = w.double();
    match name {
        "cheby3" => {
            let (cx, cy, cz) = (w.doubles(n), w.doubles(n), w.doubles(n));
            let (v, d) = reach::cheby3(&cx, &cy, &cz, x);
            hex(&[v, d].concat())
        }
        "cheby3-value" => {
            let (cx, cy, cz) = (w.doubles(n), w.doubles(n), w.doubles(n));
            hex(&reach::cheby3_value(&cx, &cy, &cz, x))
        }
        "lagrange" => {
            let (xs, ys) = (w.doubles(n), w.doubles(n));
            hex(&[reach::lagrange(&xs, &ys, x)])
        }
        "hermite" => {
            let (xs, ys, dys) = (w.doubles(n), w.doubles(n), w.doubles(n));
            let (v, d) = reach::hermite(&xs, &ys, &dys, x);
            hex(&[v, d])
        }
        "pick_window" => {
            let window = w.whole();
            let file = epochs_file(&w.doubles(n));
            match reach::window(&file, 129, n, window, x) {
                Ok((start, count)) => format!("{start} {count}"),
                Err(_) => "error".to_string(),
            }
        }
        "type2" | "type3" => {
            let (code, series) = if name == "type2" { (2, 3) } else { (3, 6) };
            let record = w.doubles(2 + series * n);
            let file = one_segment(code, chebyshev(0.0, 1.0, &[record]));
            reach::evaluate(&file, 0, x).map_or("error".to_string(), |six| hex(&six))
        }
        "type9" | "type13" => {
            let degree = w.whole();
            let (states, epochs) = (w.doubles(6 * n), w.doubles(n));
            let code = if name == "type9" { 9 } else { 13 };
            let file = one_segment(code, discrete(degree, &states, &epochs));
            reach::evaluate(&file, 0, x).map_or("error".to_string(), |six| hex(&six))
        }
        _ => panic!("unknown function {name}"),
    }
}

/// The functions of frame.rs.
fn answer_frame(name: &str, w: &mut Words) -> Option<String> {
    Some(match name {
        "rotate" => hex(&frame::rotate_state_inertial(&w.rows::<3>(), &w.row())),
        "product" => hex(&frame::reach::product(&w.rows(), &w.rows()).concat()),
        "sum" => hex(&frame::reach::sum(&w.rows(), &w.rows()).concat()),
        "sxform" => hex(&frame::sxform_from_rotation(&w.rows(), &w.rows()).concat()),
        "invert" => hex(&frame::invert_sxform(&w.rows()).concat()),
        "apply" => hex(&frame::apply_sxform(&w.rows(), &w.row())),
        _ => return None,
    })
}

/// Some doubles of ordinary size, the same in every run.
fn some(n: usize, seed: usize) -> Vec<f64> {
    (0..n).map(|i| ((i * 7919 + seed * 104_729) % 2003) as f64 / 7.0 - 140.0).collect()
}

/// Unequal steps, strictly increasing.
fn steps(n: usize) -> Vec<f64> {
    (0..n).map(|i| i as f64 * 60.0 + (i * i % 7) as f64).collect()
}

/// One segment evaluated again and again at epochs that stay in its first records.
fn evaluate_loop(file: &SpkFile, iterations: usize) {
    for i in 0..iterations {
        let et = 1500.0 + (i % 16) as f64;
        let _ = black_box(reach::evaluate(black_box(file), 0, black_box(et)));
    }
}

fn bench(name: &str, n: usize) {
    let (cx, cy, cz) = (some(14, 1), some(14, 2), some(14, 3));
    let (xs, ys, dys) = (steps(16), some(16, 4), some(16, 5));
    let chebyshev_of = |data_type: i32, rsize: usize| {
        let record = |k: usize| [vec![400.0 + 800.0 * k as f64, 400.0], some(rsize - 2, k)].concat();
        let records: Vec<Vec<f64>> = (0..4).map(record).collect();
        one_segment(data_type, chebyshev(0.0, 800.0, &records))
    };
    let discrete_of = |data_type: i32, degree: usize| {
        one_segment(data_type, discrete(degree, &some(6 * 50, 6), &steps(50)))
    };
    let s = |i: usize| black_box((i % 16) as f64 / 16.0 + 0.01);
    match name {
        "nothing" => (0..n).for_each(|i| {
            black_box(s(i));
        }),
        "cheby3-14" => (0..n).for_each(|i| {
            black_box(reach::cheby3(black_box(&cx), black_box(&cy), black_box(&cz), s(i)));
        }),
        "cheby3-value-14" => (0..n).for_each(|i| {
            black_box(reach::cheby3_value(black_box(&cx), black_box(&cy), black_box(&cz), s(i)));
        }),
        "lagrange-8" | "lagrange-16" => {
            let w = if name == "lagrange-8" { 8 } else { 16 };
            (0..n).for_each(|i| {
                let x = s(i) + 200.0;
                black_box(reach::lagrange(black_box(&xs[..w]), black_box(&ys[..w]), x));
            })
        }
        "hermite-8" => (0..n).for_each(|i| {
            let x = s(i) + 200.0;
            black_box(reach::hermite(black_box(&xs[..8]), black_box(&ys[..8]), black_box(&dys[..8]), x));
        }),
        "pick_window-50" => {
            let file = epochs_file(&steps(50));
            (0..n).for_each(|i| {
                let _ = black_box(reach::window(black_box(&file), 129, 50, 8, s(i) + 1500.0));
            })
        }
        "type2-14" => evaluate_loop(&chebyshev_of(2, 44), n),
        "type3-14" => evaluate_loop(&chebyshev_of(3, 86), n),
        "type9-7" => evaluate_loop(&discrete_of(9, 7), n),
        "type9-15" => evaluate_loop(&discrete_of(9, 15), n),
        "type13-8" => evaluate_loop(&discrete_of(13, 7), n),
        _ => panic!("unknown benchmark {name}"),
    }
}

fn main() {
    let args: Vec<String> = std::env::args().skip(1).collect();
    match args.iter().map(String::as_str).collect::<Vec<_>>()[..] {
        ["bench", name, n] => bench(name, n.parse().expect("a decimal number")),
        [name] => {
            for line in std::io::stdin().lock().lines() {
                println!("{}", answer(name, &line.expect("a line")));
            }
        }
        _ => {
            eprintln!("usage: functions NAME | functions bench NAME ITERATIONS");
            std::process::exit(2);
        }
    }
}
