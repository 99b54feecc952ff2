//! `bench MODE KERNEL QUESTIONS PASSES`: the given Rust in a loop, to count instructions in.
//!
//! Each pass takes the next question, the first again after the last. MODE: `remember` lets the memory
//! stand from question to question, `forget` empties it before each; `orient` asks a PCK kernel; `open`
//! opens the kernel once a pass; `nothing` only goes through the questions.

#![feature(bench_black_box, let_else)]
#![allow(stable_features)]

use oracle::pck::PckFile;
use oracle::spk::{reach, SpkFile};
use oracle::words::{questions, Question};
use std::hint::black_box;

/// The questions over and over, each handed to the call.
fn passes(list: &[Question], n: usize, mut call: impl FnMut(&Question)) {
    let mut at = 0;
    for _ in 0..n {
        call(black_box(&list[at]));
        at = if at + 1 == list.len() { 0 } else { at + 1 };
    }
}

fn main() {
    let args: Vec<String> = std::env::args().skip(1).collect();
    let [mode, kernel, asked, n] = &args[..] else {
        panic!("usage: bench MODE KERNEL QUESTIONS PASSES");
    };
    let n = n.parse().expect("a number of passes");
    let mark = if mode == "orient" { 0x5c } else { 0x5b };
    let list = questions(&std::fs::read(asked).expect("questions"), mark).expect("whole questions");
    let spk = || SpkFile::open(kernel).expect("an SPK kernel");
    match mode.as_str() {
        "nothing" => passes(&list, n, |q| {
            black_box(q.et);
        }),
        "remember" => {
            let file = spk();
            passes(&list, n, |q| {
                black_box(file.state(q.target, q.center, q.et).expect("an answer"));
            })
        }
        "forget" => {
            let file = spk();
            passes(&list, n, |q| {
                reach::forget(&file);
                black_box(file.state(q.target, q.center, q.et).expect("an answer"));
            })
        }
        "orient" => {
            let file = PckFile::open(kernel).expect("a PCK kernel");
            passes(&list, n, |q| {
                black_box(file.euler_state_with_ref(q.target, q.et).expect("an answer"));
            })
        }
        "open" => passes(&list, n, |_| {
            black_box(SpkFile::open(black_box(kernel)).expect("an SPK kernel"));
        }),
        _ => panic!("unknown mode {mode}"),
    }
}
