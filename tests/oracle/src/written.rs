//! Kernels that the given Rust writes itself: types 3 and 9, from a seed.

use crate::spk_writer::{SpkWriter, Type3Record, Type3Segment, Type9Segment};

/// A stream of numbers from a seed (splitmix64).
struct Chance(u64);

impl Chance {
    fn bits(&mut self) -> u64 {
        self.0 = self.0.wrapping_add(0x9e37_79b9_7f4a_7c15);
        let z = (self.0 ^ (self.0 >> 30)).wrapping_mul(0xbf58_476d_1ce4_e5b9);
        let z = (z ^ (z >> 27)).wrapping_mul(0x94d0_49bb_1331_11eb);
        z ^ (z >> 31)
    }
    fn below(&mut self, n: usize) -> usize {
        (self.bits() % n as u64) as usize
    }
    fn spread(&mut self, size: f64) -> f64 {
        ((self.bits() >> 11) as f64 / 2f64.powi(52) - 1.0) * size
    }
    fn many(&mut self, n: usize, size: f64) -> Vec<f64> {
        (0..n).map(|_| self.spread(size)).collect()
    }
}

fn type3(c: &mut Chance, target: i32, center: i32) -> Type3Segment {
    let (n, coefficients, intlen) = (1 + c.below(6), 1 + c.below(12), 100.0 / 4.0);
    let record = |k: usize, c: &mut Chance| Type3Record {
        mid: intlen * (k as f64 + 0.5),
        radius: intlen / 2.0,
        x: c.many(coefficients, 1e6),
        y: c.many(coefficients, 1e6),
        z: c.many(coefficients, 1e6),
        vx: c.many(coefficients, 10.0),
        vy: c.many(coefficients, 10.0),
        vz: c.many(coefficients, 10.0),
    };
    let records = (0..n).map(|k| record(k, c)).collect();
    let segment_id = "CHEBYSHEV".to_string();
    Type3Segment { target, center, frame_id: 1, start_et: 0.0, end_et: 100.0, segment_id, intlen, init: 0.0, records }
}

fn type9(c: &mut Chance, target: i32, center: i32) -> Type9Segment {
    let n = [2, 3, 8, 9, 40, 99, 100, 101][c.below(8)];
    let degree = 1 + c.below((n - 1).min(31)) as i32;
    let mut at = 0.0;
    let epochs = (0..n).map(|_| {
        at += 100.0 / n as f64 + c.spread(0.5);
        at
    });
    let epochs: Vec<f64> = epochs.collect();
    let states = c.many(6 * n, 1e6);
    let segment_id = "LAGRANGE".to_string();
    Type9Segment { target, center, frame_id: 1, start_et: 0.0, end_et: 100.0, segment_id, degree, states, epochs }
}

/// A kernel of some segments of few bodies.
pub fn kernel(seed: u64) -> Vec<u8> {
    let mut c = Chance(seed);
    let mut writer = SpkWriter::new_spk("written by the given Rust");
    for _ in 0..1 + c.below(6) {
        let (target, center) = ([301, 399, 10][c.below(3)], [0, 3][c.below(2)]);
        if c.below(2) == 0 {
            writer.add_type3(type3(&mut c, target, center)).expect("a type 3 segment");
        } else {
            writer.add_type9(type9(&mut c, target, center)).expect("a type 9 segment");
        }
    }
    writer.to_bytes().expect("a kernel")
}
