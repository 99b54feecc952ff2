//! Kernels made in memory, for the function driver and the benchmark.

/// A segment: first and last epoch, the summary's whole numbers but the addresses, its doubles.
pub struct Part {
    pub first: f64,
    pub last: f64,
    pub numbers: Vec<i32>,
    pub doubles: Vec<f64>,
}

/// An SPK (numbers: target, center, frame, type) or PCK (body frame, reference frame, type)
/// kernel of these segments, 25 to a summary record, data after the last name record.
pub fn build(id: &[u8; 8], parts: &[Part]) -> Vec<u8> {
    let ni = parts.first().map_or(6, |p| p.numbers.len() + 2);
    let pairs = (parts.len() + 24) / 25;
    let mut bytes = vec![0u8; 1024 * (1 + 2 * pairs)];
    bytes[0..8].copy_from_slice(id);
    bytes[8..12].copy_from_slice(&2u32.to_le_bytes());
    bytes[12..16].copy_from_slice(&(ni as u32).to_le_bytes());
    let forward: u32 = if pairs == 0 { 0 } else { 2 };
    bytes[76..80].copy_from_slice(&forward.to_le_bytes());
    bytes[80..84].copy_from_slice(&(2 * pairs as u32).to_le_bytes());
    bytes[88..96].copy_from_slice(b"LTL-IEEE");
    for (i, part) in parts.iter().enumerate() {
        let (record, place) = (1 + 2 * (i / 25), i % 25);
        let base = 1024 * record;
        let more = i / 25 + 1 < pairs;
        let next = if more { record as f64 + 3.0 } else { 0.0 };
        let held = if more { 25 } else { parts.len() - 25 * (pairs - 1) };
        bytes[base..base + 8].copy_from_slice(&next.to_le_bytes());
        bytes[base + 16..base + 24].copy_from_slice(&(held as f64).to_le_bytes());
        let start = (bytes.len() / 8 + 1) as i32;
        let at = base + 24 + 40 * place;
        bytes[at..at + 8].copy_from_slice(&part.first.to_le_bytes());
        bytes[at + 8..at + 16].copy_from_slice(&part.last.to_le_bytes());
        let end = start + part.doubles.len() as i32 - 1;
        for (k, n) in part.numbers.iter().chain(&[start, end]).enumerate() {
            bytes[at + 16 + 4 * k..at + 20 + 4 * k].copy_from_slice(&n.to_le_bytes());
        }
        for d in &part.doubles {
            bytes.extend_from_slice(&d.to_le_bytes());
        }
    }
    bytes
}

/// The doubles of a type 2 or 3 segment: records, then INIT, INTLEN, RSIZE, N.
pub fn chebyshev(init: f64, intlen: f64, records: &[Vec<f64>]) -> Vec<f64> {
    let mut out: Vec<f64> = records.iter().flatten().copied().collect();
    out.extend([init, intlen, records[0].len() as f64, records.len() as f64]);
    out
}

/// The doubles of a type 9 or 13 segment: states, epochs, directory (N/100, as the reader counts), degree, N.
pub fn discrete(degree: usize, states: &[f64], epochs: &[f64]) -> Vec<f64> {
    let mut out = states.to_vec();
    out.extend(epochs);
    out.extend((1..=epochs.len() / 100).map(|k| epochs[100 * k - 1]));
    out.extend([degree as f64, epochs.len() as f64]);
    out
}

/// A kernel's bytes in a file of their own, opened by the given function and then taken away.
pub fn with_file<T>(bytes: &[u8], open: impl FnOnce(&std::path::Path) -> T) -> T {
    let path = std::env::temp_dir().join(format!("oracle-{}", std::process::id()));
    std::fs::write(&path, bytes).expect("temporary file");
    let answer = open(&path);
    let _ = std::fs::remove_file(&path);
    answer
}
