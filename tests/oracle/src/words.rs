//! Numbers in and out: bits as 16 hexadecimal digits, and the records of a questions file.

/// Doubles as bits, single spaces between.
pub fn hex(numbers: &[f64]) -> String {
    let words: Vec<String> = numbers.iter().map(|d| format!("{:016x}", d.to_bits())).collect();
    words.join(" ")
}

/// A question: target and center (one number alone stands for both) and the epoch.
pub struct Question {
    pub target: i32,
    pub center: i32,
    pub et: f64,
}

/// The records of a questions file: the mark A5 and `second`, then one or two numbers, then the epoch.
pub fn questions(bytes: &[u8], second: u8) -> Option<Vec<Question>> {
    let size = if second == 0x5b { 18 } else { 14 };
    if bytes.len() % size != 0 {
        return None;
    }
    bytes.chunks(size).map(|record| question(record, second)).collect()
}

fn question(record: &[u8], second: u8) -> Option<Question> {
    let number = |at: usize| i32::from_le_bytes(record[at..at + 4].try_into().unwrap());
    let epoch = record.len() - 8;
    if record[0..2] != [0xa5, second] {
        return None;
    }
    let et = f64::from_le_bytes(record[epoch..].try_into().unwrap());
    Some(Question { target: number(2), center: number(epoch - 4), et })
}

/// Nine doubles of a matrix file, row by row.
pub fn matrix(bytes: &[u8]) -> Option<[[f64; 3]; 3]> {
    let at = |k: usize| f64::from_le_bytes(bytes[8 * k..8 * k + 8].try_into().unwrap());
    let row = |i: usize| [at(3 * i), at(3 * i + 1), at(3 * i + 2)];
    (bytes.len() == 72).then(|| [row(0), row(1), row(2)])
}
