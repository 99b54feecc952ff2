//! The given Rust asked about whole kernels, in the line formats of our own programs.
//!
//!   oracle ask KERNEL QUESTIONS [MATRIX]  `opened COUNT`, then for each question its number and
//!                                         `same`, `forward S`, `reversed S` or `chained` with six numbers
//!   oracle orient KERNEL QUESTIONS        `opened COUNT`, then number, reference frame, six numbers
//!   oracle alone KERNEL QUESTIONS         `opened COUNT`, then number, `forward S`, six numbers: segment S evaluated
//!                                         by its number, covering or not (records A5 5D, number, epoch)
//!   oracle forged BYTES ask|orient|alone KERNEL QUESTIONS
//!                                         the same, with BYTES written over KERNEL, which is mapped, once it is open
//!   oracle listing KERNEL                 our listing's lines
//!   oracle names KERNEL                   `opened COUNT`, then number and name, the name's bytes in hexadecimal
//!   oracle matrix FILE                    writes j2000_to_eclipj2000 as 72 bytes and prints it
//!   oracle write SEED FILE                writes a kernel with the given spk_writer
//!
//! A question that isn't answered: `error KIND`, or `panic`. An opening that fails: `opening error
//! KIND`, `opening panic`, or `opening endless` where the time or memory allowed ran out; the same word
//! alone on the last line if that happens later. KIND is one of io, small, id, format, summary, address,
//! coverage BODY, type NUMBER, radius S, window S, malformed TEXT.

use oracle::daf::DafError;
use oracle::frame::{j2000_to_eclipj2000, rotate_state_inertial, NaifFrame};
use oracle::pck::{PckError, PckFile};
use oracle::spk::{reach, SpkError, SpkFile};
use oracle::words::{hex, matrix, questions, Question};
use std::io::Write;
use std::panic::{catch_unwind, AssertUnwindSafe};
use std::sync::Mutex;

const SECONDS: u64 = 3;
const MEMORY: u64 = 1 << 29;

fn daf_kind(e: &DafError) -> String {
    match e {
        DafError::Io(_) => "io",
        DafError::TooSmall(_) => "small",
        DafError::BadIdword(_) => "id",
        DafError::UnsupportedFormat(_) => "format",
        DafError::BadSummary { .. } => "summary",
        DafError::AddressOutOfBounds { .. } => "address",
    }
    .to_string()
}

/// The kind of an error of a segment's own; `blamed` finds the segment where one was evaluated.
fn bad_kind(text: &str, blamed: impl FnOnce() -> Option<usize>) -> String {
    let word = match text {
        "RADIUS == 0" => "radius",
        "window size 0" => "window",
        _ => return format!("malformed {text}"),
    };
    blamed().map_or(word.to_string(), |s| format!("{word} {s}"))
}

fn spk_kind(e: &SpkError, blamed: impl FnOnce() -> Option<usize>) -> String {
    match e {
        SpkError::Daf(e) => daf_kind(e),
        SpkError::NoCoverage { target, .. } => format!("coverage {target}"),
        SpkError::UnsupportedType(t) => format!("type {t}"),
        SpkError::BadType2(text) => bad_kind(text, blamed),
    }
}

fn pck_kind(e: &PckError, blamed: impl FnOnce() -> Option<usize>) -> String {
    match e {
        PckError::Daf(e) => daf_kind(e),
        PckError::NoCoverage { body, .. } => format!("coverage {body}"),
        PckError::UnsupportedType(t) => format!("type {t}"),
        PckError::BadType2(text) => bad_kind(text, blamed),
    }
}

/// One call, its panic caught: the line it gives, or the error's kind, or `panic`.
fn caught(call: impl FnOnce() -> Result<String, String>) -> String {
    match catch_unwind(AssertUnwindSafe(call)) {
        Ok(Ok(line)) => line,
        Ok(Err(kind)) => format!("error {kind}"),
        Err(_) => "panic".to_string(),
    }
}

/// Bytes to write over an opened kernel, and the kernel's path.
static OVER: Mutex<Option<(Vec<u8>, String)>> = Mutex::new(None);

/// The file under an opened kernel changed in place, where that is asked for; its length stays.
fn write_over() {
    if let Some((bytes, path)) = OVER.lock().expect("one thread").take() {
        let mut file = std::fs::OpenOptions::new().write(true).open(path).expect("a kernel that can be written");
        file.write_all(&bytes).expect("bytes written over the kernel");
    }
}

/// An opening: the opened kernel, or the lines that say why not are printed.
fn opened<T>(open: impl FnOnce() -> Result<T, String>) -> Option<T> {
    match catch_unwind(AssertUnwindSafe(open)) {
        Ok(Ok(file)) => {
            write_over();
            return Some(file);
        }
        Ok(Err(kind)) => println!("opening error {kind}"),
        Err(_) => println!("opening panic"),
    }
    None
}

fn open_spk(path: &str) -> Option<SpkFile> {
    opened(|| SpkFile::open(path).map_err(|e| spk_kind(&e, || None)))
}

fn open_pck(path: &str) -> Option<PckFile> {
    opened(|| PckFile::open(path).map_err(|e| pck_kind(&e, || None)))
}

fn read(path: &str) -> Vec<u8> {
    std::fs::read(path).unwrap_or_else(|e| panic!("{path}: {e}"))
}

fn bits(m: &[[f64; 3]; 3]) -> Vec<u64> {
    m.concat().iter().map(|d| d.to_bits()).collect()
}

/// A state, turned where a matrix is given; the Rust's own matrix goes through `state_in_frame`.
fn state(file: &SpkFile, q: &Question, turn: Option<&[[f64; 3]; 3]>) -> Result<[f64; 6], SpkError> {
    match turn {
        None => file.state(q.target, q.center, q.et),
        Some(m) if bits(m) == bits(&j2000_to_eclipj2000()) => {
            file.state_in_frame(q.target, q.center, q.et, NaifFrame::EclipJ2000)
        }
        Some(m) => Ok(rotate_state_inertial(m, &file.state(q.target, q.center, q.et)?)),
    }
}

fn ask_one(file: &SpkFile, q: &Question, turn: Option<&[[f64; 3]; 3]>) -> Result<String, String> {
    let blamed = || reach::blamed(file, q.target, q.center, q.et);
    let six = state(file, q, turn).map_err(|e| spk_kind(&e, blamed))?;
    let way = match reach::way(file, q.target, q.center, q.et) {
        reach::Way::Same => "same".to_string(),
        reach::Way::Forward(s) => format!("forward {s}"),
        reach::Way::Reversed(s) => format!("reversed {s}"),
        reach::Way::Chained => "chained".to_string(),
    };
    Ok(format!("{way} {}", hex(&six)))
}

fn ask(kernel: &str, asked: &str, turn: Option<&str>) {
    let turn = turn.map(|path| matrix(&read(path)).expect("72 bytes of a matrix"));
    let list = questions(&read(asked), 0x5b).expect("whole questions with their mark");
    if let Some(file) = open_spk(kernel) {
        println!("opened {}", file.segments().len());
        for (i, q) in list.iter().enumerate() {
            println!("{i} {}", caught(|| ask_one(&file, q, turn.as_ref())));
        }
    }
}

fn alone(kernel: &str, asked: &str) {
    let list = questions(&read(asked), 0x5d).expect("whole questions with their mark");
    if let Some(file) = open_spk(kernel) {
        println!("opened {}", file.segments().len());
        for (i, q) in list.iter().enumerate() {
            let s = q.target as usize;
            let one = || match reach::evaluate(&file, s, q.et) {
                Ok(six) => Ok(format!("forward {s} {}", hex(&six))),
                Err(e) => Err(spk_kind(&e, || Some(s))),
            };
            println!("{i} {}", caught(one));
        }
    }
}

fn orient(kernel: &str, asked: &str) {
    let list = questions(&read(asked), 0x5c).expect("whole questions with their mark");
    if let Some(file) = open_pck(kernel) {
        println!("opened {}", file.segments().len());
        for (i, q) in list.iter().enumerate() {
            let of_frame = |s: &oracle::pck::PckSegment| {
                s.body_frame == q.target && !(q.et < s.start_et || q.et > s.end_et)
            };
            let blamed = || file.segments().iter().rposition(of_frame);
            let one = || match file.euler_state_with_ref(q.target, q.et) {
                Ok((reference, six)) => Ok(format!("{reference} {}", hex(&six))),
                Err(e) => Err(pck_kind(&e, blamed)),
            };
            println!("{i} {}", caught(one));
        }
    }
}

fn listing(kernel: &str) {
    if let Some(file) = open_spk(kernel) {
        println!("segments {}", file.segments().len());
        for (i, s) in file.segments().iter().enumerate() {
            let mark = if reach::marked(&file, i) { "yes" } else { "no" };
            let epochs = hex(&[s.start_et, s.end_et]);
            let (start, end) = (s.start_addr as i32, s.end_addr as i32);
            println!("{i} {} {} {} {} {epochs} {start} {end} {mark}", s.target, s.center, s.frame, s.data_type);
        }
    }
}

fn names(kernel: &str) {
    if let Some(file) = open_spk(kernel) {
        println!("opened {}", file.segments().len());
        for (i, s) in file.segments().iter().enumerate() {
            let name: String = s.name.bytes().map(|b| format!("{b:02x}")).collect();
            println!("{i} {name}");
        }
    }
}

fn write_matrix(path: &str) {
    let nine = j2000_to_eclipj2000().concat();
    let bytes: Vec<u8> = nine.iter().flat_map(|d| d.to_le_bytes()).collect();
    std::fs::write(path, bytes).expect("a file that can be written");
    println!("{}", hex(&nine));
}

fn write_kernel(seed: &str, path: &str) {
    let bytes = oracle::written::kernel(seed.parse().expect("a number"));
    std::fs::write(path, bytes).expect("a file that can be written");
}

/// Bounds on time and memory of this process; a walk without end runs into one of them.
fn bound() {
    let limit = |n: u64| libc::rlimit { rlim_cur: n, rlim_max: n };
    // SAFETY: setrlimit reads the one struct it is given.
    unsafe {
        libc::setrlimit(libc::RLIMIT_CPU, &limit(SECONDS));
        libc::setrlimit(libc::RLIMIT_AS, &limit(MEMORY));
        libc::setrlimit(libc::RLIMIT_CORE, &limit(0));
    }
}

/// The work itself, in a process of its own.
fn work(args: &[&str]) {
    bound();
    std::panic::set_hook(Box::new(|_| {}));
    match args {
        ["forged", bytes, program, kernel, rest @ ..] => {
            *OVER.lock().expect("one thread") = Some((read(bytes), kernel.to_string()));
            work(&[&[*program, *kernel], rest].concat())
        }
        ["ask", kernel, asked] => ask(kernel, asked, None),
        ["ask", kernel, asked, turn] => ask(kernel, asked, Some(turn)),
        ["alone", kernel, asked] => alone(kernel, asked),
        ["orient", kernel, asked] => orient(kernel, asked),
        ["listing", kernel] => listing(kernel),
        ["names", kernel] => names(kernel),
        ["matrix", path] => write_matrix(path),
        ["write", seed, path] => write_kernel(seed, path),
        _ => {
            eprintln!("usage: oracle ask|alone|orient KERNEL QUESTIONS, ask with [MATRIX], listing|names KERNEL, matrix FILE, write SEED FILE");
            std::process::exit(2);
        }
    }
}

fn main() {
    let args: Vec<String> = std::env::args().skip(1).collect();
    let words: Vec<&str> = args.iter().map(String::as_str).collect();
    if let ["bounded", rest @ ..] = &words[..] {
        return work(rest);
    }
    let own = std::env::current_exe().expect("this program's own path");
    let child = std::process::Command::new(own).arg("bounded").args(&words).output().expect("a child process");
    let lines = String::from_utf8_lossy(&child.stdout);
    print!("{lines}");
    match child.status.code() {
        Some(code) => {
            eprint!("{}", String::from_utf8_lossy(&child.stderr));
            std::process::exit(code)
        }
        None if lines.is_empty() => println!("opening endless"),
        None => println!("endless"),
    }
}
