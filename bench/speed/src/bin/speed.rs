//! The time of the proved evaluation against two in Rust, sheet by sheet, in one run: the reckoning, which reads the
//! runs into vectors, and the one that goes over the records once. All three are called by C's interface.

use speed::sessions::{session, Place};
use speed::sheets::{put, RECORD};
use speed::straight;
use std::hint::black_box;
use std::slice;
use std::time::{Duration, Instant};

const ROUNDS: usize = 41;
const BATCH: usize = 32;
/// The time of a round, in nanoseconds.
const ROUND: u128 = 1_000_000;

/// An evaluation as C has it: 0 or the number of the refusal, and its place.
type Evaluation = unsafe extern "C" fn(*const u8, usize, *mut u8, usize, *mut usize) -> u32;

struct Row {
    name: String,
    records: usize,
    sheet: Vec<u8>,
}

fn rows() -> Vec<Row> {
    let mut rows = Vec::new();
    for (place, words) in [(Place::First, "window first"), (Place::Last, "window last")] {
        // 16 gears need 74 records: four runs of each, and four at constant speed of two.
        for (records, gears) in [(42, 2), (42, 8), (74, 16), (256, 2), (256, 16), (1024, 2), (1024, 16)] {
            let name = format!("{gears} gears, {words}");
            rows.push(Row { name, records, sheet: session(records, gears, place) });
        }
    }
    for records in [42, 1024] {
        let whole = session(records, 2, Place::Last);
        let mut broken = whole.clone();
        let at = broken.len() - RECORD - 1;
        broken[at] = 1;
        let mut closing = whole.clone();
        let at = closing.len() - 28;
        put(&mut closing, at, 1001);
        let cut = whole[..whole.len() - 1].to_vec();
        rows.push(Row { name: "refused: cut".into(), records, sheet: cut });
        rows.push(Row { name: "refused: last run broken".into(), records, sheet: broken });
        rows.push(Row { name: "refused: closing broken".into(), records, sheet: closing });
    }
    rows
}

/// The nanoseconds of one call, from batches on cleared buffers; the clearing is outside the timing.
fn time_of(evaluation: Evaluation, sheet: &[u8], calls: usize) -> f64 {
    let mut spent = Duration::ZERO;
    for _ in 0..calls.div_ceil(BATCH) {
        let mut buffers = [[0; 32]; BATCH];
        let began = Instant::now();
        for buffer in &mut buffers {
            black_box(call(evaluation, black_box(sheet), black_box(buffer)));
        }
        spent += began.elapsed();
    }
    spent.as_nanos() as f64 / (calls.div_ceil(BATCH) * BATCH) as f64
}

/// One in Rust, by C's interface.
macro_rules! as_c {
    ($name:ident, $evaluate:path) => {
        unsafe extern "C" fn $name(
            sheet: *const u8,
            sheet_bytes: usize,
            result: *mut u8,
            result_bytes: usize,
            place: *mut usize,
        ) -> u32 {
            let sheet = slice::from_raw_parts(sheet, sheet_bytes);
            let result = slice::from_raw_parts_mut(result, result_bytes);
            let (number, at) = $evaluate(sheet, result).err().unwrap_or((0, 0));
            *place = at as usize;
            number
        }
    };
}

as_c!(vectors, reckoning::evaluate);
as_c!(one_pass, straight::evaluate);

const EVALUATIONS: [Evaluation; 3] = [ruthimpo::ruthimpo_evaluate, vectors, one_pass];

fn call(evaluation: Evaluation, sheet: &[u8], result: &mut [u8]) -> (u32, usize) {
    let mut place = 0;
    // SAFETY: the pointers and lengths are those of live slices, and the borrow checker keeps the three places apart.
    let number = unsafe { evaluation(sheet.as_ptr(), sheet.len(), result.as_mut_ptr(), result.len(), &mut place) };
    (number, place)
}

fn median(mut times: Vec<f64>) -> f64 {
    times.sort_by(f64::total_cmp);
    times[times.len() / 2]
}

/// The median times of the three, and the medians of the first's ratios to the others, of times that stand beside each other.
fn measured(sheet: &[u8]) -> ([f64; 3], [f64; 2]) {
    let calls = EVALUATIONS.map(|evaluation| (ROUND / (time_of(evaluation, sheet, BATCH) as u128 + 1)) as usize);
    let rounds: Vec<[f64; 3]> =
        (0..ROUNDS).map(|_| [0, 1, 2].map(|at| time_of(EVALUATIONS[at], sheet, calls[at]))).collect();
    let times = [0, 1, 2].map(|at| median(rounds.iter().map(|round| round[at]).collect()));
    let ratios = [1, 2].map(|at| median(rounds.iter().map(|round| round[0] / round[at]).collect()));
    (times, ratios)
}

/// The answer that all three give; they must agree, in the result record too.
fn answer_of(sheet: &[u8]) -> String {
    let answers = EVALUATIONS.map(|evaluation| {
        let mut result = [0; 32];
        (call(evaluation, sheet, &mut result), result)
    });
    assert!(answers.iter().all(|answer| *answer == answers[0]), "the evaluations differ");
    match answers[0] {
        ((0, _), result) => format!("rule {}", result[0]),
        ((number, _), _) => format!("refusal {number}"),
    }
}

/// How much more time ours needs for four times the records.
fn print_growth(found: &[(Row, f64)]) {
    for (small, less) in found.iter().filter(|(row, _)| row.records == 256) {
        for (_, more) in found.iter().filter(|(row, _)| row.records == 1024 && row.name == small.name) {
            println!(
                "{}: from 256 to 1,024 records, 4.0 times as many, ours needs {:.1} times the time",
                small.name,
                more / less
            );
        }
    }
}

fn main() {
    println!("                                                 nanoseconds a call          ours / Rust");
    println!("records  sheet                     answer       ours  vectors one pass   vectors one pass");
    let mut slower = [0, 0];
    let mut found = Vec::new();
    for row in rows() {
        let answer = answer_of(&row.sheet);
        let (times, ratios) = measured(&row.sheet);
        let [a, b, c] = times.map(|time| format!("{time:>9.0}"));
        let [d, e] = ratios.map(|ratio| format!("{ratio:>9.2}"));
        println!("{:>7}  {:<26}{:<10}{a}{b}{c} {d}{e}", row.records, row.name, answer);
        for (count, ratio) in slower.iter_mut().zip(ratios) {
            *count += usize::from(ratio > 1.0);
        }
        found.push((row, times[0]));
    }
    print_growth(&found);
    println!("rows in which ours is slower: {} than vectors, {} than one pass", slower[0], slower[1]);
}
