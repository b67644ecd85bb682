//! Compares the proved library with two evaluations in Rust on random and damaged sheets, and with one of them on as many random
//! fours of levels, lists of cars and lorries.
//!
//!     differential SHEETS COUNT [SEED]     SHEETS is the file of the corpus
//!
//! Each result buffer has bytes that an evaluation must keep: all of them on a refusal, those from 32 on on success.
//! The sheet stays too. So do a motorcycle's levels, on a refusal its mean and pass, and what stands beside these; so do a
//! production check's limit, on a refusal its stage, and what stands beside it; and so do, on a refusal, a lorry's masses, and what
//! stands beside them.

use ruthimpo::ProductionCheck;
use speed::cars::{any_list, CarList};
use speed::changes::any_sheet;
use speed::fours::{any_four, Four};
use speed::lorries::{any_lorry, Lorry};
use speed::random::Random;
use speed::sheets::{ACCELERATION, CONSTANT, RECORD};
use speed::straight;
use std::cmp::Ordering;
use std::collections::BTreeMap;
use std::fmt::Debug;
use std::{env, fs, process::ExitCode};

const POISON: u8 = 0xA5;

/// The sheets of a corpus file: each after its length in four bytes; a length of 2^32 - 1 ends it.
fn corpus(path: &str) -> Vec<Vec<u8>> {
    let content = fs::read(path).expect("the corpus can be read");
    let mut sheets = Vec::new();
    let mut rest = &content[..];
    while let Some((length, after)) = rest.split_first_chunk::<4>() {
        let length = u32::from_le_bytes(*length);
        if length == u32::MAX {
            return sheets;
        }
        let (sheet, after) = after.split_at(length as usize);
        sheets.push(sheet.to_vec());
        rest = after;
    }
    panic!("the corpus has no end mark");
}

/// What a call gives: 0 or a refusal's number, its place, and the whole buffer.
#[derive(PartialEq, Eq, Debug)]
struct Given {
    number: u32,
    place: usize,
    buffer: Vec<u8>,
}

fn given(size: usize, call: impl Fn(&mut [u8]) -> (u32, usize)) -> Given {
    let mut buffer = vec![POISON; size];
    let (number, place) = call(&mut buffer);
    Given { number, place, buffer }
}

/// What is wrong with an evaluation of a sheet, if anything is.
fn fault(sheet: &[u8], size: usize) -> Result<Given, String> {
    let numbers = |refusal: Result<(), reckoning::Refusal>| match refusal {
        Ok(()) => (0, 0),
        Err((number, place)) => (number, place as usize),
    };
    let ours = given(size, |result| match ruthimpo::evaluate(sheet, result) {
        Ok(()) => (0, 0),
        Err(refusal) => (refusal.number, refusal.place),
    });
    let reckoned = given(size, |result| numbers(reckoning::evaluate(sheet, result)));
    let straight = given(size, |result| numbers(straight::evaluate(sheet, result)));
    let kept = if ours.number == 0 { &ours.buffer[32..] } else { &ours.buffer[..] };
    if ours != reckoned {
        Err(format!("ours {ours:?}, reckoning {reckoned:?}"))
    } else if ours != straight {
        Err(format!("ours {ours:?}, one pass {straight:?}"))
    } else if kept.iter().any(|&byte| byte != POISON) {
        Err(format!("a byte was not kept: {ours:?}"))
    } else if size >= 32 && ruthimpo::line(sheet) != reckoning::line(sheet) + "\n" {
        Err(format!("the line is {:?}", ruthimpo::line(sheet)))
    } else {
        Ok(ours)
    }
}

/// How often each verdict came up where the limit is looked up: by the highest PMR of a range, in tenths, and the byte of low cars,
/// for each phase pass and fail.
#[derive(Default)]
struct Verdicts(BTreeMap<(u16, u8), [[usize; 2]; 3]>);

impl Verdicts {
    fn count(&mut self, sheet: &[u8], result: &[u8]) {
        if sheet[14..16] == [0, 0] {
            let pmr = u16::from_le_bytes([result[16], result[17]]);
            let highest = [1200, 1600, 2000, 6000].into_iter().find(|&highest| pmr <= highest);
            let class = (highest.expect("PMR is at most 600.0"), sheet[17]);
            let of_phase = &mut self.0.entry(class).or_default()[usize::from(sheet[16]) - 1];
            of_phase[usize::from(result[5] == 0)] += 1;
        }
    }

    /// Prints them; whether each came up.
    fn all_came_up(&self) -> bool {
        println!("limit looked up              phase 1: pass     fail  phase 2: pass     fail  phase 3: pass     fail");
        for ((highest, low_car), [one, two, three]) in &self.0 {
            let [one, two, three] = [one, two, three].map(|[pass, fail]| format!("{pass:>15}{fail:>9}"));
            println!("PMR up to {}.0, byte 17 = {low_car}{one:>26}{two}{three}", highest / 10);
        }
        let found = self.0.values().flatten().flatten().filter(|&&found| found > 0).count();
        println!("{found} of 48 verdicts by class and phase came up");
        found == 48
    }
}

/// The answers that come up on sheets: 5 rules and 14 refusals, of which 7 has two names, and so have 14 and 15.
const SHEET_ANSWERS: usize = 22;

/// An answer on a sheet by its rule or its refusal: 7 also by whether it names a gear, 14 and 15 by the count of that gear's runs.
fn name(sheet: &[u8], given: &Given) -> String {
    let runs = |kind| if runs_with_levels(sheet, kind, given.place) > 16 { "more than 16" } else { "up to 16" };
    match (given.number, given.place) {
        (0, _) => format!("rule {}", given.buffer[0]),
        (7, 0) => "refusal  7, no acceleration run".into(),
        (7, _) => "refusal  7, a gear".into(),
        (14, _) => format!("refusal 14, {} runs", runs(ACCELERATION)),
        (15, _) => format!("refusal 15, {} runs", runs(CONSTANT)),
        (number, _) => format!("refusal {number:>2}"),
    }
}

/// The runs of a kind and gear that are not struck and have a level on both sides.
fn runs_with_levels(sheet: &[u8], kind: u8, gear: usize) -> usize {
    let is_one = |record: &&[u8]| record[..5] == [kind, gear as u8, 0, 1, 1];
    sheet.chunks_exact(RECORD).filter(is_one).count()
}

/// Compares so many sheets, and prints how often each answer and each verdict by class came up; whether all agree and each did.
fn compare_sheets(random: &mut Random, corpus: &[Vec<u8>], count: usize) -> bool {
    let mut answers = Answers::new();
    let mut verdicts = Verdicts::default();
    for at in 0..count {
        let sheet = any_sheet(random, corpus);
        let size = if random.chance(5) { random.below(32) } else { 32 + random.below(40) };
        let before = sheet.clone();
        let found = fault(&sheet, size);
        assert!(sheet == before, "sheet {at} was written");
        match found {
            Ok(given) => {
                if given.number == 0 {
                    verdicts.count(&sheet, &given.buffer);
                }
                *answers.entry(name(&sheet, &given)).or_default() += 1;
            }
            Err(words) => {
                println!("sheet {at}, {} bytes, a buffer of {size}: {words}", sheet.len());
                return false;
            }
        }
    }
    let agreed = format!("{count} sheets: the proved evaluation and two in Rust gave the same answers and buffers");
    let all_answers = all_came_up(&answers, SHEET_ANSWERS, &agreed);
    verdicts.all_came_up() && all_answers
}

/// What a call on a motorcycle gives: 0 or a refusal's number, its place, the levels, and mean and pass between poisoned ones.
#[derive(PartialEq, Eq, Debug)]
struct Judged {
    number: u32,
    place: usize,
    levels: [u32; 4],
    means: [u16; 3],
    passes: [u8; 3],
}

impl Judged {
    fn poisoned(four: &Four) -> Judged {
        Judged { number: 0, place: 0, levels: four.levels, means: [0xA5A5; 3], passes: [POISON; 3] }
    }

    fn by_the_library(four: &Four) -> Judged {
        let mut given = Judged { place: usize::MAX, ..Judged::poisoned(four) };
        // A pointer that may write, so that levels which were written are seen.
        let levels = given.levels.as_mut_ptr();
        let (mean, pass) = (&mut given.means[1], &mut given.passes[1]);
        // SAFETY: the pointers are those of live places of their own, aligned by their types.
        given.number = unsafe { ruthimpo::ruthimpo_motorcycle(levels, four.limit, mean, pass, &mut given.place) };
        given
    }

    fn by_the_reckoning(four: &Four) -> Judged {
        let mut given = Judged::poisoned(four);
        match reckoning::motorcycle(four.levels.map(f32::from_bits), four.limit) {
            Ok(mean) => (given.means[1], given.passes[1]) = (mean.quarters, mean.passes.into()),
            Err((number, place)) => (given.number, given.place) = (number, place as usize),
        }
        given
    }

    fn name(&self) -> String {
        match (self.number, self.passes[1]) {
            (0, 1) => "pass".into(),
            (0, _) => "fail".into(),
            (number, _) => format!("refusal {number} at {}", self.place),
        }
    }
}

/// How often each answer came up, by its name.
type Answers = BTreeMap<String, usize>;

/// What the library gave, or how it differs from what the reckoning did.
fn same<T: PartialEq + Debug>(ours: T, reckoned: T) -> Result<T, String> {
    if ours == reckoned {
        Ok(ours)
    } else {
        Err(format!("ours {ours:?}, reckoning {reckoned:?}"))
    }
}

/// Tries so many of one kind, and counts their answers; prints what differs, if anything does, and then gives none.
fn try_all<T: Debug>(
    count: usize,
    kind: &str,
    mut any: impl FnMut() -> T,
    try_one: impl Fn(&T, &mut Answers) -> Result<(), String>,
) -> Option<Answers> {
    let mut answers = Answers::new();
    for at in 0..count {
        let one = any();
        if let Err(words) = try_one(&one, &mut answers) {
            println!("{kind} {at}, {one:?}: {words}");
            return None;
        }
    }
    Some(answers)
}

/// Prints how often each answer came up, and that all agreed; whether as many answers did as there are.
fn all_came_up(answers: &Answers, all: usize, agreed: &str) -> bool {
    for (name, found) in answers {
        println!("{name:<40}{found:>9}");
    }
    println!("{agreed}\n{} of {all} answers came up", answers.len());
    answers.len() == all
}

/// Judges a motorcycle, and counts the answer; what differs, if anything does.
fn judge(four: &Four, answers: &mut Answers) -> Result<(), String> {
    let judged = same(Judged::by_the_library(four), Judged::by_the_reckoning(four))?;
    *answers.entry(judged.name()).or_default() += 1;
    Ok(())
}

/// Compares so many motorcycles, as `compare_sheets` does.
fn compare_motorcycles(random: &mut Random, count: usize) -> bool {
    let agreed = format!("{count} motorcycles: the proved evaluation and one in Rust gave the same answers");
    try_all(count, "motorcycle", || any_four(random), judge).is_some_and(|answers| all_came_up(&answers, 8, &agreed))
}

/// A production check after its last car: 0 or a refusal's number, its place, the limit, the status and the cars wanted.
#[derive(PartialEq, Eq, Debug)]
struct AfterCar {
    number: u32,
    place: usize,
    limit: u16,
    status: u8,
    wanted: u8,
}

impl AfterCar {
    fn by_the_reckoning(limit: u16, cars: &[u16]) -> AfterCar {
        let standing = reckoning::production(limit, cars);
        let (number, place) = standing.answer.err().unwrap_or((0, 0));
        let status = match standing.status {
            reckoning::Status::Open => 0,
            reckoning::Status::Conforms => 1,
            reckoning::Status::DoesNotConform => 2,
        };
        AfterCar { number, place: place as usize, limit, status, wanted: standing.wanted }
    }

    /// The answer by its stage, its refusal, or its status and cars wanted.
    fn name(&self, stage: u16) -> String {
        match (self.number, self.status) {
            (0, 0) => format!("stage {stage}: open, {} wanted", self.wanted),
            (0, 1) => format!("stage {stage}: conforms"),
            (0, _) => format!("stage {stage}: does not conform"),
            (number, _) => format!("stage {stage}: refusal {number} at {}", self.place),
        }
    }
}

/// A production check of the library between poisoned ones, as a program hands it on.
struct Kept([ProductionCheck; 3]);

impl Kept {
    const POISONED: ProductionCheck = ProductionCheck { limit: 0xA5A5, stage: 0xA5A5 };

    fn start(limit: u16) -> Kept {
        let mut kept = Kept([Kept::POISONED; 3]);
        // SAFETY: the pointer is that of a live place, aligned by its type.
        unsafe { ruthimpo::ruthimpo_production_start(limit, &mut kept.0[1]) };
        kept
    }

    /// 0 or the number of the refusal, and its place.
    fn offer(&mut self, car: u16) -> (u32, usize) {
        let mut place = usize::MAX;
        // SAFETY: the pointers are those of live places of their own, aligned by their types.
        let number = unsafe { ruthimpo::ruthimpo_production_offer(&mut self.0[1], car, &mut place) };
        (number, place)
    }

    fn read(&mut self, (number, place): (u32, usize)) -> AfterCar {
        let (mut statuses, mut wanted) = ([POISON; 3], [POISON; 3]);
        // A pointer that may write, so that a check which was written is seen.
        let check = &raw mut self.0[1];
        // SAFETY: as in `offer`.
        let answer = unsafe { ruthimpo::ruthimpo_production_status(check, &mut statuses[1], &mut wanted[1]) };
        assert_eq!(answer, 0, "the status of {:?} is refused", self.0[1]);
        assert_eq!(
            [statuses[0], statuses[2], wanted[0], wanted[2]],
            [POISON; 4],
            "what stands beside a status was written"
        );
        AfterCar { number, place, limit: self.0[1].limit, status: statuses[1], wanted: wanted[1] }
    }
}

/// Follows a list of cars one at a time, and counts the answers; what differs, if anything does.
fn follow(list: &CarList, answers: &mut Answers) -> Result<(), String> {
    let mut kept = Kept::start(list.limit);
    let mut given = (0, 0);
    for count in 0..=list.cars.len() {
        let before = kept.0;
        if let Some(last) = count.checked_sub(1) {
            given = kept.offer(list.cars[last]);
        }
        let after = kept.0;
        let ours = same(kept.read(given), AfterCar::by_the_reckoning(list.limit, &list.cars[..count]))
            .map_err(|words| format!("after {count} cars {words}"))?;
        if kept.0 != after || [after[0], after[2]] != [Kept::POISONED; 2] || (given.0 != 0 && after != before) {
            return Err(format!("after {count} cars a check was not kept: {before:?}, {after:?}, {:?}", kept.0));
        }
        *answers.entry(ours.name(after[1].stage)).or_default() += 1;
    }
    Ok(())
}

/// Compares so many production checks, as `compare_sheets` does.
fn compare_production(random: &mut Random, count: usize) -> bool {
    let agreed =
        format!("{count} production checks: the proved ones and those in Rust gave the same answers after each car");
    try_all(count, "production check", || any_list(random), follow)
        .is_some_and(|answers| all_came_up(&answers, 10, &agreed))
}

/// What a call on a lorry gives: 0 or a refusal's number, its place, and the four masses between poisoned numbers.
#[derive(PartialEq, Eq, Debug)]
struct Loaded {
    number: u32,
    place: usize,
    masses: [u64; 6],
}

impl Loaded {
    const POISONED: [u64; 6] = [0xA5A5_A5A5_A5A5_A5A5; 6];

    fn by_the_library(call: impl FnOnce(*mut u64, *mut usize) -> u32) -> Loaded {
        let mut given = Loaded { number: 0, place: usize::MAX, masses: Loaded::POISONED };
        given.number = call(given.masses[1..5].as_mut_ptr(), &mut given.place);
        given
    }

    fn by_the_reckoning(answer: Result<reckoning::Masses, reckoning::Refusal>) -> Loaded {
        let mut given = Loaded { number: 0, place: 0, masses: Loaded::POISONED };
        match answer {
            Ok(reckoning::Masses { mass, load, lowest, highest }) => {
                given.masses[1..5].copy_from_slice(&[mass, load, lowest, highest]);
            }
            Err((number, place)) => (given.number, given.place) = (number, place as usize),
        }
        given
    }

    fn mass(&self) -> u64 {
        self.masses[1]
    }

    /// The answer by the case that it falls under, or its refusal.
    fn name(&self, case: &str) -> String {
        match self.number {
            0 => case.into(),
            number => format!("refusal {number} at {}", self.place),
        }
    }
}

/// What both give on a lorry of two axles, or what differs.
fn two_axles(lorry: &Lorry) -> Result<Loaded, String> {
    let Lorry { power, front, rear, rear_max, .. } = *lorry;
    // SAFETY: the pointers are those of live places of their own, aligned by their types.
    let ours = Loaded::by_the_library(|masses, place| unsafe {
        ruthimpo::ruthimpo_lorry_two_axles(power, front, rear, rear_max, masses, place)
    });
    let reckoned = reckoning::two_axles(reckoning::TwoAxles { power, front, rear, rear_max });
    same(ours, Loaded::by_the_reckoning(reckoned)).map_err(|words| format!("of two axles {words}"))
}

/// What both give on a lorry of more axles, or what differs.
fn more_axles(lorry: &Lorry) -> Result<Loaded, String> {
    let Lorry { power, front, rear, rear_max, own } = *lorry;
    // SAFETY: as in `two_axles`.
    let ours = Loaded::by_the_library(|masses, place| unsafe {
        ruthimpo::ruthimpo_lorry_more_axles(power, front, rear, rear_max, own, masses, place)
    });
    let reckoned = reckoning::more_axles(reckoning::TwoAxles { power, front, rear, rear_max }, own);
    same(ours, Loaded::by_the_reckoning(reckoned)).map_err(|words| format!("of more axles {words}"))
}

/// Loads a lorry of two axles and one of more that has it for its stand-in, and counts the answers; what differs, if anything does.
fn load(lorry: &Lorry, answers: &mut Answers) -> Result<(), String> {
    let (two, more) = (two_axles(lorry)?, more_axles(lorry)?);
    // Two axles are above the target only without a load, and below it only if the rear axle limits the load.
    let target = 50_000 * u64::from(lorry.power);
    let case = match two.mass().cmp(&target) {
        Ordering::Greater => "no load",
        Ordering::Equal => "target",
        Ordering::Less => "rear axle's limit",
    };
    let case_of_more = if more.mass() == two.mass() { format!("stand-in, {case}") } else { "own mass".into() };
    *answers.entry(format!("two axles: {}", two.name(case))).or_default() += 1;
    *answers.entry(format!("more axles: {}", more.name(&case_of_more))).or_default() += 1;
    Ok(())
}

/// Compares so many lorries of two axles and as many of more, as `compare_sheets` does.
fn compare_lorries(random: &mut Random, count: usize) -> bool {
    let agreed =
        format!("{count} lorries of two axles and as many of more: the proved masses and those in Rust are the same");
    try_all(count, "lorry", || any_lorry(random), load).is_some_and(|answers| all_came_up(&answers, 9, &agreed))
}

fn main() -> ExitCode {
    let arguments: Vec<String> = env::args().skip(1).collect();
    let [path, count, seed @ ..] = &arguments[..] else {
        eprintln!("usage: differential SHEETS COUNT [SEED]");
        return ExitCode::FAILURE;
    };
    let corpus = corpus(path);
    let count: usize = count.parse().expect("COUNT is a number");
    let mut random = Random::new(seed.first().map_or(1, |seed| seed.parse().expect("SEED is a number")));
    if compare_sheets(&mut random, &corpus, count)
        && compare_motorcycles(&mut random, count)
        && compare_production(&mut random, count)
        && compare_lorries(&mut random, count)
    {
        ExitCode::SUCCESS
    } else {
        ExitCode::FAILURE
    }
}
