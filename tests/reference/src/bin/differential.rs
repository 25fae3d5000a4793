//! Compares the proved engine with the reference, call by call, on seeded inputs: `differential SEED COUNT`.
//!
//! Each group draws COUNT cases, some groups several for each. Equal must be the answer and every lent byte, with guards around what may
//! be written and the slices that are only read. The first difference of a group is made small and printed; the exit code is 1 if there was
//! any.

#[path = "../foreign.rs"]
mod foreign;

use foreign::Foreign;
use reference::answer::{did, length, number, offset, value};
use reference::calls::{Call, Engine, Reference};
use reference::cases::{
    counts_case, device_case, forged, image_case, image_of, lively_plan, message_case, module_case, pages_case, pieces, plan, record_case,
    records_of, schedule, shrink_case, shrink_pages, shrink_pieces, shrink_schedule, single_bytes, some_cuts, stuck_case, supervisor_case,
    unfit_case, Applied, Case, Ground, Op, Rng, World,
};
use reference::pages::LINE_BYTES;
use reference::pieces::CHECK_BYTES;
use std::hint::black_box;
use std::process::ExitCode;

const GUARD: usize = 16;
const GUARD_BYTE: u8 = 0xA5;
/// Cases drawn on one plan.
const CASES_PER_PLAN: usize = 50;
/// So many forged states for each case of another group: they are quick, and most of what they may hold is rare.
const FORGED: usize = 4;
/// With so few cuts of an image the check is asked after each piece.
const FEW_CUTS: usize = 9;
/// Calls of one schedule.
const CALLS_PER_SCHEDULE: usize = 600;

/// How many cases were run, and how often each number arose, 0 for accepted.
#[derive(Default)]
struct Tally {
    cases: usize,
    numbers: [usize; 18],
    differences: usize,
}

impl Tally {
    fn count(&mut self, answer: u64) {
        self.cases += 1;
        self.numbers[usize::from(number(answer))] += 1;
    }

    fn print(&self, name: &str) {
        print!("{name:<12} {:>9} cases {:>9} accepted ", self.cases, self.numbers[0]);
        for number in 1..=17 {
            print!(" {number}:{}", self.numbers[number]);
        }
        println!("  {} differences", self.differences);
    }
}

/// Everything that a call leaves behind.
#[derive(PartialEq, Eq)]
struct Outcome {
    answer: u64,
    state: Vec<u8>,
    buffer: Vec<u8>,
    /// What must never be written: guards and slices only read.
    untouched: bool,
}

fn guarded(bytes: &[u8]) -> Vec<u8> {
    [&[GUARD_BYTE; GUARD], bytes, &[GUARD_BYTE; GUARD]].concat()
}

fn outcome(engine: &impl Engine, case: &Case) -> Outcome {
    let (image, message) = (case.image.clone(), case.message.clone());
    let (mut state, mut buffer) = (guarded(&case.state), guarded(&case.buffer));
    let inner = |bytes: &Vec<u8>| GUARD..bytes.len() - GUARD;
    let (state_range, buffer_range) = (inner(&state), inner(&buffer));
    let (lent_state, lent_buffer) = (&mut state[state_range.clone()], &mut buffer[buffer_range.clone()]);
    let answer = engine.call(case.call, &image, lent_state, &message, lent_buffer);
    let whole = |bytes: &[u8], range: &std::ops::Range<usize>| {
        let guards = bytes[..range.start].iter().chain(&bytes[range.end..]);
        guards.into_iter().all(|&byte| byte == GUARD_BYTE)
    };
    Outcome {
        answer,
        untouched: *black_box(&image) == case.image
            && *black_box(&message) == case.message
            && whole(&state, &state_range)
            && whole(&buffer, &buffer_range),
        state: state[state_range].to_vec(),
        buffer: buffer[buffer_range].to_vec(),
    }
}

fn differs(case: &Case) -> bool {
    let (engine, reference) = (outcome(&Foreign, case), outcome(&Reference, case));
    engine != reference || !engine.untouched
}

/// Runs a group of single calls.
fn calls(name: &str, seed: u64, count: usize, mut draw: impl FnMut(&mut Rng, &mut Ground) -> Case) -> Tally {
    let mut rng = Rng::new(seed);
    let mut tally = Tally::default();
    while tally.cases < count {
        let records = plan(&mut rng);
        let image = image_of(&records);
        let mut ground = Ground::new(&records, &image);
        for _ in 0..CASES_PER_PLAN.min(count - tally.cases) {
            let case = draw(&mut rng, &mut ground);
            let (engine, reference) = (outcome(&Foreign, &case), outcome(&Reference, &case));
            tally.count(reference.answer);
            if engine != reference || !engine.untouched {
                tally.differences += 1;
                if tally.differences == 1 {
                    print_case(name, &shrink_case(case, differs));
                }
            }
        }
    }
    tally.print(name);
    tally
}

/// Draws states with the clauses of fitting broken in turn.
fn states() -> impl FnMut(&mut Rng, &mut Ground) -> Case {
    let mut turns = 0..;
    move |rng, ground| unfit_case(rng, ground, turns.next().unwrap_or(0))
}

/// Draws states of the check in pieces that no call has left.
fn forged_states() -> impl FnMut(&mut Rng, &mut Ground) -> Case {
    let mut draw = forged();
    move |rng, ground| draw(rng, ground)
}

/// A check in pieces that is under way: the state between guards.
struct UnderWay<E> {
    engine: E,
    state: Vec<u8>,
}

impl<E: Engine> UnderWay<E> {
    /// From a start, whose answer is the second.
    fn start(engine: E) -> (Self, u64) {
        let mut state = guarded(&[0xAA; CHECK_BYTES]);
        let answer = engine.call(Call::CheckStart, &[], &mut [], &[], &mut state[GUARD..GUARD + CHECK_BYTES]);
        (UnderWay { engine, state }, answer)
    }

    /// Takes a piece. The answers are those to the piece and after it.
    fn take(&mut self, piece: &[u8]) -> [u64; 2] {
        let state = &mut self.state[GUARD..GUARD + CHECK_BYTES];
        [Call::CheckPiece, Call::CheckAnswer].map(|call| self.engine.call(call, piece, state, &[], &mut []))
    }
}

/// The first piece of an image after which the two sides differ, or one from the check of the bytes so far, and how. The check is asked at
/// the end, and after each piece if the pieces are few.
fn pieces_difference(image: &[u8], cuts: &[usize]) -> Option<String> {
    let ((mut ours, started), (mut theirs, start)) = (UnderWay::start(Foreign), UnderWay::start(Reference));
    if started != start || ours.state != theirs.state {
        return Some(format!("start: engine {}, reference {}", in_words(started), in_words(start)));
    }
    let mut taken = 0;
    for piece in pieces(image, cuts) {
        let given = ours.take(piece);
        let due = theirs.take(piece);
        taken += piece.len();
        let same = given == due && ours.state == theirs.state;
        let whole = taken == image.len() || cuts.len() < FEW_CUTS;
        let checked = if whole { reference::check(&image[..taken]) } else { due[1] };
        if !same || checked != due[1] {
            let states = if ours.state == theirs.state { "" } else { "; states differ" };
            let [given, due, checked] = [given[1], due[1], checked].map(in_words);
            return Some(format!(
                "after {taken} bytes: engine {given}, reference {due}, check {checked}{states}"
            ));
        }
    }
    let whole = Foreign.call(Call::Check, image, &mut [], &[], &mut []);
    let (answer, checked) = (reference::check(image), in_words(whole));
    (whole != answer).then(|| format!("the engine's check of the whole: {checked}"))
}

/// Cuts every image of the group `images` at a few places, and byte by byte.
fn cut_images(seed: u64, cut_seed: u64, count: usize) -> Tally {
    let mut rng = Rng::new(cut_seed);
    let mut tally = Tally::default();
    for_images(seed, count, |image| {
        for cuts in [some_cuts(&mut rng, image.len()), single_bytes(&mut rng, image.len())] {
            tally.count(reference::check(image));
            if pieces_difference(image, &cuts).is_some() {
                tally.differences += 1;
                if tally.differences == 1 {
                    print_pieces(image.to_vec(), cuts);
                }
            }
        }
    });
    tally.print("pieces");
    tally
}

/// Prints every image of the group `images` once.
fn printed_images(seed: u64, room_seed: u64, count: usize) -> Tally {
    let mut rng = Rng::new(room_seed);
    let mut tally = Tally::default();
    for_images(seed, count, |image| {
        let case = pages_case(&mut rng, image);
        let (engine, reference) = (outcome(&Foreign, &case), outcome(&Reference, &case));
        tally.count(reference.answer);
        if engine != reference || !engine.untouched {
            tally.differences += 1;
            if tally.differences == 1 {
                print_pages(&shrink_pages(&case, differs));
            }
        }
    });
    tally.print("pages");
    tally
}

/// The images of the group `images`.
fn for_images(seed: u64, count: usize, mut each: impl FnMut(&[u8])) {
    let mut rng = Rng::new(seed);
    let mut left = count;
    while left > 0 {
        let records = plan(&mut rng);
        let image = image_of(&records);
        let ground = Ground::new(&records, &image);
        for _ in 0..CASES_PER_PLAN.min(left) {
            each(&image_case(&mut rng, &ground).image);
            left -= 1;
        }
    }
}

fn print_pieces(image: Vec<u8>, cuts: Vec<usize>) {
    let (image, cuts) = shrink_pieces(image, cuts, |image, cuts| pieces_difference(image, cuts).is_some());
    println!("difference in pieces, cut at {cuts:?}");
    println!("  image     {}", hex_records(&image));
    println!("  {}", pieces_difference(&image, &cuts).unwrap_or_default());
}

/// The image, the buffer, and the first line of it that is not the same on both sides.
fn print_pages(case: &Case) {
    let held = case.buffer.first().copied().unwrap_or(0);
    println!("difference in pages, into {} bytes that held {held:02X}", case.buffer.len());
    println!("  image     {}", hex_records(&case.image));
    let (engine, reference) = (outcome(&Foreign, case), outcome(&Reference, case));
    let mut lines = engine.buffer.chunks(LINE_BYTES).zip(reference.buffer.chunks(LINE_BYTES));
    let place = lines.position(|(ours, theirs)| ours != theirs);
    for (side, outcome) in [("engine", &engine), ("reference", &reference)] {
        println!("  {side:<9} {}", in_words(outcome.answer));
        if let Some(line) = place.and_then(|place| outcome.buffer.chunks(LINE_BYTES).nth(place)) {
            println!("            line {} {:?}", place.unwrap_or(0), String::from_utf8_lossy(line));
        }
        if !outcome.untouched {
            println!("            wrote where it must not");
        }
    }
}

fn print_case(name: &str, case: &Case) {
    println!("difference in {name}: {:?}{}", case.call, litres_bits(case.call));
    println!("  image     {}", hex_records(&case.image));
    println!("  state     {}", hex(&case.state));
    println!("  message   {}", hex(&case.message));
    println!("  buffer    {}", hex(&case.buffer));
    let (engine, reference) = (outcome(&Foreign, case), outcome(&Reference, case));
    for (side, outcome) in [("engine", engine), ("reference", reference)] {
        println!("  {side:<9} {}", in_words(outcome.answer));
        println!("            state  {}", hex(&outcome.state));
        println!("            buffer {}", hex(&outcome.buffer));
        if !outcome.untouched {
            println!("            wrote where it must not");
        }
    }
}

/// The bits of a tick's reading, which its decimal form may hide.
fn litres_bits(call: Call) -> String {
    match call {
        Call::DeviceTick { litres, .. } | Call::ModuleTick { litres, .. } => {
            format!(", litres bits {:016X}", litres.to_bits())
        }
        _ => String::new(),
    }
}

/// Bytes as digits; of many, without the zeros that they end in.
fn hex(bytes: &[u8]) -> String {
    let used = bytes.iter().rposition(|&byte| byte != 0).map_or(0, |last| last + 1);
    let shown = if bytes.len() > 140 { &bytes[..used] } else { bytes };
    let digits: String = shown.iter().map(|byte| format!("{byte:02X}")).collect();
    let rest = if shown.len() < bytes.len() { ", the rest 0" } else { "" };
    format!("{digits} ({} bytes{rest})", bytes.len())
}

/// An image with a space between its records; a long one cut.
fn hex_records(image: &[u8]) -> String {
    let words: Vec<String> = records_of(image)
        .iter()
        .take(400)
        .map(|record| record.iter().take(64).map(|byte| format!("{byte:02X}")).collect())
        .collect();
    format!("{} ({} bytes)", words.join(" "), image.len())
}

fn in_words(answer: u64) -> String {
    let refused = number(answer);
    let words = if refused != 0 {
        format!("refused {refused} at {}", offset(answer))
    } else {
        format!("did {} value {} length {}", did(answer), value(answer), length(answer))
    };
    format!("{words} ({answer:016X})")
}

/// The first call of a schedule where the two sides differ or one breaks demand 3, and what it was.
fn schedule_difference(image: &[u8], ops: &[Op], tally: &mut Tally) -> Option<String> {
    if reference::check(image) != 0 {
        return None;
    }
    let mut engine = World::new(Foreign, image);
    let mut reference = World::new(Reference, image);
    if (&engine.modules, &engine.supervisors, &engine.device) != (&reference.modules, &reference.supervisors, &reference.device) {
        return Some("the starting states differ".to_string());
    }
    for (place, &op) in ops.iter().enumerate() {
        let (ours, theirs) = (engine.apply(op), reference.apply(op));
        if let Some(answer) = theirs.answer {
            tally.count(answer);
        }
        let same = engine.modules == reference.modules
            && engine.supervisors == reference.supervisors
            && engine.device == reference.device
            && engine.wire == reference.wire;
        if ours != theirs || !same || theirs.fault.is_some() {
            let (ours, theirs) = (applied_in_words(&ours), applied_in_words(&theirs));
            let states = if same { "" } else { "; states or messages differ" };
            return Some(format!("call {place} {op:?}: engine {ours}, reference {theirs}{states}"));
        }
    }
    match (engine.finish(), reference.finish()) {
        (None, None) => None,
        (ours, theirs) => Some(format!("at the end: engine {ours:?}, reference {theirs:?}")),
    }
}

fn applied_in_words(applied: &Applied) -> String {
    let answer = applied.answer.map_or("nothing under way".to_string(), in_words);
    let device = applied
        .device
        .map_or(String::new(), |answer| format!(", one device {}", in_words(answer)));
    let fault = applied.fault.as_ref().map_or(String::new(), |fault| format!(", {fault}"));
    format!("{answer}{device}{fault}")
}

/// Runs whole schedules until so many calls were made.
fn schedules(seed: u64, count: usize) -> Tally {
    let mut rng = Rng::new(seed);
    let mut tally = Tally::default();
    while tally.cases < count {
        let image = image_of(&lively_plan(&mut rng));
        let ops = schedule(&mut rng, &image, CALLS_PER_SCHEDULE);
        if schedule_difference(&image, &ops, &mut tally).is_some() {
            tally.differences += 1;
            if tally.differences == 1 {
                print_schedule(image, ops);
            }
        }
    }
    tally.print("schedules");
    tally
}

fn print_schedule(image: Vec<u8>, ops: Vec<Op>) {
    let unseen = &mut Tally::default();
    let (image, ops) = shrink_schedule(image, ops, |image, ops| schedule_difference(image, ops, unseen).is_some());
    println!("difference in schedules, after {} calls", ops.len());
    println!("  image     {}", hex_records(&image));
    for (place, op) in ops.iter().enumerate() {
        let bits = match *op {
            Op::Tick(_, _, litres) => format!(", litres bits {:016X}", litres.to_bits()),
            _ => String::new(),
        };
        println!("  call {place:<4} {op:?}{bits}");
    }
    let what = schedule_difference(&image, &ops, &mut Tally::default());
    println!("  {}", what.unwrap_or_default());
}

fn main() -> ExitCode {
    let numbers: Vec<u64> = std::env::args().skip(1).filter_map(|word| word.parse().ok()).collect();
    let [seed, count] = numbers[..] else {
        eprintln!("differential SEED COUNT");
        return ExitCode::from(2);
    };
    let count = count as usize;
    let seed = |group: u64| Rng::new(seed ^ group << 56).word();
    let tallies = [
        calls("images", seed(1), count, |rng, ground| image_case(rng, ground)),
        calls("records", seed(2), count, |rng, ground| record_case(rng, ground)),
        calls("messages", seed(3), count, |rng, ground| message_case(rng, ground)),
        calls("device", seed(4), count, device_case),
        calls("module", seed(5), count, module_case),
        calls("supervisor", seed(6), count, supervisor_case),
        calls("states", seed(8), count, states()),
        schedules(seed(7), count),
        calls("stuck", seed(9), count, |rng, ground| stuck_case(rng, ground)),
        calls("counts", seed(10), count, |rng, ground| counts_case(rng, ground)),
        cut_images(seed(1), seed(11), count),
        calls("forged", seed(12), FORGED * count, forged_states()),
        printed_images(seed(1), seed(13), count),
    ];
    let cases: usize = tallies.iter().map(|tally| tally.cases).sum();
    let differences: usize = tallies.iter().map(|tally| tally.differences).sum();
    println!("differential: {cases} cases, {differences} differences");
    ExitCode::from(u8::from(differences != 0))
}
