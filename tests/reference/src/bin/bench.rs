//! The same calls through the proved engine and the reference, in one process, turn and turn about: `bench`.
//!
//! A row is one call on one plan: nanoseconds per call of either side, and how many times as long the reference takes. Both sides get a
//! fresh copy of the state for each call. A row of the check in pieces is all its calls on one plan: the start, each piece and the answer.
//! The figures are medians of several rounds.

#[path = "../foreign.rs"]
mod foreign;

use foreign::Foreign;
use reference::answer::{did, number, BIDS, EVENT};
use reference::calls::{Call, Engine, Reference};
use reference::cases::{
    counter, crowded, fit_module, full_with_two_states, hex, image_of, most_records, rounds, sized, switches, Case, Rng, COUNT_BYTES,
    PLAN_P, PRINT_BYTES, STUCK_BYTES,
};
use reference::message::Message;
use reference::pieces::CHECK_BYTES;
use reference::plan::{self, Plan};
use reference::state::{DEVICE_BYTES, MODULE_BYTES, QUEUE_LIMIT, SUPERVISOR_BYTES};
use std::hint::black_box;
use std::process::ExitCode;
use std::time::Instant;

/// Odd, so that the median is one of them; fewer for calls of more than a millisecond.
const ROUNDS: usize = 101;
const SLOW_ROUNDS: usize = 11;
/// How long one side runs in a round: short, so that other work on the machine spoils few of them.
const ROUND_NANOSECONDS: f64 = 3e5;
const BUFFER_BYTES: usize = 128;

fn start(call: Call, image: &[u8], bytes: usize) -> Vec<u8> {
    let mut state = vec![0; bytes];
    Reference.call(call, image, &mut [], &[], &mut state);
    state
}

/// The calls measured on one plan.
struct Rows<'a> {
    image: &'a [u8],
    plan: Plan<'a>,
    rows: Vec<(&'static str, Case)>,
}

impl Rows<'_> {
    fn add(&mut self, name: &'static str, call: Call, state: &[u8], message: &[u8]) {
        let case = Case {
            call,
            image: self.image.to_vec(),
            state: state.to_vec(),
            message: message.to_vec(),
            buffer: vec![0; BUFFER_BYTES],
        };
        self.rows.push((name, case));
    }

    fn message(&self, message: Message) -> Vec<u8> {
        let mut bytes = vec![0; message.length()];
        message.write(&mut bytes).expect("a buffer of its length");
        bytes
    }

    /// The check, and a turn on one device, of a module that fires if there is one; and such a turn with a full queue of responses without a
    /// move, all of which are looked at before the command.
    fn one_device(&mut self) {
        self.add("check", Call::Check, &[], &[]);
        let state = start(Call::DeviceStart, self.image, DEVICE_BYTES);
        let fires = |&module: &u8| {
            let answer = Reference.call(Call::DeviceTurn { module }, self.image, &mut state.clone(), &[], &mut []);
            did(answer) == EVENT
        };
        let early = |module: u8| {
            let responses = self.plan.module_events[usize::from(module)] & !self.plan.controllable;
            let moves = self.plan.events_from(module, self.plan.module_initial[usize::from(module)]);
            Some((responses & !moves).trailing_zeros() as u8).filter(|&event| event < 64)
        };
        let module = (0..self.plan.modules).find(fires).unwrap_or(0);
        let waits = (0..self.plan.modules)
            .filter(fires)
            .find_map(|module| Some((module, early(module)?)));
        self.add("one-device turn", Call::DeviceTurn { module }, &state, &[]);
        if let Some((module, event)) = waits {
            let mut state = state;
            for _ in 0..QUEUE_LIMIT {
                Reference.call(Call::DeviceRespond { module, event }, self.image, &mut state, &[], &mut []);
            }
            self.add("one-device turn, 8 wait", Call::DeviceTurn { module }, &state, &[]);
        }
    }

    /// A module that bids at its start, and that state.
    fn bidder(&self) -> Option<(u8, Vec<u8>)> {
        (0..self.plan.modules).find_map(|module| {
            let state = start(Call::ModuleStart { module }, self.image, MODULE_BYTES);
            let call = Call::ModuleStep { module };
            let answer = Reference.call(call, self.image, &mut state.clone(), &[], &mut [0; BUFFER_BYTES]);
            (did(answer) == BIDS).then_some((module, state))
        })
    }

    /// Steps of a module and deliveries to it: its bid, the first permit, and the turn with all permits held.
    fn module(&mut self, module: u8, mut state: Vec<u8>) {
        let step = Call::ModuleStep { module };
        let deliver = Call::ModuleDeliver { module };
        self.add("module step, bid", step, &state, &[]);
        let neighbours = self.plan.neighbours(module);
        for supervisor in (0..self.plan.supervisors).filter(|supervisor| neighbours >> supervisor & 1 == 1) {
            let permit = self.message(Message::Permit {
                supervisor,
                module,
                mask: 0,
            });
            Reference.call(step, self.image, &mut state, &[], &mut [0; BUFFER_BYTES]);
            if supervisor == neighbours.trailing_zeros() as u8 {
                self.add("deliver permit", deliver, &state, &permit);
            }
            Reference.call(deliver, self.image, &mut state, &permit, &mut []);
        }
        self.add("module step, turn", step, &state, &[]);
    }

    /// A tick with nothing queued, in a running procedure if the plan has one.
    fn tick(&mut self) {
        let mut rng = Rng::new(1);
        let running = (0..200).map(|_| {
            let module = rng.below(usize::from(self.plan.modules)) as u8;
            (module, fit_module(&mut rng, &self.plan, module))
        });
        let idle = (0, start(Call::ModuleStart { module: 0 }, self.image, MODULE_BYTES));
        let (module, state) = running
            .into_iter()
            .find(|(_, state)| state[1] == 0 && state[10] == 1)
            .unwrap_or(idle);
        let call = Call::ModuleTick {
            module,
            sensor: 1,
            litres: 0.125,
        };
        self.add("tick", call, &state, &[]);
    }

    /// A bid, the permit's sending and a release at a module's first supervisor.
    fn supervisor(&mut self, module: u8) {
        let supervisor = self.plan.neighbours(module).trailing_zeros() as u8;
        let step = Call::SupervisorStep { supervisor };
        let deliver = Call::SupervisorDeliver { supervisor };
        let mut state = start(Call::SupervisorStart { supervisor }, self.image, SUPERVISOR_BYTES);
        let bid = self.message(Message::Bid { module, supervisor });
        self.add("deliver bid", deliver, &state, &bid);
        Reference.call(deliver, self.image, &mut state, &bid, &mut []);
        self.add("supervisor step", step, &state, &[]);
        Reference.call(step, self.image, &mut state, &[], &mut [0; BUFFER_BYTES]);
        let events = self.plan.module_events[usize::from(module)] & self.plan.alphabet[usize::from(supervisor)];
        let release = self.message(Message::Release {
            module,
            supervisor,
            event: events.trailing_zeros() as u8,
        });
        self.add("deliver release", deliver, &state, &release);
    }
}

fn rows(image: &[u8]) -> Vec<(&'static str, Case)> {
    let plan = plan::check(image).expect("a valid plan");
    let mut rows = Rows {
        image,
        plan,
        rows: Vec::new(),
    };
    rows.one_device();
    if let Some((module, state)) = rows.bidder() {
        rows.module(module, state);
        rows.supervisor(module);
    }
    rows.tick();
    rows.rows
}

/// Whether a plan gets stuck: by its joint states, 4 of the two-valve plan and then as named; with many events and supervisors, with
/// the longest word, and 2 of an image of 49,152 bytes.
fn stuck_rows() -> Vec<(&'static str, Case)> {
    let plans = [
        ("stuck, 4 states", hex(PLAN_P)),
        ("stuck, 128", image_of(&switches(7))),
        ("stuck, 4096", image_of(&switches(12))),
        ("stuck, 4096 crowded", image_of(&crowded(12, 32, 5))),
        ("stuck, 4096 in a row", image_of(&counter(12, 1))),
        ("stuck, 2", image_of(&full_with_two_states())),
    ];
    let case = |image| Case {
        call: Call::FindStuck,
        image,
        state: Vec::new(),
        message: Vec::new(),
        buffer: vec![0; STUCK_BYTES],
    };
    plans.into_iter().map(|(name, image)| (name, case(image))).collect()
}

/// How many words a plan allows, of the greatest length up to 40 at which 64 bits hold their number: of the two-valve plan, of 4,096
/// joint states with three events, of as many with 60 events and 32 supervisors, of as many in a row, and of 2 of an image of 49,152
/// bytes.
fn count_rows() -> Vec<(&'static str, Case)> {
    let plans = [
        ("count, two-valve at 40", 40, hex(PLAN_P)),
        ("count, 4096 at 40", 40, image_of(&rounds(&[32, 32, 4]))),
        ("count, 4096 crowded at 11", 11, image_of(&crowded(12, 32, 5))),
        ("count, 4096 in a row at 40", 40, image_of(&counter(12, 1))),
        ("count, 2 at 40", 40, image_of(&full_with_two_states())),
    ];
    let case = |length, image| Case {
        call: Call::CountWords { length },
        image,
        state: Vec::new(),
        message: Vec::new(),
        buffer: vec![0; COUNT_BYTES],
    };
    plans.into_iter().map(|(name, length, image)| (name, case(length, image))).collect()
}

/// A plan printed: each of these, and the one with the most records.
fn print_rows(images: &[Vec<u8>]) -> Vec<(&'static str, Case)> {
    let most = image_of(&most_records());
    let plans = images.iter().map(|image| ("print", image)).chain([("print, 10049 records", &most)]);
    let case = |image: &[u8]| Case {
        call: Call::PrintPlan,
        image: image.to_vec(),
        state: Vec::new(),
        message: Vec::new(),
        buffer: vec![0; PRINT_BYTES],
    };
    plans.map(|(name, image)| (name, case(image))).collect()
}

/// What a row times: one call, or an image handed over in pieces of a size.
enum Work {
    Call(Case),
    Pieces { image: Vec<u8>, size: usize },
}

impl Work {
    fn image(&self) -> &[u8] {
        match self {
            Work::Call(case) => &case.image,
            Work::Pieces { image, .. } => image,
        }
    }
}

/// The check of a plan in pieces of several sizes, and of one that is refused at its first byte.
fn piece_rows(image: &[u8]) -> Vec<(&'static str, Work)> {
    let faulty = [&[0x20], &image[1..]].concat();
    let work = |image: &[u8], size| Work::Pieces {
        image: image.to_vec(),
        size,
    };
    vec![
        ("check in one piece", work(image, image.len())),
        ("check in 4096", work(image, 4096)),
        ("check in 512", work(image, 512)),
        ("check in 16", work(image, 16)),
        ("check byte by byte", work(image, 1)),
        ("check faulty first", work(&faulty, 512)),
    ]
}

/// The check of an image in pieces, from the start to the answer.
fn in_pieces(engine: &impl Engine, image: &[u8], size: usize, state: &mut [u8; CHECK_BYTES]) -> u64 {
    black_box(engine.call(black_box(Call::CheckStart), &[], &mut [], &[], black_box(state)));
    for piece in image.chunks(size) {
        black_box(engine.call(black_box(Call::CheckPiece), black_box(piece), black_box(state), &[], &mut []));
    }
    engine.call(black_box(Call::CheckAnswer), &[], black_box(state), &[], &mut [])
}

/// Nanoseconds for a row's work, over so many times.
fn time(engine: &impl Engine, work: &Work, times: usize) -> f64 {
    match work {
        Work::Call(case) => time_calls(engine, case, times),
        Work::Pieces { image, size } => {
            let mut state = [0; CHECK_BYTES];
            let begin = Instant::now();
            for _ in 0..times {
                black_box(in_pieces(engine, black_box(image), *size, &mut state));
            }
            begin.elapsed().as_nanos() as f64 / times as f64
        }
    }
}

/// Nanoseconds per call over so many calls.
fn time_calls(engine: &impl Engine, case: &Case, calls: usize) -> f64 {
    let mut state = case.state.clone();
    let mut buffer = case.buffer.clone();
    let begin = Instant::now();
    for _ in 0..calls {
        state.copy_from_slice(&case.state);
        let answer = engine.call(
            black_box(case.call),
            black_box(&case.image),
            black_box(&mut state),
            black_box(&case.message),
            black_box(&mut buffer),
        );
        black_box(answer);
    }
    begin.elapsed().as_nanos() as f64 / calls as f64
}

fn median(mut times: Vec<f64>) -> f64 {
    times.sort_by(f64::total_cmp);
    times[times.len() / 2]
}

/// Both sides' medians; the rounds alternate.
fn measure(work: &Work) -> (f64, f64) {
    let slower = |times| time(&Reference, work, times).max(time(&Foreign, work, times)).max(1.0);
    let slow = slower(1) > 1e6;
    let times = if slow { 1 } else { (ROUND_NANOSECONDS / slower(20)) as usize + 1 };
    let (mut engine, mut reference) = (Vec::new(), Vec::new());
    for _ in 0..if slow { SLOW_ROUNDS } else { ROUNDS } {
        engine.push(time(&Foreign, work, times));
        reference.push(time(&Reference, work, times));
    }
    (median(engine), median(reference))
}

/// The answer that a row's work comes to.
fn answer(engine: &impl Engine, work: &Work) -> u64 {
    match work {
        Work::Call(case) => {
            let (mut state, mut buffer) = (case.state.clone(), case.buffer.clone());
            engine.call(case.call, &case.image, &mut state, &case.message, &mut buffer)
        }
        Work::Pieces { image, size } => in_pieces(engine, image, *size, &mut [0; CHECK_BYTES]),
    }
}

/// Whether both sides give the same answer, to a call one that accepts it, to pieces that of the check: else there is nothing to compare.
fn agree(work: &Work) -> bool {
    let (ours, theirs) = (answer(&Foreign, work), answer(&Reference, work));
    let due = match work {
        Work::Call(_) => number(theirs) == 0,
        Work::Pieces { image, .. } => theirs == reference::check(image),
    };
    due && ours == theirs
}

fn main() -> ExitCode {
    let mut rng = Rng::new(1);
    let mut images = vec![hex(PLAN_P)];
    images.extend([1_024, 8_192, plan::IMAGE_LIMIT].map(|bytes| image_of(&sized(&mut rng, bytes))));
    println!(
        "{:<26} {:>11} {:>12} {:>13} {:>8}",
        "call", "image bytes", "engine ns", "reference ns", "ratio"
    );
    let sets: Vec<_> = images.iter().map(|image| rows(image)).collect();
    let by_name = sets[0]
        .iter()
        .flat_map(|(name, _)| sets.iter().flatten().filter(move |(other, _)| other == name));
    let others = [stuck_rows(), count_rows(), print_rows(&images)].concat();
    let calls = by_name.chain(&others).map(|(name, case)| (*name, Work::Call(case.clone())));
    let pieces = piece_rows(images.last().expect("a plan"));
    for (name, work) in calls.chain(pieces) {
        let bytes = work.image().len();
        if !agree(&work) {
            println!("{name:<26} {bytes:>11} the two sides do not agree");
            return ExitCode::FAILURE;
        }
        let (engine, reference) = measure(&work);
        println!(
            "{name:<26} {bytes:>11} {engine:>12.1} {reference:>13.1} {:>8.2}",
            reference / engine
        );
    }
    ExitCode::SUCCESS
}
