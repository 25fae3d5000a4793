//! Plans for the questions about joint states: small ones at random, and some whose joint states or words can be counted.

use super::damage::damaged;
use super::inputs::{case, Case, Ground};
use super::plans::{image_of, random, Records, Shape, MIDDLING};
use super::Rng;
use crate::answer;
use crate::calls::Call;
use crate::plan::{self, IMAGE_LIMIT};

/// The longest answer: 4,095 events, 16 modules and 32 supervisors.
pub const STUCK_BYTES: usize = 4_143;
/// Enough for every text of counts: 4,096 of them and their sum, each of 20 digits and a line feed.
pub const COUNT_BYTES: usize = 4_097 * 21;

const CONTROLLABLE: u8 = 1;
const UNCONTROLLABLE: u8 = 0;

/// Whether a small plan gets stuck, with a buffer about as long as the answer.
pub fn stuck_case(rng: &mut Rng, ground: &Ground) -> Case {
    let image = joint_image(rng, ground);
    let length = answer::length(crate::find_stuck(&image, &mut [0; STUCK_BYTES])) as usize;
    let room = room(rng, length, &[1, 48, STUCK_BYTES - 1, STUCK_BYTES]);
    Case {
        image,
        buffer: rng.bytes(room),
        ..case(Call::FindStuck)
    }
}

/// How many words of a small plan have some length, with a buffer about as long as the text.
pub fn counts_case(rng: &mut Rng, ground: &Ground) -> Case {
    let image = joint_image(rng, ground);
    let length = match rng.below(20) {
        0..=9 => rng.below(12),
        10..=16 => rng.below(41),
        17 => rng.pick(&[0, 39, 40, 41, 42, 64, 100]),
        18 => rng.pick(&[1 << 32, 1 << 63, (1 << 32) + 3, u64::MAX as usize]),
        _ => rng.word() as usize,
    } as u64;
    let written = answer::length(crate::count_words(&image, length, &mut [0; COUNT_BYTES])) as usize;
    let room = room(rng, written, &[1, 2, 48, COUNT_BYTES]);
    Case {
        image,
        buffer: rng.bytes(room),
        ..case(Call::CountWords { length })
    }
}

/// A small plan most of the time, now and then damaged.
fn joint_image(rng: &mut Rng, ground: &Ground) -> Vec<u8> {
    let records = match rng.below(100) {
        0..=1 => ground.records.clone(),
        2..=4 => {
            let bits = rng.between(1, 7);
            counter(bits, rng.below(1 << bits))
        }
        5 => {
            let start = rng.below(3);
            rng.pick(&[switches(5), switches(12), switches(13), crowded(2, 10, 5), counter(12, start)])
        }
        6 => {
            let sizes: Vec<u8> = (0..rng.between(1, 3)).map(|_| rng.between(1, 6) as u8).collect();
            rounds(&sizes)
        }
        _ => {
            let shape = small(rng);
            random(rng, shape)
        }
    };
    if rng.chance(8) {
        damaged(rng, &records)
    } else {
        image_of(&records)
    }
}

/// A buffer's length about that of an answer, or one of some others.
fn room(rng: &mut Rng, length: usize, others: &[usize]) -> usize {
    match rng.below(8) {
        0..=2 => length,
        3 => length.saturating_sub(1),
        4 => 0,
        5 => rng.below(length + 1),
        6 => length + rng.between(1, 20),
        _ => rng.pick(others),
    }
}

/// Few modules, supervisors and states, some of them marked.
fn small(rng: &mut Rng) -> Shape {
    Shape {
        modules: rng.between(1, 4),
        supervisors: rng.between(0, 4),
        events: rng.between(1, 10),
        module_states: rng.between(1, 4),
        supervisor_states: rng.between(1, 4),
        controllable: rng.between(20, 90),
        alphabet: rng.between(10, 90),
        module_moves: rng.between(20, 90),
        supervisor_moves: rng.between(20, 90),
        disablings: rng.between(10, 60),
        steps: rng.pick(&[0, 0, 2]),
        marks: rng.pick(&[0, 50, 70, 100]),
        ..MIDDLING
    }
}

/// A plan from its parts: events as module and class, modules as states and marks, supervisors as initial state and alphabet, all of so
/// many states; moves and disablings as their fields, in any order.
struct Parts {
    events: Vec<(usize, u8)>,
    modules: Vec<(u8, Vec<u8>)>,
    module_moves: Vec<[usize; 4]>,
    supervisor_states: u8,
    supervisors: Vec<(u8, u64)>,
    supervisor_moves: Vec<[usize; 4]>,
    disablings: Vec<(usize, u8, u64)>,
    steps: Vec<(usize, usize)>,
}

impl Parts {
    /// # Panics
    /// If the check does not accept the plan.
    fn records(&self) -> Records {
        let head = [self.modules.len(), self.supervisors.len(), self.events.len()].map(|count| count as u8);
        let mut records = vec![[&[plan::HEAD], &head[..]].concat(), vec![plan::END]];
        for (event, &(module, class)) in self.events.iter().enumerate() {
            records.push(vec![plan::EVENT, event as u8, module as u8, class]);
        }
        for (module, (states, marks)) in self.modules.iter().enumerate() {
            records.push(vec![plan::MODULE, module as u8, *states, 0]);
            records.extend(marks.iter().map(|&state| vec![plan::MARKING, module as u8, state]));
        }
        for (kind, moves) in [
            (plan::MODULE_MOVE, &self.module_moves),
            (plan::SUPERVISOR_MOVE, &self.supervisor_moves),
        ] {
            records.extend(moves.iter().map(|fields| [&[kind], &fields.map(|field| field as u8)[..]].concat()));
        }
        for (supervisor, (initial, alphabet)) in self.supervisors.iter().enumerate() {
            let fields = [plan::SUPERVISOR, supervisor as u8, self.supervisor_states, *initial];
            records.push([&fields[..], &alphabet.to_be_bytes()].concat());
        }
        for (supervisor, state, mask) in &self.disablings {
            records.push([&[plan::DISABLING, *supervisor as u8, *state], &mask.to_be_bytes()[..]].concat());
        }
        for &(event, index) in &self.steps {
            records.push([&[plan::STEP, event as u8, index as u8, plan::OUTPUT_ON], &[0; 8][..]].concat());
        }
        // Keys stand first in a record, so that the order of bytes is that of records.
        records.sort();
        assert_eq!(crate::check(&image_of(&records)), 0, "a plan valid by construction");
        records
    }
}

/// So many modules, each of which goes on by one event and off by another: 2 to that power joint states.
pub fn switches(modules: usize) -> Records {
    crowded(modules, 0, 2)
}

/// Modules of so many states that go round, each by its own event: the joint states are as many as the product of the sizes, and the words
/// of a length as many as the modules to its power.
pub fn rounds(sizes: &[u8]) -> Records {
    let moves = |(module, &states): (usize, &u8)| {
        let states = usize::from(states);
        (0..states).map(move |from| [module, from, module, (from + 1) % states])
    };
    Parts {
        events: (0..sizes.len()).map(|module| (module, CONTROLLABLE)).collect(),
        modules: sizes.iter().map(|&states| (states, Vec::new())).collect(),
        module_moves: sizes.iter().enumerate().flat_map(moves).collect(),
        supervisor_states: 1,
        supervisors: Vec::new(),
        supervisor_moves: Vec::new(),
        disablings: Vec::new(),
        steps: Vec::new(),
    }
    .records()
}

/// So many modules of two states, with `each` events apiece, and supervisors that know every event and follow one module each: the joint
/// states are as many as without them. What the supervisors disable changes no state; for it each module has three events or more.
pub fn crowded(modules: usize, supervisors: usize, each: usize) -> Records {
    let events = modules * each;
    // the first two of a module change its state, the others keep it
    let moves_of = |module: usize, number: usize| match number {
        0 => vec![[module, 0, module * each, 1]],
        1 => vec![[module, 1, module * each + 1, 0]],
        _ => vec![[module, 0, module * each + number, 0], [module, 1, module * each + number, 1]],
    };
    let class = |number: usize| if number < 2 { UNCONTROLLABLE } else { CONTROLLABLE };
    let follow = |supervisor: usize| {
        let event = supervisor % modules * each;
        [[supervisor, 0, event, 1], [supervisor, 1, event + 1, 0]]
    };
    let keeps = |supervisor: usize| 1 << ((supervisor + 1) % modules * each + each - 1);
    Parts {
        events: (0..events).map(|event| (event / each, class(event % each))).collect(),
        modules: vec![(2, vec![0]); modules],
        module_moves: (0..events).flat_map(|event| moves_of(event / each, event % each)).collect(),
        supervisor_states: 2,
        supervisors: vec![(0, u64::MAX >> (64 - events)); supervisors],
        supervisor_moves: (0..supervisors).flat_map(follow).collect(),
        disablings: (0..supervisors).map(|supervisor| (supervisor, 1, keeps(supervisor))).collect(),
        steps: Vec::new(),
    }
    .records()
}

/// A binary counter of supervisors: event i turns bit i to 1 and the bits below it to 0. When all bits are 1, a last event leads the
/// module to its second state, where it has no move and is not marked. There is one word, and as many joint states as it has events,
/// and one more: 2 to the power of the bits, less the start, and one more.
pub fn counter(bits: usize, start: usize) -> Records {
    let bit = |event: usize| 1u64 << event;
    let above = |number: usize| (number + 1..bits).fold(0, |mask, event| mask | bit(event));
    let moves =
        |number: usize| (number..bits).map(move |event| [number, usize::from(event != number), event, usize::from(event == number)]);
    Parts {
        events: vec![(0, CONTROLLABLE); bits + 1],
        modules: vec![(2, vec![0])],
        module_moves: (0..=bits).map(|event| [0, 0, event, usize::from(event == bits)]).collect(),
        supervisor_states: 2,
        supervisors: (0..bits)
            .map(|number| ((start >> number & 1) as u8, bit(number) | above(number) | bit(bits)))
            .collect(),
        supervisor_moves: (0..bits).flat_map(moves).collect(),
        disablings: (0..bits)
            .flat_map(|number| [(number, 0, above(number) | bit(bits)), (number, 1, bit(number))])
            .collect(),
        steps: Vec::new(),
    }
    .records()
}

/// 49,152 bytes, most of them moves and steps of no account: event 0 leads to a dead end, and no other has a move on the way.
pub fn full_with_two_states() -> Records {
    let mut parts = Parts {
        events: vec![(0, CONTROLLABLE); 64],
        modules: vec![(32, Vec::new())],
        module_moves: (2..32).flat_map(|from| (1..64).map(move |event| [0, from, event, 0])).collect(),
        supervisor_states: 64,
        supervisors: vec![(0, u64::MAX)],
        supervisor_moves: (0..64)
            .flat_map(|from| (0..64).map(move |event| [0, from, event, 63 - from]))
            .collect(),
        disablings: Vec::new(),
        steps: Vec::new(),
    };
    parts.module_moves.push([0, 0, 0, 1]);
    let left = |parts: &Parts| IMAGE_LIMIT - image_of(&parts.records()).len();
    // Steps have twelve bytes: some moves of five fewer make what is left a multiple of that.
    while !left(&parts).is_multiple_of(12) {
        parts.supervisor_moves.pop();
    }
    parts.steps = (0..left(&parts) / 12).map(|step| (step / 64, step % 64)).collect();
    parts.records()
}
