//! The generator gives what it promises: valid plans of all sizes, every number of the table, and schedules that keep demand 3.

use reference::answer::{did, length, number, EVENT, FREE, NONE, STUCK, WAITS};
use reference::calls::{Call, Engine, Reference};
use reference::cases::{
    break_device, break_module, break_supervisor, counter, counts_case, crowded, device_case, fit_device, fit_module, fit_supervisor,
    full_with_two_states, image_case, image_of, lively_plan, message_case, module_case, pages_case, plan, record_case, records_of, rounds,
    schedule, sized, stuck_case, supervisor_case, switches, Case, Ground, Op, Rng, World, COUNT_BYTES, DEVICE_CLAUSES, MODULE_CLAUSES,
    STUCK_BYTES, SUPERVISOR_CLAUSES,
};
use reference::plan::{contains, Plan, RESPOND};
use reference::state::{OWN_BYTES, QUEUE_LIMIT};
use std::collections::BTreeSet;

/// Draws cases on many plans and gives how often each number arose, 0 for accepted.
fn counts(seed: u64, plans: usize, mut draw: impl FnMut(&mut Rng, &mut Ground) -> Case) -> [usize; 18] {
    let mut rng = Rng::new(seed);
    let mut counts = [0; 18];
    for _ in 0..plans {
        let records = plan(&mut rng);
        let image = image_of(&records);
        let mut ground = Ground::new(&records, &image);
        for _ in 0..40 {
            let mut case = draw(&mut rng, &mut ground);
            let before = case.clone();
            let answer = Reference.call(case.call, &case.image, &mut case.state, &case.message, &mut case.buffer);
            counts[usize::from(number(answer))] += 1;
            if number(answer) != 0 {
                assert_eq!((case.state, case.buffer), (before.state, before.buffer));
            }
        }
    }
    counts
}

#[test]
fn plans_are_valid_and_of_all_sizes() {
    let mut rng = Rng::new(1);
    let mut largest = 0;
    for _ in 0..200 {
        let records = plan(&mut rng);
        let image = image_of(&records);
        assert_eq!(reference::check(&image), 0);
        assert_eq!(records_of(&image), records);
        largest = largest.max(image.len());
    }
    assert!(largest > 49_000);
    for bytes in [1_024, 8_192, 49_152] {
        let image = image_of(&sized(&mut rng, bytes));
        assert_eq!((reference::check(&image), image.len()), (0, bytes));
    }
}

#[test]
fn every_number_of_an_image_arises_at_many_offsets() {
    let mut offsets = vec![BTreeSet::new(); 9];
    let counts = counts(2, 400, |rng, ground| {
        let case = image_case(rng, ground);
        let answer = reference::check(&case.image);
        offsets[usize::from(number(answer))].insert(answer >> 32);
        case
    });
    for number in 1..=8 {
        assert!(counts[number] >= 20, "number {number}: {counts:?}");
        assert!(number == 1 || offsets[number].len() >= 10, "number {number}");
    }
    assert!(counts[0] >= 1000);
}

/// Every number arises at every kind of record that can get it.
#[test]
fn every_kind_is_turned_down_for_every_reason() {
    let mut seen = BTreeSet::new();
    counts(9, 600, |rng, ground| {
        let case = image_case(rng, ground);
        let answer = reference::check(&case.image);
        if let Some(&kind) = case.image.get((answer >> 32) as usize) {
            seen.insert((number(answer), kind));
        }
        case
    });
    let expected: [(u8, &[u8]); 6] = [
        (3, &[0x10, 0x11, 0x12, 0x13, 0x14, 0x15, 0x16, 0x17, 0x18]),
        (4, &[0x10, 0x11, 0x12, 0x13, 0x14, 0x15, 0x16, 0x17, 0x18, 0x1F]),
        (5, &[0x10, 0x11, 0x12, 0x14, 0x16, 0x17]),
        (6, &[0x11, 0x12, 0x13, 0x14, 0x15, 0x16, 0x17, 0x18]),
        (7, &[0x13, 0x15, 0x16, 0x17]),
        (8, &[0x1F]),
    ];
    for (number, kinds) in expected {
        for &kind in kinds {
            assert!(seen.contains(&(number, kind)), "number {number} at kind {kind:02X}");
        }
    }
}

/// Asserts that some cases are accepted and each of the numbers arises.
fn arise(counts: [usize; 18], numbers: &[usize]) {
    assert!(counts[0] >= 1000, "{counts:?}");
    for &number in numbers {
        assert!(counts[number] >= 5, "number {number}: {counts:?}");
    }
}

#[test]
fn every_number_of_a_call_arises() {
    arise(counts(3, 120, device_case), &[9, 11, 13, 14, 15]);
    arise(counts(4, 120, module_case), &[9, 10, 11, 12, 13, 14, 15]);
    arise(counts(5, 120, supervisor_case), &[9, 10, 11, 12, 15]);
    arise(counts(6, 120, |rng, ground| record_case(rng, ground)), &[2, 3, 5, 15]);
    arise(counts(7, 120, |rng, ground| message_case(rng, ground)), &[10, 15]);
    arise(
        counts(13, 120, |rng, ground| stuck_case(rng, ground)),
        &[1, 2, 3, 4, 5, 6, 8, 15, 16],
    );
    arise(
        counts(15, 120, |rng, ground| counts_case(rng, ground)),
        &[1, 2, 3, 4, 5, 6, 8, 15, 16, 17],
    );
    arise(
        counts(16, 400, |rng, ground| {
            let image = image_case(rng, ground).image;
            pages_case(rng, &image)
        }),
        &[1, 2, 3, 4, 5, 6, 7, 8, 15],
    );
}

/// Each clause of fitting, broken, gives 9 on many plans.
#[test]
fn every_clause_of_fitting_is_broken() {
    let mut rng = Rng::new(12);
    let mut refused = [[0; MODULE_CLAUSES]; 3];
    for _ in 0..300 {
        let image = image_of(&plan(&mut rng));
        let facts = reference::plan::check(&image).expect("a valid plan");
        let module = rng.below(usize::from(facts.modules)) as u8;
        for (clause, count) in refused[0].iter_mut().enumerate() {
            let mut state = fit_module(&mut rng, &facts, module);
            assert_eq!(reference::module_tick(&image, &mut state.clone(), module, 0, 0.0), 0);
            break_module(&mut rng, &facts, module, &mut state, clause);
            *count += usize::from(reference::module_tick(&image, &mut state, module, 0, 0.0) == 9);
        }
        for (clause, count) in refused[1].iter_mut().enumerate().take(DEVICE_CLAUSES) {
            let mut state = fit_device(&mut rng, &facts);
            assert_eq!(reference::device_tick(&image, &mut state.clone(), module, 0, 0.0), 0);
            break_device(&mut rng, &facts, &mut state, clause);
            *count += usize::from(reference::device_tick(&image, &mut state, module, 0, 0.0) == 9);
        }
        let clauses = if facts.supervisors > 0 { SUPERVISOR_CLAUSES } else { 0 };
        for (clause, count) in refused[2].iter_mut().enumerate().take(clauses) {
            let mut state = fit_supervisor(&mut rng, &facts, 0);
            assert_eq!(number(reference::supervisor_step(&image, &mut state.clone(), 0, &mut [0; 11])), 0);
            break_supervisor(&mut rng, &facts, 0, &mut state, clause);
            *count += usize::from(reference::supervisor_step(&image, &mut state, 0, &mut []) == 9);
        }
    }
    for (counts, clauses) in refused.iter().zip([MODULE_CLAUSES, DEVICE_CLAUSES, SUPERVISOR_CLAUSES]) {
        assert!(counts[..clauses].iter().all(|&count| count >= 50), "{refused:?}");
    }
}

#[test]
fn schedules_keep_demand_three() {
    let mut rng = Rng::new(8);
    let mut fired = 0;
    for _ in 0..60 {
        let image = image_of(&lively_plan(&mut rng));
        let mut world = World::new(Reference, &image);
        for op in schedule(&mut rng, &image, 500) {
            let applied = world.apply(op);
            assert_eq!(applied.fault, None, "{op:?}");
        }
        assert_eq!(world.finish(), None);
        fired += world.record.len();
    }
    assert!(fired > 1000, "{fired} events");
}

/// How often contacts that closed early came to something.
#[derive(Debug, Default)]
struct Early {
    /// A turn's event was not the head of the queue.
    passed: usize,
    /// A command fired while responses waited.
    command: usize,
    /// A turn or a step did nothing while responses waited.
    none: usize,
    /// A procedure stayed at its respond step, and no response in the full queue has a move.
    halted: usize,
}

impl Early {
    /// Counts an accepted call by what the own part before it was.
    fn count(&mut self, plan: &Plan, call: Call, own: &[u8], answer: u64) {
        let (Call::DeviceTurn { module } | Call::ModuleStep { module } | Call::DeviceTick { module, .. } | Call::ModuleTick { module, .. }) =
            call
        else {
            return;
        };
        if number(answer) != 0 || own[1] == 0 {
            return;
        }
        let moves = plan.events_from(module, own[0]);
        let usable = own[2..2 + usize::from(own[1])].iter().position(|&event| contains(moves, event));
        if let Call::DeviceTick { .. } | Call::ModuleTick { .. } = call {
            let responds = own[10] == 1 && plan.step(own[11], own[12]).is_some_and(|step| step.operation == RESPOND);
            self.halted += usize::from(responds && usize::from(own[1]) == QUEUE_LIMIT && usable.is_none());
            return;
        }
        match (did(answer), usable) {
            (EVENT, Some(index)) => self.passed += usize::from(index > 0),
            (EVENT, None) => self.command += 1,
            (NONE | WAITS, None) => self.none += 1,
            _ => {}
        }
    }

    /// Asserts that each of them happened so many times.
    fn arise(&self, times: usize) {
        let all = [self.passed, self.command, self.none, self.halted];
        assert!(all.iter().all(|&count| count >= times), "{self:?}");
    }
}

#[test]
fn early_contacts_arise_in_single_calls() {
    let (mut device, mut module) = (Early::default(), Early::default());
    counts(17, 240, |rng, ground| {
        let case = device_case(rng, ground);
        if let Call::DeviceTurn { module } | Call::DeviceTick { module, .. } = case.call {
            let mut state = case.state.clone();
            let answer = Reference.call(case.call, &case.image, &mut state, &[], &mut []);
            let at = usize::from(module) * OWN_BYTES;
            if number(answer) == 0 {
                let plan = reference::plan::check(&case.image).expect("a valid plan");
                device.count(&plan, case.call, &case.state[at..], answer);
            }
        }
        case
    });
    counts(18, 240, |rng, ground| {
        let case = module_case(rng, ground);
        let (mut state, mut buffer) = (case.state.clone(), case.buffer.clone());
        let answer = Reference.call(case.call, &case.image, &mut state, &case.message, &mut buffer);
        if number(answer) == 0 {
            let plan = reference::plan::check(&case.image).expect("a valid plan");
            module.count(&plan, case.call, &case.state, answer);
        }
        case
    });
    device.arise(20);
    module.arise(20);
}

#[test]
fn early_contacts_arise_in_schedules() {
    let mut rng = Rng::new(19);
    let mut early = Early::default();
    for _ in 0..60 {
        let image = image_of(&lively_plan(&mut rng));
        let plan = reference::plan::check(&image).expect("a valid plan");
        let mut world = World::new(Reference, &image);
        for op in schedule(&mut rng, &image, 500) {
            let before = world.modules.clone();
            let answer = world.apply(op).answer;
            let (module, call) = match op {
                Op::ModuleStep(module) => (module, Call::ModuleStep { module }),
                Op::Tick(module, sensor, litres) => (module, Call::ModuleTick { module, sensor, litres }),
                _ => continue,
            };
            if let (Some(own), Some(answer)) = (before.get(usize::from(module)), answer) {
                early.count(&plan, call, own, answer);
            }
        }
    }
    early.arise(20);
}

/// Of small plans many get stuck and many do not, and words of several lengths lead there.
#[test]
fn small_plans_get_stuck_and_do_not() {
    let (mut free, mut lengths) = (0, BTreeSet::new());
    counts(14, 60, |rng, ground| {
        let case = stuck_case(rng, ground);
        let answer = reference::find_stuck(&case.image, &mut [0; STUCK_BYTES]);
        free += usize::from(number(answer) == 0 && did(answer) == FREE);
        if did(answer) == STUCK {
            let parties = case.image[1] + case.image[2];
            lengths.insert(length(answer) - u32::from(parties));
        }
        case
    });
    assert!(free >= 500, "{free}");
    assert!((0..8).all(|length| lengths.contains(&length)), "{lengths:?}");
}

/// Plans whose joint states can be counted are answered up to 4,096 of them.
#[test]
fn joint_states_are_counted() {
    let answer = |records: Vec<Vec<u8>>| {
        let answer = reference::find_stuck(&image_of(&records), &mut [0; STUCK_BYTES]);
        (number(answer), did(answer), length(answer))
    };
    assert_eq!(answer(switches(12)), (0, FREE, 0));
    assert_eq!(answer(switches(13)), (16, 0, 0));
    assert_eq!(answer(crowded(12, 32, 5)), (0, FREE, 0));
    assert_eq!(answer(crowded(13, 32, 4)), (16, 0, 0));
    assert_eq!(answer(counter(12, 1)), (0, STUCK, 4_095 + 1 + 12));
    assert_eq!(answer(counter(12, 0)), (16, 0, 0));
    assert_eq!(answer(full_with_two_states()), (0, FREE, 0));
    assert_eq!(image_of(&full_with_two_states()).len(), 49_152);
}

/// The last line of a text, the sum, and how many lines it has; or the number.
fn sum(records: Vec<Vec<u8>>, length: u64) -> Result<(u64, usize), u8> {
    let mut buffer = [0; COUNT_BYTES];
    let answer = reference::count_words(&image_of(&records), length, &mut buffer);
    if number(answer) != 0 {
        return Err(number(answer));
    }
    let text = String::from_utf8(buffer[..reference::answer::length(answer) as usize].to_vec()).expect("digits");
    assert!(text.ends_with('\n'));
    let numbers: Vec<u64> = text.lines().map(|line| line.parse().expect("a number")).collect();
    let (sum, counts) = numbers.split_last().expect("a sum");
    assert_eq!(counts.iter().sum::<u64>(), *sum);
    Ok((*sum, numbers.len()))
}

/// Plans whose words can be counted have so many.
#[test]
fn words_are_counted() {
    for length in 0..=40 {
        assert_eq!(sum(rounds(&[32, 32, 4]), length), Ok((3u64.pow(length as u32), 4_097)));
        assert_eq!(sum(counter(12, 1), length), Ok((1, 4_097)));
    }
    assert_eq!(sum(switches(12), 17), Ok((12u64.pow(17), 4_097)));
    assert_eq!(sum(switches(12), 18), Err(17));
    assert_eq!(sum(switches(13), 41), Err(16));
    assert_eq!(sum(rounds(&[3]), 40), Ok((1, 4)));
    assert_eq!(sum(rounds(&[3]), 41), Err(17));
    // of 60 events 48 have a move in a joint state, and the supervisors disable at most twelve of them
    let crowd = sum(crowded(12, 32, 5), 11).expect("a sum").0;
    assert!((36u64.pow(11)..=48u64.pow(11)).contains(&crowd));
    assert_eq!(sum(crowded(12, 32, 5), 12), Err(17));
}
