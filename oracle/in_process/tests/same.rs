//! The original driver and the proved one, in one process, on the same random calls and readings.
//! `IN_PROCESS_CALLS` and `IN_PROCESS_SEED` say how many and which; without them 20,000 from seed 1.

use celadonsaw::{Causes, Rate, master};
use in_process::{stepped, whole::Rattle};
use oracle::bus;
use oracle::call::{Call, Kind};
use oracle::drivers::Drivers;
use oracle::random::{Calls, Rng};
use oracle::unacknowledged::abort_words;

fn number(name: &str, otherwise: u64) -> u64 {
    std::env::var(name).map_or(otherwise, |text| text.parse().expect(name))
}

fn calls() -> impl Iterator<Item = Call> {
    let mut calls = Calls::new(number("IN_PROCESS_SEED", 1), false);
    (0..number("IN_PROCESS_CALLS", 20_000)).map(move |_| calls.next_call())
}

fn recorded() -> Vec<bus::Entry> {
    bus::with_record(|log, _| log.to_vec())
}

#[test]
fn whole_calls() {
    let mut rust = Drivers::new();
    let mut rattle = Rattle::new(rust.slave_state());
    for (index, call) in calls().enumerate() {
        let answer = rust.run(&call, None);
        let log = recorded();
        assert_eq!(answer, rattle.run(&call), "call {index}: {call:?}");
        assert!(log.iter().copied().eq(rattle.log()), "the logs differ: call {index}: {call:?}");
        if answer.number != 20 {
            assert_eq!(rust.buffer, rattle.buffer, "call {index}: {call:?}");
        }
        assert!(answer.number != 20 || rattle.buffer.iter().all(|byte| *byte == 0), "call {index}: {call:?}");
        assert_eq!(rust.slave_state(), rattle.slave_state(), "call {index}: {call:?}");
    }
}

#[test]
fn transfers_by_steps() {
    let mut rust = Drivers::new();
    let mut buffer = Vec::new();
    for (index, call) in calls().enumerate() {
        let answer = rust.run(&call, None);
        let log = recorded();
        let Some(stepped) = stepped::run(&call, &mut buffer) else { continue };
        assert_eq!(answer, stepped, "call {index}: {call:?}");
        assert_eq!(log, recorded(), "call {index}: {call:?}");
        assert!(answer.number == 20 || rust.buffer == buffer, "the buffers differ: call {index}: {call:?}");
    }
}

/// The one value that the log writes to a register.
fn written(log: &[bus::Entry], register: u8) -> u64 {
    let mut values = log.iter().filter_map(|entry| match *entry {
        bus::Entry::Write(offset, value) if offset == register => Some(value.into()),
        _ => None,
    });
    let value = values.next().expect("a write");
    assert_eq!(values.next(), None);
    value
}

/// The original has no rates: each is held to the counts that the original wrote, and each refusal to the original's. Where the
/// readings end early the original wrote no whole setting.
#[test]
fn rates_of_the_bus() {
    const FS_SCL_HCNT: u8 = 0x1C;
    const FS_SCL_LCNT: u8 = 0x20;
    let mut rust = Drivers::new();
    let (mut rates, mut refusals) = (0, 0);
    for (index, call) in calls().enumerate() {
        let Kind::Clock { frequency, clock } = call.kind else { continue };
        let answer = rust.run(&call, None);
        let rate = master::bus_rate(frequency, clock);
        match answer.number {
            0 => {
                let log = recorded();
                let periods = written(&log, FS_SCL_HCNT) + written(&log, FS_SCL_LCNT);
                let Rate { hz, remainder } =
                    rate.unwrap_or_else(|refusal| panic!("{refusal:?}: call {index}: {call:?}"));
                let (hz, remainder) = (u64::from(hz), u64::from(remainder));
                assert!(remainder < periods && hz * periods + remainder == clock.into(), "call {index}: {call:?}");
                rates += 1;
            }
            18 | 19 => {}
            number => {
                let refusal = rate.map_err(|refusal| refusal.number_and_detail());
                assert_eq!(refusal, Err((number, 0)), "call {index}: {call:?}");
                refusals += 1;
            }
        }
    }
    assert!(rates > 0 && refusals > 0, "{rates} rates and {refusals} refusals");
}

/// The causes of a word, by a loop over its bits from the highest cause down.
fn counted(word: u32) -> Option<Causes> {
    let mut causes = None;
    for bit in (0..17).rev() {
        if word >> bit & 1 == 1 {
            let above = causes.map_or(0, |Causes { count, .. }| count);
            causes = Some(Causes { count: above + 1, lowest: bit });
        }
    }
    causes
}

/// The original has no causes: each is held to a count of this file's own. Every abort word that the calls met, every word of
/// bits 0 to 16 below arbitrary upper bits, and random words.
#[test]
fn causes_of_aborts() {
    let mut rust = Drivers::new();
    let mut met = 0;
    for (index, call) in calls().enumerate() {
        rust.run(&call, None);
        for word in abort_words(&recorded()) {
            assert_eq!(master::causes(word), counted(word), "word {word:#X}, call {index}: {call:?}");
            met += 1;
        }
    }
    assert!(met > 0, "no abort word was met");
    let mut rng = Rng::new(number("IN_PROCESS_SEED", 1));
    for low in 0..1 << 17 {
        let upper = rng.word() << 17;
        for word in [low, upper | low, rng.word(), rng.word() & rng.word() & rng.word(), 1 << rng.below(32)] {
            assert_eq!(master::causes(word), counted(word), "word {word:#X}");
        }
    }
}

/// Whether the random calls tell a master's reasons apart: bit 3 alone, with bit 12, with bits 0 to 2, and before another word
/// from which another reason would follow; plain, and with a packet error code.
#[test]
fn reasons_that_are_met() {
    let mut rust = Drivers::new();
    let mut met = [[0; 4]; 2];
    for call in calls() {
        let Kind::Master { form, .. } = call.kind else { continue };
        let answer = rust.run(&call, None);
        let log = recorded();
        let mut words = abort_words(&log);
        let Some(first) = words.next() else { continue };
        let met = &mut met[usize::from(form / 8)];
        match (answer.number, first & 8 != 0) {
            (23, true) if first & 0x1000 == 0 => met[0] += 1,
            (23, true) => met[1] += 1,
            (9, true) => met[2] += 1,
            _ => {}
        }
        if answer.number == 23 && words.next().is_some_and(|second| second & 0xF != 8) {
            met[3] += 1;
        }
    }
    assert!(met.iter().flatten().all(|count| *count > 0), "{met:?}");
}
