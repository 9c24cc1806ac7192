//! Measures the cost of one access in process, time against length, short calls apart, and what a packet error code costs.
//! Prints four tables in Markdown.
//!
//! Every number is the smallest of several batches, the sides by turns, so that what else the machine does counts least.

use std::hint::black_box;
use std::time::Instant;

use celadonsaw::{Transfer, master};
use in_process::{ideal, stepped, whole::Rattle};
use oracle::bus;
use oracle::call::{Call, Kind, Operation};
use oracle::drivers::Drivers;

const BATCHES: usize = 40;
const BATCH_NS: f64 = 5e6;
/// Bytes of the transfers whose accesses are measured: the log of the stand-in has room for each.
const BYTES: usize = 1024;
const ADDRESS: u16 = 0x55;
const FORMS: [(&str, u8); 4] = [("blocking_read", 0), ("blocking_write", 1), ("read_async", 4), ("write_async", 5)];
const LENGTHS: [usize; 9] = [16, 32, 64, 128, 256, 512, 1024, 2048, 4096];
/// Bit 3 of a form: with a packet error code.
const CODED: u8 = 8;
/// What a coded call may take of the plain one.
const CODED_GOAL: f64 = 1.5;
/// Up to one fill of the FIFO, and one byte more.
const SHORT: [usize; 6] = [1, 4, 8, 15, 16, 17];
/// What a straight line may be missed by.
const TOLERANCE: f64 = 0.10;

fn once(times: usize, run: &mut dyn FnMut()) -> f64 {
    let start = Instant::now();
    for _ in 0..times {
        run();
    }
    start.elapsed().as_nanos() as f64 / times as f64
}

/// The time of one run of each, in ns.
fn measure(sides: &mut [&mut dyn FnMut()]) -> Vec<f64> {
    let times: Vec<usize> = sides
        .iter_mut()
        .map(|side| {
            once(3, *side);
            1 + (BATCH_NS / once(10, *side)) as usize
        })
        .collect();
    let mut best = vec![f64::INFINITY; sides.len()];
    for _ in 0..BATCHES {
        for ((side, times), best) in sides.iter_mut().zip(&times).zip(&mut best) {
            *best = best.min(once(*times, *side));
        }
    }
    best
}

/// A master call of a form, with the readings that it takes. One with a packet error code takes those of a byte more.
fn transfer_call(form: u8, length: usize) -> Call {
    let mut call = Call::new(Kind::Master { form, address: ADDRESS });
    let queued = form & 4 != 0;
    let more = if form & CODED != 0 { 1 } else { 0 };
    if form % 4 == 0 {
        call.operations = vec![Operation::Read(length)];
        call.readings = ideal::of_transfer(Transfer::read(queued, ADDRESS, &mut vec![0; length + more])).0;
        if more == 1 {
            let mut message = vec![ADDRESS as u8 * 2 + 1];
            message.resize(1 + length, ideal::BYTE as u8);
            let last = call.readings.iter().rposition(|reading| *reading == ideal::BYTE).expect("a byte is read");
            call.readings[last] = master::crc8(0, &message).into();
        }
    } else {
        call.operations = vec![Operation::Write(length)];
        call.bytes = (0..length).map(|i| i as u8).collect();
        call.readings = ideal::of_transfer(Transfer::write(queued, ADDRESS, &vec![0; length + more])).0;
    }
    call
}

/// A slave call, with the readings that it takes.
fn slave_call(drivers: &mut Drivers, kind: Kind, bytes: Vec<u8>) -> Call {
    let mut call = Call::new(kind);
    let written = if let Kind::Listen { length } = kind { length as u32 - 1 } else { 0 };
    call.bytes = bytes;
    drivers.run(&call, Some(Box::new(ideal::Master { bytes: written, in_fifo: 0 })));
    bus::with_record(|_, readings| call.readings.extend_from_slice(readings));
    call
}

fn cell(ns: f64, rust: f64) -> String {
    format!("{ns:.2} | {:.2}", ns / rust)
}

fn one_access() {
    let mut drivers = Drivers::new();
    let mut rattle = Rattle::new(drivers.slave_state());
    let response = (0..BYTES).map(|i| i as u8).collect();
    let calls = [
        ("blocking_read", transfer_call(0, BYTES)),
        ("blocking_write", transfer_call(1, BYTES)),
        ("read_async", transfer_call(4, BYTES)),
        ("write_async", transfer_call(5, BYTES)),
        ("listen", slave_call(&mut drivers, Kind::Listen { length: BYTES }, Vec::new())),
        ("respond_to_read", slave_call(&mut drivers, Kind::Respond, response)),
    ];
    println!("| call, {BYTES} bytes | accesses | Rust, ns | whole call, ns | of Rust | by steps, ns | of Rust |");
    println!("|---|---|---|---|---|---|---|");
    for (name, call) in &calls {
        let answer = drivers.run(call, None);
        let accesses = bus::with_record(|log, _| log.len()) as f64;
        assert_eq!((answer, answer.number), (rattle.run(call), 0), "{name}");
        let mut buffer = Vec::new();
        let has_steps = stepped::run(call, &mut buffer).inspect(|stepped| assert_eq!(*stepped, answer)).is_some();
        let times = measure(&mut [
            &mut || _ = black_box(drivers.run(black_box(call), None)),
            &mut || _ = black_box(rattle.run(black_box(call))),
            &mut || _ = black_box(stepped::run(black_box(call), &mut buffer)),
        ]);
        let [rust, whole, steps] = [times[0] / accesses, times[1] / accesses, times[2] / accesses];
        let steps = if has_steps { cell(steps, rust) } else { "- | -".to_string() };
        println!("| {name} | {accesses} | {rust:.2} | {} | {steps} |", cell(whole, rust));
    }
}

/// The line through the points that misses each least, as a share of the time there: offset and slope.
fn line(points: &[(f64, f64)]) -> (f64, f64) {
    let mut sums = [0.0; 5];
    for (x, y) in points {
        let weight = 1.0 / (y * y);
        for (sum, term) in sums.iter_mut().zip([1.0, *x, x * x, *y, x * y]) {
            *sum += weight * term;
        }
    }
    let [one, x, xx, y, xy] = sums;
    let slope = (one * xy - x * y) / (one * xx - x * x);
    ((y - slope * x) / one, slope)
}

/// A whole call of a form and a length, to be run again and again.
fn whole_call(form: u8, length: usize) -> impl FnMut() {
    let call = transfer_call(form, length);
    let mut buffer = vec![0; length];
    let mut log = vec![0; 2 * (5 * length + 16)];
    move || {
        let (read, write, readings) = (&mut buffer[..], &call.bytes[..], &call.readings[..]);
        let left = match form {
            0 => master::blocking_read(ADDRESS, read, readings, &mut log),
            1 => master::blocking_write(ADDRESS, write, readings, &mut log),
            4 => master::read_async(ADDRESS, read, readings, &mut log),
            5 => master::write_async(ADDRESS, write, readings, &mut log),
            8 => master::blocking_read_pec(ADDRESS, read, readings, &mut log),
            9 => master::blocking_write_pec(ADDRESS, write, readings, &mut log),
            12 => master::read_async_pec(ADDRESS, read, readings, &mut log),
            _ => master::write_async_pec(ADDRESS, write, readings, &mut log),
        };
        assert_eq!(black_box(left).answer, Ok(()));
    }
}

/// The time of a whole call at each length, in ns.
fn times_of(form: u8, lengths: &[usize]) -> Vec<f64> {
    let mut runs: Vec<_> = lengths.iter().map(|&length| whole_call(form, length)).collect();
    let mut sides: Vec<&mut dyn FnMut()> = runs.iter_mut().map(|run| run as &mut dyn FnMut()).collect();
    measure(&mut sides)
}

fn short() {
    print!("| call |");
    SHORT.iter().for_each(|length| print!(" {length} |"));
    println!("\n|---|{}", "---|".repeat(SHORT.len()));
    for (name, form) in FORMS {
        print!("| {name} |");
        times_of(form, &SHORT).iter().for_each(|time| print!(" {time:.0} |"));
        println!();
    }
}

fn by_length() {
    print!("| call | ns a byte |");
    LENGTHS.iter().for_each(|length| print!(" {length} |"));
    println!(" furthest off |\n|---|---|{}---|", "---|".repeat(LENGTHS.len()));
    for (name, form) in FORMS {
        let times = times_of(form, &LENGTHS);
        let points: Vec<(f64, f64)> = LENGTHS.map(|length| length as f64).into_iter().zip(times).collect();
        let (offset, slope) = line(&points);
        let mut furthest: f64 = 0.0;
        print!("| {name} | {slope:.2} |");
        for (length, time) in points {
            let off = time / (offset + slope * length) - 1.0;
            furthest = if off.abs() > furthest.abs() { off } else { furthest };
            print!(" {time:.0} |");
        }
        let verdict = if furthest.abs() <= TOLERANCE { "linear" } else { "not linear" };
        println!(" {:+.1} %, {verdict} |", 100.0 * furthest);
    }
}

/// A coded call beside the plain one, by turns.
fn coded() {
    println!("| call, {BYTES} bytes | plain, ns | with a code, ns | of plain | goal |\n|---|---|---|---|---|");
    for (name, form) in FORMS {
        let (mut plain, mut with_code) = (whole_call(form, BYTES), whole_call(form + CODED, BYTES));
        let times = measure(&mut [&mut plain, &mut with_code]);
        let share = times[1] / times[0];
        let verdict = if share <= CODED_GOAL { "met" } else { "missed" };
        println!("| {name} | {:.0} | {:.0} | {share:.2} | {CODED_GOAL}: {verdict} |", times[0], times[1]);
    }
}

fn main() {
    println!("Cost of one access, in process\n");
    one_access();
    println!("\nTime of a whole call against its length, in ns\n");
    by_length();
    println!("\nTime of a short whole call, in ns\n");
    short();
    println!("\nTime of a whole call with a packet error code\n");
    coded();
}
