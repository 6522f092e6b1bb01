// Runs one case a number of times, so that two counts of instructions give the cost of a call:  driver MODE CASE TIMES
//   clone      the original's input is cloned, and given up without being freed
//   original   the input is cloned, the original's `optimize` called, its answer freed
//   ours       arvedun_optimize is called on the words; all areas were cleared once, before the first call
//   check      (no TIMES) both once: is ours the original's answer?

#![allow(unknown_lints, unexpected_cfgs)]

#[path = "../../oracle/src/original.rs"]
#[allow(dead_code)]
mod original_run;
#[path = "../../oracle/src/table.rs"]
#[allow(dead_code)]
mod table;

mod ours;

use table::*;

/// Keeps the compiler from seeing through a value (std has this only in newer compilers).
fn black_box<T>(value: T) -> T {
    let same = unsafe { std::ptr::read_volatile(&value) };
    std::mem::forget(value);
    same
}

/// The original's HashMaps take their keys from here: always the same, so that counts repeat exactly.
#[no_mangle]
pub extern "C" fn getrandom(buffer: *mut u8, length: usize, _flags: u32) -> isize {
    for i in 0..length {
        unsafe { *buffer.add(i) = 1 };
    }
    length as isize
}

fn main() {
    let work = std::thread::Builder::new().stack_size(1 << 29).spawn(run).expect("a thread");
    std::process::exit(work.join().unwrap_or(3));
}

fn run() -> i32 {
    let args: Vec<String> = std::env::args().collect();
    let bytes = std::fs::read(&args[2]).expect("the case file");
    let case = Case::read(&mut &bytes[..]).expect("a case");
    let table = decode(&case.rules, &case.rows, PUSH).expect("a table");
    let times: usize = args.get(3).and_then(|n| n.parse().ok()).unwrap_or(1);
    let rules = original_run::to_original(&resolve(&table, &case.text));
    match args[1].as_str() {
        "clone" => {
            for _ in 0..times {
                std::mem::forget(black_box(rules.clone()));
            }
            0
        }
        "original" => {
            for _ in 0..times {
                drop(black_box(original::optimizer::optimize(black_box(rules.clone()))));
            }
            0
        }
        "ours" => {
            let mut areas = ours::Areas::new();
            for _ in 0..times {
                black_box(areas.call(black_box(&case)));
            }
            0
        }
        "check" => {
            let theirs = original_run::answer(&table, &case.text, u128::MAX).ok().flatten().expect("the original's answer");
            let same = ours::Areas::new().optimize(&case) == theirs;
            println!("{}", if same { "same" } else { "DIFFERENT" });
            !same as i32
        }
        other => {
            eprintln!("no mode {other}");
            2
        }
    }
}
