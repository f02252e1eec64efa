//! The speed of the proved library, through its C surface, beside that of two plain engines, `plain` in Rust and one in C.
//!
//!     bench [--smoke]
//!
//! First each side is compared with `plain` on random calls, damaged pools among them; where one differs, there is no table. It
//! has a row for each case, unless an answer or a place of the memory differs. The last line says how many sides and cases passed, whatever the times are. With --smoke it takes
//! seconds and its times say little.

mod cases;
mod measure;
mod pool;
mod sides;

use std::process::ExitCode;

use measure::Row;
use sides::SIDES;

fn main() -> ExitCode {
    let arguments: Vec<String> = std::env::args().skip(1).collect();
    let smoke = match arguments.as_slice() {
        [] => false,
        [word] if word == "--smoke" => true,
        _ => {
            eprintln!("bench [--smoke]");
            return ExitCode::FAILURE;
        }
    };
    let mut counts = [0, 0];
    let mut count = |what: &str, fault: Option<String>| {
        counts[usize::from(fault.is_some())] += 1;
        if let Some(fault) = &fault {
            println!("\nFAILED: {what}: {fault}");
        }
        fault.is_none()
    };

    let calls = if smoke { 30_000 } else { 500_000 };
    println!("- plain C: {}", env!("PLAIN_C_BY"));
    println!("- each side is compared on {calls} random calls first\n");
    let mut agree = true;
    for side in SIDES {
        agree &= count(side.name, measure::judge(side, calls).err());
    }
    if agree {
        println!("| Case | Ours, ns | Rust, ns | C, ns | Ours to Rust | Middle half | Ours to C | Middle half |");
        println!("|---|---|---|---|---|---|---|---|");
        for case in cases::all(smoke) {
            let row = measure::measure(&case, if smoke { 3 } else { 101 });
            if let Ok(Row { times: [ours, rust, c], ratios: [_, to_rust, to_c] }) = &row {
                let ratio = |[low, median, high]: &[f64; 3]| format!("{median:.2} | {low:.2} to {high:.2}");
                println!("| {} | {ours:.1} | {rust:.1} | {c:.1} | {} | {} |", case.name, ratio(to_rust), ratio(to_c));
            }
            count(&case.name, row.err());
        }
    }
    let [passed, failed] = counts;
    println!("\n{passed} passed, {failed} failed");
    if failed == 0 {
        ExitCode::SUCCESS
    } else {
        ExitCode::FAILURE
    }
}
