//! How much processor time it takes to assemble texts of 32, 64, 128 and 256 instructions.
#![tactic(auto)]

use prog_asm::assemble;
use std::alloc::{AllocError, Global};
use std::time::{CpuClock, Duration};

/// How often each text is assembled.
const ROUNDS: u32 = 2_000;

/// A text of so many instructions: calls with a list of rights, each with a label of its own that it
/// names, and a last `halt`.
fn text_of(alloc: Global, instructions: u32) -> Result<String, AllocError> {
    let mut text = String::new(alloc);
    for number in 1..instructions {
        let line = format!(in alloc;
            "l{number}: cap_rights_limit {number} LOOKUP,READ,FSTAT else l{number} ; line {number}\n"
        )?;
        text.push_str(line.as_str())?;
    }
    text.push_str("halt\n")?;
    Ok(text)
}

fn main(rt: HostRuntime) -> anyhow::Result<()> {
    println!(rt; "instructions bytes nanoseconds")?;
    for instructions in [32, 64, 128, 256] {
        let text = text_of(rt.alloc(), instructions)?;
        let start = rt.thread_cpu_time()?;
        for _ in 0..ROUNDS {
            let _program = assemble(rt.alloc(), text.as_str())?;
        }
        let spent = rt
            .thread_cpu_time()?
            .checked_sub(start)
            .unwrap_or(Duration::ZERO);
        let each = spent.as_nanos() / u128::from(ROUNDS);
        let bytes = text.len();
        println!(rt; "{instructions} {bytes} {each}")?;
    }
    Ok(())
}
