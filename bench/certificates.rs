//! How much processor time it takes to read the certificate in each file that is named, and to write it. With no
//! words it does nothing.
#![tactic(auto)]

ghost use Rattle.std.specs.Prelude.{◌≡◌, None};

use anyhow::ensure;
use certificate_text::{read_cert, write_cert};
use rights::{Out, OutFault};
use std::time::{CpuClock, Duration};
use std::{env, fs};

/// Takes the bytes that are left of a text, and no others.
#[derive(Drop)]
struct Comparison<'a> {
    left: &'a [u8],
    failures: u64,
}

impl<'a> Comparison<'a> {
    /// The whole text is left.
    fn new(text: &'a [u8]) -> Comparison<'a>
        ensures { result.failures ≡ 0 }
    {
        Comparison {
            left: text,
            failures: 0,
        }
    }
}

impl<'a> Out for Comparison<'a> {
    ghost taken = { λ _. None };

    ghost faults = { λ comparison. comparison.failures };

    fn write_some(&mut self, bytes: &[u8]) -> Result<usize, OutFault> {
        let count = bytes.len();
        if count <= self.left.len() && &self.left[..count] == bytes {
            self.left = &self.left[count..];
            return Ok(count);
        }
        self.failures += 1;
        Err(OutFault)
    }
}

/// The processor time since then.
fn since(rt: &HostRuntime, start: Duration) -> anyhow::Result<Duration> {
    Ok(
        rt.thread_cpu_time()?
            .checked_sub(start)
            .unwrap_or(Duration::ZERO),
    )
}

/// Reads the certificate in the file and writes it, once, and prints the bytes and the nanoseconds of each.
fn measure(rt: &HostRuntime, path: &str) -> anyhow::Result<()> {
    let text = fs::read(rt, path)?;
    let start = rt.thread_cpu_time()?;
    let cert = read_cert(rt.alloc(), &text)?;
    let read = since(rt, start)?.as_nanos();
    let mut out = Comparison::new(&text);
    let start = rt.thread_cpu_time()?;
    write_cert(&cert, &mut out)?;
    let written = since(rt, start)?.as_nanos();
    ensure!(out.left.is_empty(), "less is written than was read");
    let bytes = text.len();
    println!(rt; "{bytes} {read} {written}")?;
    Ok(())
}

fn main(rt: HostRuntime) -> anyhow::Result<()> {
    for path in env::args(&rt)?.skip(1) {
        measure(&rt, path.as_str())?;
    }
    Ok(())
}
