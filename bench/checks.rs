//! How much processor time it takes to read the task and the certificate in each two files that are named, and to check the one
//! with the other. With no words it does nothing.
#![tactic(auto)]

use anyhow::ensure;
use certificate_text::read_cert;
use checker::{Verdict, check};
use std::time::Duration;
use std::{env, fs};
use std::time::CpuClock;
use task_reader::read_task;

/// The nanoseconds of processor time since then.
fn since(rt: &HostRuntime, start: Duration) -> anyhow::Result<u128> {
    Ok(rt
        .thread_cpu_time()?
        .checked_sub(start)
        .unwrap_or(Duration::ZERO)
        .as_nanos())
}

/// Reads both and checks, once, and prints the bytes of each and the nanoseconds of the three.
fn measure(rt: &HostRuntime, task: &str, cert: &str) -> anyhow::Result<()> {
    let task_text = fs::read(rt, task)?;
    let cert_text = fs::read(rt, cert)?;
    let start = rt.thread_cpu_time()?;
    let task = read_task(rt.alloc(), &task_text)?;
    let task_read = since(rt, start)?;
    let start = rt.thread_cpu_time()?;
    let cert = read_cert(rt.alloc(), &cert_text)?;
    let cert_read = since(rt, start)?;
    let start = rt.thread_cpu_time()?;
    let verdict = check(&task, &cert);
    let checked = since(rt, start)?;
    ensure!(matches!(verdict, Verdict::Yes), "the verdict is no");
    let task_bytes = task_text.len();
    let cert_bytes = cert_text.len();
    println!(rt; "{task_bytes} {cert_bytes} {task_read} {cert_read} {checked}")?;
    Ok(())
}

fn main(rt: HostRuntime) -> anyhow::Result<()> {
    let mut words = env::args(&rt)?.skip(1);
    while let (Some(task), Some(cert)) = (words.next(), words.next()) {
        measure(&rt, task.as_str(), cert.as_str())?;
    }
    Ok(())
}
