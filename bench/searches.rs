//! How much processor time it takes to search a certificate for each task that is named, and to check what was found. With no
//! words it does nothing.
#![tactic(auto)]

use anyhow::{Context, ensure};
use checker::{Verdict, check};
use searcher::search;
use std::time::CpuClock;
use std::time::Duration;
use std::{env, fs};
use task_reader::read_task;

/// The nanoseconds of processor time since then.
fn since(rt: &HostRuntime, start: Duration) -> anyhow::Result<u128> {
    Ok(rt
        .thread_cpu_time()?
        .checked_sub(start)
        .unwrap_or(Duration::ZERO)
        .as_nanos())
}

/// Reads a task, searches and checks, once, and prints the nanoseconds of the last two.
fn measure(rt: &HostRuntime, task: &str) -> anyhow::Result<()> {
    let text = fs::read(rt, task)?;
    let task = read_task(rt.alloc(), &text)?;
    let start = rt.thread_cpu_time()?;
    let found = search(rt.alloc(), &task)?;
    let searched = since(rt, start)?;
    let cert = found.context("no certificate was found")?;
    let start = rt.thread_cpu_time()?;
    let verdict = check(&task, &cert);
    let checked = since(rt, start)?;
    ensure!(matches!(verdict, Verdict::Yes), "the verdict is no");
    println!(rt; "{searched} {checked}")?;
    Ok(())
}

fn main(rt: HostRuntime) -> anyhow::Result<()> {
    for task in env::args(&rt)?.skip(1) {
        measure(&rt, task.as_str())?;
    }
    Ok(())
}
