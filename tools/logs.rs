//! Reads a log of so many equal quanta, and writes what was read, so many times: a benchmark of logs. It prints the bytes
//! that were written.
#![tactic(auto)]

use pn_types::NoMemory;
use quanta_log::{LogError, read, write};
use std::alloc::Global;
use std::process::ExitCode;
use std::{env, io};

/// The head of a log of version 2 up to its count: one hart, 64 bins, a budget of 1,000,000 and a width of 1,000.
const HEAD: &[u8; 32] = b"PDYNLOG2\x01\0\0\0\x40\0\0\0\x40\x42\x0f\0\0\0\0\0\xe8\x03\0\0\0\0\0\0";

/// A cold start and 64 instruments.
const LATER: &[u8; 8] = b"\0\0\0\0\x40\0\0\0";

/// A quantum of 50 turns and 3 own words.
const ENTRY: &[u8; 8] = b"\0\0\x32\0\x03\0\0\0";

/// The log of so many quanta.
fn log_of(alloc: Global, count: u32) -> Result<Vec<u8>, NoMemory> {
    let mut log = Vec::new(alloc);
    log.extend_from_slice(HEAD)?;
    log.extend_from_slice(&u64::from(count).to_le_bytes())?;
    log.extend_from_slice(LATER)?;
    for _ in 0..count {
        log.extend_from_slice(ENTRY)?;
    }
    Ok(log)
}

/// How many bytes are written in all.
fn written(alloc: Global, log: &[u8], times: u32) -> Result<u64, LogError> {
    let mut bytes: u64 = 0;
    for _ in 0..times {
        let (settings, quanta) = read(alloc, log)?;
        let again = write(alloc, &settings, &quanta)?;
        bytes = bytes.saturating_add(again.len() as u64);
    }
    Ok(bytes)
}

/// The numbers that the arguments give.
fn numbers(rt: &HostRuntime) -> Result<(u32, u32), io::Error> {
    let mut count = 0;
    let mut times = 0;
    for (i, word) in env::args(rt)?.skip(1).enumerate() {
        let number = word.parse().unwrap_or(0);
        if i == 0 {
            count = number;
        } else {
            times = number;
        }
    }
    Ok((count, times))
}

fn main(rt: HostRuntime) -> Result<ExitCode, io::Error> {
    let (count, times) = numbers(&rt)?;
    let log = log_of(rt.alloc(), count)?;
    match written(rt.alloc(), &log, times) {
        Ok(bytes) => println!(rt; "bytes {bytes}")?,
        Err(_) => println!(rt; "no log")?,
    }
    Ok(ExitCode::SUCCESS)
}
