//! The plain receiver and the plain broadcaster as a program, for comparisons of time: `record
//! PID`, `open PID PATH..`, `open sections PATH..`, `list PID`, `watch PID PATH..` and `publish
//! FOLDER CAROUSEL CYCLES`, as ./carousel has them, but that `watch` writes in large pieces.

#[path = "../models/publisher.rs"]
mod publisher;
#[path = "../models/receiver.rs"]
mod receiver;

use std::io::{self, BufWriter, Read, Write};
use std::process::exit;

use receiver::{Demux, PACKET, Path, Tuner, Watch, each_back_to_back, is_name, is_section, write_list, write_opened};

fn name_of(text: &[u8]) -> Option<Vec<u8>> {
    let mut name = Vec::new();
    let mut rest = text.iter();
    while let Some(&byte) = rest.next() {
        if byte == b'%' {
            let digit = |it: Option<&u8>| char::from(*it?).to_digit(16);
            name.push((digit(rest.next())? * 16 + digit(rest.next())?) as u8);
        } else {
            name.push(byte);
        }
    }
    is_name(&name).then_some(name)
}

fn path_of(text: &str) -> Option<Path> {
    if text == "/" {
        return Some(Vec::new());
    }
    let names = text.strip_prefix('/')?.as_bytes().split(|&byte| byte == b'/').map(name_of).collect::<Option<Vec<_>>>()?;
    (names.len() <= 16).then_some(names)
}

/// Hands each candidate of the PID on standard input on.
fn each_candidate(pid: u16, each: &mut impl FnMut(&[u8])) -> io::Result<()> {
    let mut demux = Demux::new(pid);
    let mut source = io::stdin().lock();
    let mut buffer = vec![0; 65_536];
    let mut filled = 0;
    loop {
        let count = source.read(&mut buffer[filled..])?;
        if count == 0 {
            return Ok(());
        }
        filled += count;
        let (packets, tail) = buffer[..filled].as_chunks::<PACKET>();
        for packet in packets {
            demux.feed(packet, each);
        }
        let (whole, left) = (filled - tail.len(), tail.len());
        buffer.copy_within(whole..filled, 0);
        filled = left;
    }
}

/// Writes each section of the PID.
fn record(pid: u16, out: &mut impl Write) -> io::Result<()> {
    let mut result = Ok(());
    each_candidate(pid, &mut |it| {
        if result.is_ok() && is_section(it) {
            result = out.write_all(it);
        }
    })?;
    result
}

/// Writes what changes of the answers to some paths.
fn watch(pid: u16, paths: &[Path], out: &mut impl Write) -> io::Result<()> {
    let (mut result, mut watch) = (Ok(()), Watch::new(paths));
    each_candidate(pid, &mut |it| {
        if result.is_ok() {
            result = watch.hear(it, out);
        }
    })?;
    result
}

/// What is held after the packets of a PID, or after sections back to back; None where the word is
/// neither.
fn heard(place: &str) -> io::Result<Option<Tuner>> {
    let mut tuner = Tuner::default();
    if place == "sections" {
        let mut bytes = Vec::new();
        io::stdin().lock().read_to_end(&mut bytes)?;
        each_back_to_back(&bytes, &mut |it| {
            tuner.feed(it);
        });
    } else {
        let Ok(pid) = place.parse() else { return Ok(None) };
        each_candidate(pid, &mut |it| {
            tuner.feed(it);
        })?;
    }
    Ok(Some(tuner))
}

fn run(words: &[String]) -> io::Result<i32> {
    let mut out = BufWriter::with_capacity(65_536, io::stdout().lock());
    if let [command, folder, carousel, cycles] = words && command == "publish" {
        let (Ok(carousel), Ok(cycles)) = (carousel.parse(), cycles.parse()) else { return Ok(2) };
        publisher::publish(folder, carousel, cycles, out)?;
        return Ok(0);
    }
    let [command, place, paths @ ..] = words else { return Ok(2) };
    let Some(paths) = paths.iter().map(|word| path_of(word)).collect::<Option<Vec<_>>>() else { return Ok(2) };
    let all = match (command.as_str(), place.parse()) {
        ("record", Ok(pid)) => record(pid, &mut out).map(|()| true)?,
        ("watch", Ok(pid)) => watch(pid, &paths, &mut out).map(|()| true)?,
        ("open", _) => {
            let Some(tuner) = heard(place)? else { return Ok(2) };
            write_opened(&tuner, &paths, &mut out)?
        }
        ("list", Ok(_)) => {
            let Some(tuner) = heard(place)? else { return Ok(2) };
            write_list(&tuner, &mut out)?
        }
        _ => return Ok(2),
    };
    out.flush()?;
    Ok(if all { 0 } else { 1 })
}

fn main() {
    let words: Vec<String> = std::env::args().skip(1).collect();
    match run(&words) {
        Ok(status) => exit(status),
        Err(error) => {
            eprintln!("{error}");
            exit(4)
        }
    }
}
