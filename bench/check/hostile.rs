//! Feeds streams with everything wrong in them to the program, and compares all that it writes with
//! the plain receiver's reading of the same bytes. bench/check/hostile builds and describes it.
//!
//!     hostile PROGRAM SECONDS FIRST MOST     pieces of up to MOST bytes, from the number FIRST on

#[path = "hostile_streams/mod.rs"]
mod air;
#[path = "../models/receiver.rs"]
mod receiver;

use std::collections::BTreeMap;
use std::ffi::c_int;
use std::io::{self, Write};
use std::process::{Command, ExitStatus, Stdio, exit};
use std::time::{Duration, Instant};

use air::{Chance, Piece};
use receiver::{Demux, PACKET, Path, Tuner, Watch, each_back_to_back, is_section, printed, write_list, write_opened};

/// A program that takes longer on a piece has failed.
const MOST_SECONDS: &str = "100";
/// How long an input that shows a difference is made shorter.
const SHRINKING: Duration = Duration::from_secs(30);

/// How the input of a command is cut.
#[derive(Clone, Copy)]
enum Form {
    Packets(u16),
    Sections,
}

enum Asked<'a> {
    Record(u16),
    Open(Form, &'a [Path]),
    List(u16),
    Watch(u16, &'a [Path]),
}

#[derive(PartialEq)]
struct Ended {
    status: i32,
    out: Vec<u8>,
    error: Vec<u8>,
}

impl Asked<'_> {
    fn form(&self) -> Form {
        match *self {
            Asked::Record(pid) | Asked::List(pid) | Asked::Watch(pid, _) => Form::Packets(pid),
            Asked::Open(form, _) => form,
        }
    }

    fn words(&self) -> Vec<String> {
        let place = match self.form() {
            Form::Packets(pid) => pid.to_string(),
            Form::Sections => "sections".into(),
        };
        let (command, paths) = match *self {
            Asked::Record(_) => ("record", &[][..]),
            Asked::Open(_, paths) => ("open", paths),
            Asked::List(_) => ("list", &[][..]),
            Asked::Watch(_, paths) => ("watch", paths),
        };
        [command.into(), place].into_iter().chain(paths.iter().map(|it| printed(it))).collect()
    }
}

// The plain receiver's reading

/// The candidates of an input, back to back.
fn cut(form: Form, input: &[u8]) -> Vec<u8> {
    let Form::Packets(pid) = form else { return input.to_vec() };
    let (mut demux, mut candidates) = (Demux::new(pid), Vec::with_capacity(input.len()));
    for packet in input.as_chunks::<PACKET>().0 {
        demux.feed(packet, &mut |it| candidates.extend_from_slice(it));
    }
    candidates
}

/// An input as the plain receiver reads it: its candidates back to back, and what is held after
/// them.
struct Reading<'a> {
    input: &'a [u8],
    candidates: Vec<u8>,
    tuner: Tuner,
}

impl<'a> Reading<'a> {
    fn of(form: Form, input: &'a [u8]) -> Reading<'a> {
        let (candidates, mut tuner) = (cut(form, input), Tuner::default());
        each_back_to_back(&candidates, &mut |it| {
            tuner.feed(it);
        });
        Reading { input, candidates, tuner }
    }

    /// What has to be written of this input, and the status.
    fn wanted(&self, asked: &Asked) -> Ended {
        let mut out = Vec::new();
        let all = match asked {
            Asked::Record(_) => {
                each_back_to_back(&self.candidates, &mut |it| out.extend_from_slice(if is_section(it) { it } else { &[] }));
                Ok(true)
            }
            Asked::Open(_, paths) => write_opened(&self.tuner, paths, &mut out),
            Asked::List(_) => write_list(&self.tuner, &mut out),
            Asked::Watch(_, paths) => {
                let mut watch = Watch::new(paths);
                let mut written = Ok(true);
                each_back_to_back(&self.candidates, &mut |it| written = watch.hear(it, &mut out).map(|()| true));
                written
            }
        };
        Ended { status: i32::from(!all.expect("a list of bytes takes them")), out, error: Vec::new() }
    }
}

// The program

fn status_of(status: ExitStatus) -> i32 {
    status.code().unwrap_or(-1)
}

/// Runs a command, its input coming through a pipe in chunks of `step` bytes. What isn't read any
/// more is left.
fn run(program: &str, words: &[String], input: &[u8], step: usize) -> io::Result<Ended> {
    let mut command = Command::new("timeout");
    command.args([MOST_SECONDS, program]).args(words).stdin(Stdio::piped()).stdout(Stdio::piped()).stderr(Stdio::piped());
    let mut child = command.spawn()?;
    let mut pipe = child.stdin.take().expect("it is piped");
    let ended = std::thread::scope(|scope| {
        scope.spawn(move || input.chunks(step).try_for_each(|it| pipe.write_all(it)));
        child.wait_with_output()
    })?;
    Ok(Ended { status: status_of(ended.status), out: ended.stdout, error: ended.stderr })
}

/// Sizes of the chunks in which a pipe brings an input: odd ones too, but not too many chunks.
fn step_for(input: &[u8], chance: &mut Chance) -> usize {
    chance.pick(&[1, 187, 188, 1000, 4096, 65_536, 1_000_000]).max(input.len() / 1000 + 1)
}

// Differences

/// An input without what a difference doesn't need: runs of its packets or sections are left out
/// while it stays.
fn shrunk(form: Form, input: &[u8], differs: impl Fn(&[u8]) -> io::Result<bool>) -> io::Result<Vec<u8>> {
    let began = Instant::now();
    let mut kept: Vec<Vec<u8>> = match form {
        Form::Packets(_) => input.chunks(PACKET).map(<[u8]>::to_vec).collect(),
        Form::Sections => {
            let mut sections = Vec::new();
            each_back_to_back(input, &mut |it| sections.push(it.to_vec()));
            sections
        }
    };
    let (mut run, mut at) = (kept.len() / 2, 0);
    while run > 0 && began.elapsed() < SHRINKING {
        let fewer = [&kept[..at], &kept[(at + run).min(kept.len())..]].concat();
        if differs(&fewer.concat())? {
            kept = fewer;
        } else {
            at += run;
        }
        if at >= kept.len() {
            (run, at) = (run / 2, 0);
        }
    }
    Ok(kept.concat())
}

fn shown(line: &[u8]) -> String {
    format!("{}{}", line[..line.len().min(150)].escape_ascii(), if line.len() > 150 { ".." } else { "" })
}

/// Prints how two endings differ: the status, the line on standard error, and the first line of the
/// output that does.
fn print_difference(wanted: &Ended, got: &Ended) {
    println!("  wanted: status {}; the program: status {} {}", wanted.status, got.status, shown(&got.error));
    let lines = |it: &Ended| it.out.split(|&byte| byte == b'\n').map(<[u8]>::to_vec).collect::<Vec<_>>();
    let (ours, theirs) = (lines(wanted), lines(got));
    if let Some(place) = (0..ours.len().max(theirs.len())).find(|&it| ours.get(it) != theirs.get(it)) {
        let text = |lines: &[Vec<u8>]| lines.get(place).map_or("nothing".into(), |it| shown(it));
        println!("  line {}, wanted: {}", place + 1, text(&ours));
        println!("  line {}, the program: {}", place + 1, text(&theirs));
    }
}

/// Makes the input of a difference as short as it gets, keeps it in a file, and reports it.
fn report(program: &str, again: &str, number: u64, asked: &Asked, input: &[u8]) -> io::Result<()> {
    let words = asked.words();
    let both = |input: &[u8]| -> io::Result<(Ended, Ended)> {
        Ok((Reading::of(asked.form(), input).wanted(asked), run(program, &words, input, 65_536)?))
    };
    println!("a difference in piece {number}; {again} {number} makes it again");
    let input = shrunk(asked.form(), input, |it| both(it).map(|(wanted, got)| wanted != got))?;
    let kept = std::env::temp_dir().join(format!("carousel-hostile-{number}"));
    std::fs::write(&kept, &input)?;
    println!("  {program} {} < {}", words.join(" "), kept.display());
    let (wanted, got) = both(&input)?;
    if wanted == got {
        println!("  it comes only with the chunks in which the pipe brought the input");
    }
    print_difference(&wanted, &got);
    Ok(())
}

// The run

unsafe extern "C" {
    fn clock_gettime(clock: c_int, time: *mut [i64; 2]) -> c_int;
}

/// What this thread has had of the processor, by the clock that Linux gives the number 3.
fn processor_time() -> Duration {
    let mut time = [0; 2];
    // SAFETY: the pointer is to a value of this frame, of two numbers as the call has them on
    // 64-bit systems.
    let status = unsafe { clock_gettime(3, &mut time) };
    assert_eq!(status, 0, "the thread's clock");
    Duration::new(time[0] as u64, time[1] as u32)
}

#[derive(Default)]
struct Tally {
    bytes: usize,
    pieces: u64,
    compared: u64,
    lines: usize,
    answers: BTreeMap<String, u64>,
    /// The processor's time that making and reading took by themselves.
    own: Duration,
}

impl Tally {
    fn count(&mut self, piece: &Piece, tuner: &Tuner) {
        self.bytes += piece.bytes.len();
        self.pieces += 1;
        for path in &piece.paths {
            let text = tuner.open(path).text();
            *self.answers.entry(text.split(' ').next().unwrap_or_default().into()).or_default() += 1;
        }
    }

    fn count_output(&mut self, asked: &Asked, wanted: &Ended) {
        self.compared += 1;
        if let Asked::List(_) | Asked::Watch(..) = asked {
            self.lines += wanted.out.iter().filter(|&&byte| byte == b'\n').count();
        }
    }

    fn print(&self, first: u64, taken: Duration) {
        println!("{} bytes in {} pieces from {first} on", self.bytes, self.pieces);
        let answers: Vec<String> = self.answers.iter().map(|(kind, count)| format!("{kind} {count}")).collect();
        println!("opened: {}; listed and watched: {} lines", answers.join(", "), self.lines);
        let speed = |time: Duration| self.bytes as f64 / 1e6 / time.as_secs_f64();
        println!(
            "MB a second: {:.0} made and read, by the processor's time; {:.0} in all, by the clock",
            speed(self.own),
            speed(taken)
        );
    }
}

/// What is wrong in sections back to back beside what was wrong in their packets: some bytes are
/// others.
fn roughened(mut sections: Vec<u8>, chance: &mut Chance) -> Vec<u8> {
    for _ in 0..if sections.is_empty() { 0 } else { chance.pick(&[0, 0, 1, 20]) } {
        let place = chance.below(sections.len());
        sections[place] = chance.byte();
    }
    sections
}

/// The pieces of a run, and the program that they are tried on.
struct Run<'a> {
    program: &'a str,
    most: usize,
    tally: Tally,
}

impl Run<'_> {
    /// Tries a piece with each command. False where something differs, which is reported.
    fn try_piece(&mut self, number: u64) -> io::Result<bool> {
        let began = processor_time();
        let piece = air::piece(number, self.most);
        let form = Form::Packets(piece.pid);
        let reading = Reading::of(form, &piece.bytes);
        self.tally.own += processor_time() - began;
        self.tally.count(&piece, &reading.tuner);
        let mut chance = Chance::new(!number);
        let asked = [Asked::Record(piece.pid), Asked::Open(form, &piece.paths), Asked::List(piece.pid), Asked::Watch(piece.pid, &piece.paths)];
        for asked in asked {
            if !self.is_same(number, &asked, &reading, &mut chance)? {
                return Ok(false);
            }
        }
        let sections = roughened(piece.sections, &mut chance);
        let (asked, reading) = (Asked::Open(Form::Sections, &piece.paths), Reading::of(Form::Sections, &sections));
        self.is_same(number, &asked, &reading, &mut chance)
    }

    /// Whether the program writes what is wanted.
    fn is_same(&mut self, number: u64, asked: &Asked, reading: &Reading, chance: &mut Chance) -> io::Result<bool> {
        let began = processor_time();
        let wanted = reading.wanted(asked);
        self.tally.own += processor_time() - began;
        self.tally.count_output(asked, &wanted);
        let is_same = run(self.program, &asked.words(), reading.input, step_for(reading.input, chance))? == wanted;
        if !is_same {
            let again = if self.most <= air::SMALL { "bench/check/hostile --small 0" } else { "bench/check/hostile 0" };
            report(self.program, again, number, asked, reading.input)?;
        }
        Ok(is_same)
    }
}

/// Tries pieces for so long, at least one. False where there was a difference.
fn run_for(program: &str, time: Duration, first: u64, most: usize) -> io::Result<bool> {
    let (began, mut run, mut same) = (Instant::now(), Run { program, most, tally: Tally::default() }, true);
    for number in first.. {
        same = run.try_piece(number)?;
        if !same || began.elapsed() >= time {
            break;
        }
    }
    run.tally.print(first, began.elapsed());
    println!("{} answers compared, {} differences", run.tally.compared, u8::from(!same));
    Ok(same)
}

fn main() -> io::Result<()> {
    let words: Vec<String> = std::env::args().skip(1).collect();
    let [program, seconds, first, most] = &words[..] else { exit(2) };
    let (Ok(seconds), Ok(first), Ok(most)) = (seconds.parse(), first.parse(), most.parse()) else { exit(2) };
    exit(if run_for(program, Duration::from_secs(seconds), first, most)? { 0 } else { 1 })
}
