//! An independent test of a planner and a checker for lit wavelengths, by a
//! reading of document 01 of its own. See `usage` for what it can do.

mod book;
mod cases;
mod compare;
mod exact;
mod ffi;
mod gen;
mod plans;
mod rules;
#[cfg(standalone)]
mod standin;
mod text;

use std::io::{Read, Write};
use std::process::{Command, ExitCode, Stdio};
use std::sync::atomic::Ordering;
use std::time::{Duration, Instant};

use book::Shape;
use compare::{Tester, CALLS};

const USAGE: &str = "\
compare [run] [--books N] [--least N] [--seed S] [--patience N] [--trace]
                       fixed cases, then N generated books (24000); fails if
                       fewer than `least` (20000) different ones ran
compare one INDEX [--seed S]   one generated book of a run
compare try BOOK       everything that is tried on a book, on this file
compare print BOOK     what the printing program must write for this file
compare judge BOOK TEXT  whether TEXT is what it may write
compare drive PROGRAM [--books N] [--seed S]
                       feeds N generated books (2000) to a printing program
compare gen N DIR [--seed S]   writes N generated books into DIR
compare mistakes       (standalone) whether each mistake of the stand-in is seen
A file named - is standard input.
";

struct Options {
    /// As many books as each way of running takes by itself, unless told.
    books: Option<u64>,
    least: u64,
    seed: u64,
    patience: u64,
    trace: bool,
    words: Vec<String>,
}

fn options() -> Result<Options, String> {
    let mut options =
        Options { books: None, least: 20_000, seed: 1, patience: 10, trace: false, words: Vec::new() };
    let mut args = std::env::args().skip(1);
    while let Some(arg) = args.next() {
        let mut number = || {
            let value = args.next().ok_or(format!("{arg} wants a number"))?;
            value.parse::<u64>().map_err(|_| format!("{arg} wants a number and not {value}"))
        };
        match arg.as_str() {
            "--books" => options.books = Some(number()?),
            "--least" => options.least = number()?,
            "--seed" => options.seed = number()?,
            "--patience" => options.patience = number()?.max(1),
            "--trace" => options.trace = true,
            _ if arg.starts_with("--") => return Err(format!("no option {arg}")),
            _ => options.words.push(arg),
        }
    }
    Ok(options)
}

fn main() -> ExitCode {
    let outcome = options().and_then(|options| {
        let words: Vec<&str> = options.words.iter().map(String::as_str).collect();
        match words[..] {
            [] | ["run"] => run(&options),
            ["one", index] => one(&options, index),
            ["try", name] => try_book(&options, name),
            ["print", name] => print(name),
            ["judge", name, text] => judge(name, text),
            ["drive", program] => drive(&options, program),
            ["gen", count, dir] => generate(&options, count, dir),
            #[cfg(standalone)]
            ["mistakes"] => mistakes(&options),
            _ => Err(USAGE.to_string()),
        }
    });
    match outcome {
        Ok(()) => ExitCode::SUCCESS,
        Err(what) => {
            eprintln!("{what}");
            ExitCode::FAILURE
        }
    }
}

fn file(name: &str) -> Result<Vec<u8>, String> {
    let mut bytes = Vec::new();
    if name == "-" {
        std::io::stdin().read_to_end(&mut bytes).map_err(|error| error.to_string())?;
        return Ok(bytes);
    }
    std::fs::read(name).map_err(|error| format!("{name}: {error}"))
}

/// Ends a run in which a call does not return.
fn watch() {
    std::thread::spawn(|| {
        let mut last = (CALLS.load(Ordering::Relaxed), Instant::now());
        loop {
            std::thread::sleep(Duration::from_secs(1));
            let now = CALLS.load(Ordering::Relaxed);
            if now != last.0 {
                last = (now, Instant::now());
            } else if last.1.elapsed() > Duration::from_secs(120) {
                println!("FAILED: a call has not returned for two minutes; --trace tells which");
                std::process::exit(1);
            }
        }
    });
}

fn tester(options: &Options) -> Tester {
    let mut tester = Tester::new(options.seed);
    (tester.patience, tester.trace) = (options.patience, options.trace);
    tester
}

fn generated(tester: &mut Tester, options: &Options, index: u64) {
    let case = gen::case(options.seed, index);
    tester.label = format!("book {index} of seed {} ({})", options.seed, case.name);
    tester.rng = gen::Rng::new(options.seed ^ 0x5eed, index);
    tester.book(&case.file, case.shape);
}

fn run(options: &Options) -> Result<(), String> {
    let begun = Instant::now();
    watch();
    let mut fixed = tester(options);
    cases::run(&mut fixed);
    let mut tester = tester(options);
    for index in 0..options.books.unwrap_or(24_000) {
        if fixed.done() || tester.done() {
            break;
        }
        generated(&mut tester, options, index);
    }
    let (all, fix) = (&tester.tally, &fixed.tally);
    let different = all.seen.len() as u64;
    let failures = all.failures + fix.failures;
    println!(
        "books {} (different {different}), damaged {}, lines {}, rings {}; fixed books {} (damaged {}); \
         plans {}, checks {}; seed {}; seconds {:.1}; failures {failures}",
        all.books,
        all.damaged,
        all.lines,
        all.rings,
        fix.books,
        fix.damaged,
        all.plans + fix.plans,
        all.checks + fix.checks,
        options.seed,
        begun.elapsed().as_secs_f64(),
    );
    if failures > 0 {
        return Err(format!("{failures} failures"));
    }
    if different < options.least {
        return Err(format!("only {different} different books ran, and {} were asked for", options.least));
    }
    if 2 * all.damaged < all.books {
        return Err("fewer than half of the books were damaged".to_string());
    }
    Ok(())
}

fn verdict_of(tester: &Tester) -> Result<(), String> {
    match tester.tally.failures {
        0 => Ok(println!("plans {}, checks {}, failures 0", tester.tally.plans, tester.tally.checks)),
        count => Err(format!("{count} failures")),
    }
}

fn one(options: &Options, index: &str) -> Result<(), String> {
    let index = index.parse().map_err(|_| format!("{index} is no number"))?;
    let mut tester = tester(options);
    generated(&mut tester, options, index);
    verdict_of(&tester)
}

fn try_book(options: &Options, name: &str) -> Result<(), String> {
    let bytes = file(name)?;
    let shape = if bytes.get(1) == Some(&2) { Shape::Ring } else { Shape::Line };
    let mut tester = tester(options);
    tester.label = name.to_string();
    tester.book(&bytes, shape);
    verdict_of(&tester)
}

fn print(name: &str) -> Result<(), String> {
    let (text, others) = text::print(&file(name)?);
    print!("{text}");
    if others {
        eprintln!("note: another best set exists, so another text may be right too");
    }
    Ok(())
}

fn judge(name: &str, text: &str) -> Result<(), String> {
    text::judge_text(&file(name)?, &file(text)?)
}

fn generate(options: &Options, count: &str, dir: &str) -> Result<(), String> {
    let count: u64 = count.parse().map_err(|_| format!("{count} is no number"))?;
    std::fs::create_dir_all(dir).map_err(|error| format!("{dir}: {error}"))?;
    for index in 0..count {
        let name = format!("{dir}/{index:06}.book");
        std::fs::write(&name, gen::case(options.seed, index).file)
            .map_err(|error| format!("{name}: {error}"))?;
    }
    Ok(())
}

/// What a printing program writes when a book comes to it in pieces.
fn printed(program: &str, book: &[u8], rng: &mut gen::Rng) -> Result<Vec<u8>, String> {
    let mut child = Command::new(program)
        .stdin(Stdio::piped())
        .stdout(Stdio::piped())
        .spawn()
        .map_err(|error| format!("{program}: {error}"))?;
    let mut input = child.stdin.take().expect("a pipe was asked for");
    let mut rest = book;
    while !rest.is_empty() {
        let piece = if rng.one_in(2) { rest.len() } else { rng.within(1, rest.len()) };
        // A program that has seen enough may close its end early.
        if input.write_all(&rest[..piece]).is_err() {
            break;
        }
        rest = &rest[piece..];
        if rng.one_in(8) {
            std::thread::sleep(Duration::from_millis(2));
        }
    }
    drop(input);
    let output = child.wait_with_output().map_err(|error| error.to_string())?;
    Ok(output.stdout)
}

fn drive(options: &Options, program: &str) -> Result<(), String> {
    let books = options.books.unwrap_or(2000);
    let (mut ran, mut refused, mut failures) = (0, 0, 0);
    for index in 0..books {
        let case = gen::case(options.seed, index);
        let output = printed(program, &case.file, &mut gen::Rng::new(options.seed, !index))?;
        ran += 1;
        refused += u64::from(output.starts_with(b"refused"));
        if let Err(what) = text::judge_text(&case.file, &output) {
            failures += 1;
            println!("FAILED book {index} of seed {} ({}): {what}", options.seed, case.name);
            println!("  book {}", case.file.iter().map(|byte| format!("{byte:02x}")).collect::<String>());
            println!("  text {:?}", String::from_utf8_lossy(&output));
        }
        if failures >= options.patience {
            break;
        }
    }
    println!("printed {ran}, refused {refused}, failures {failures}");
    if failures > 0 {
        Err(format!("{failures} failures"))
    } else {
        Ok(())
    }
}

/// Runs the tests against each mistake of the stand-in until one notices.
#[cfg(standalone)]
fn mistakes(options: &Options) -> Result<(), String> {
    let mut unseen = Vec::new();
    for &mistake in standin::MISTAKES {
        standin::make(Some(mistake));
        let mut fixed = Tester::new(options.seed);
        (fixed.quiet, fixed.patience) = (true, 1);
        cases::run(&mut fixed);
        let mut tester = Tester::new(options.seed);
        (tester.quiet, tester.patience) = (true, 1);
        let mut index = 0;
        while index < 4000 && !tester.done() {
            generated(&mut tester, options, index);
            index += 1;
        }
        let by = |tester: &Tester| tester.first.clone().unwrap_or("-".to_string());
        println!("{mistake:?}\n  fixed     {}\n  generated {}", by(&fixed), by(&tester));
        if !tester.done() && !fixed.done() {
            unseen.push(mistake);
        }
    }
    println!("mistakes {}, unseen {unseen:?}", standin::MISTAKES.len());
    if unseen.is_empty() {
        Ok(())
    } else {
        Err("some mistakes were not seen".to_string())
    }
}
