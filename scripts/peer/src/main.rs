//! peer RECODE FOLDER SEED JOBS full|quick: compares `recode FROM TO` with the Rust crate encoding_rs, output and
//! status: first from every encoding to UTF-8, and then from every one to every one. RECODE is the program, and FOLDER
//! is for its inputs. The status is 0 where nothing differs, 1 where something does, and 2 or 3 where the arguments are
//! wrong or a program could not be run.
mod comparison;
mod hostile;
mod pairs;
mod recode;
mod sequences;

use comparison::{hex, Comparison};
use encoding_rs::{Encoding, GB18030, GBK, REPLACEMENT, UTF_16BE, UTF_16LE, UTF_8};
use peer::tokens;
use recode::{Delivery, Recode};
use std::io;
use std::path::PathBuf;
use std::process::ExitCode;
use std::sync::atomic::{AtomicUsize, Ordering};
use std::sync::Mutex;
use std::thread;

/// All encodings but replacement, those first that take longest.
#[rustfmt::skip]
const ENCODINGS: [&str; 39] = [
    "gb18030", "GBK", "EUC-JP", "ISO-2022-JP", "UTF-8", "UTF-16BE", "UTF-16LE", "Big5", "Shift_JIS", "EUC-KR",
    "IBM866", "ISO-8859-2", "ISO-8859-3", "ISO-8859-4", "ISO-8859-5", "ISO-8859-6", "ISO-8859-7", "ISO-8859-8",
    "ISO-8859-8-I", "ISO-8859-10", "ISO-8859-13", "ISO-8859-14", "ISO-8859-15", "ISO-8859-16", "KOI8-R", "KOI8-U",
    "macintosh", "windows-874", "windows-1250", "windows-1251", "windows-1252", "windows-1253", "windows-1254",
    "windows-1255", "windows-1256", "windows-1257", "windows-1258", "x-mac-cyrillic", "x-user-defined",
];

/// The labels of replacement. None of them is one to decode from, or to write.
const REPLACEMENT_LABELS: [&str; 6] =
    ["csiso2022kr", "hz-gb-2312", "iso-2022-cn", "iso-2022-cn-ext", "iso-2022-kr", "replacement"];

/// What the arguments say.
struct Settings {
    program: PathBuf,
    folder: PathBuf,
    seed: u64,
    jobs: usize,
    quick: bool,
}

impl Settings {
    fn recode(&self, name: &str) -> Recode {
        Recode { program: self.program.clone(), file: self.folder.join(name) }
    }
}

/// How many inputs were alike, and how many differ.
#[derive(Default)]
struct Totals {
    alike: u64,
    differ: u64,
    sequences: u64,
    bytes: u64,
    /// The lines of encodings, by their place in the table, as soon as they are there.
    lines: Vec<Option<String>>,
    /// How many of the lines are printed.
    printed: usize,
}

impl Totals {
    fn count(&mut self, alike: bool) {
        if alike {
            self.alike += 1;
        } else {
            self.differ += 1;
        }
    }

    /// Adds an encoding, and prints the lines that are next.
    fn add(&mut self, place: usize, comparison: &Comparison) {
        let Comparison { encoding, to, inputs, sequences, bytes, differ, report, .. } = comparison;
        self.alike += inputs - differ;
        self.differ += differ;
        self.sequences += sequences;
        self.bytes += bytes;
        let name = if place < ENCODINGS.len() { encoding.name().to_string() } else { format!("to {}", to.name()) };
        let counts = format!("{inputs:>7} inputs {sequences:>9} sequences {bytes:>11} bytes {differ:>5} differ");
        self.lines.resize(2 * ENCODINGS.len(), None);
        self.lines[place] = Some(format!("{name:<17} {counts}\n{report}"));
        while let Some(Some(line)) = self.lines.get(self.printed) {
            print!("{line}");
            self.printed += 1;
        }
    }
}

fn main() -> ExitCode {
    match settings().map(|settings| compare_all(&settings)) {
        Some(Ok(0)) => ExitCode::SUCCESS,
        Some(Ok(_)) => ExitCode::FAILURE,
        Some(Err(error)) => {
            eprintln!("peer: {error}");
            ExitCode::from(3)
        }
        None => {
            eprintln!("peer RECODE FOLDER SEED JOBS full|quick");
            ExitCode::from(2)
        }
    }
}

fn settings() -> Option<Settings> {
    let arguments: Vec<String> = std::env::args().skip(1).collect();
    match &arguments[..] {
        [program, folder, seed, jobs, extent] => Some(Settings {
            program: PathBuf::from(program),
            folder: PathBuf::from(folder),
            seed: seed.parse().ok()?,
            jobs: jobs.parse().ok().filter(|jobs| *jobs > 0)?,
            quick: extent == "quick",
        }),
        _ => None,
    }
}

/// Compares all, and answers how many inputs differ.
fn compare_all(settings: &Settings) -> io::Result<u64> {
    let mut totals = Totals::default();
    compare_replacement(settings, &mut totals)?;
    let next = AtomicUsize::new(0);
    let sum = Mutex::new(totals);
    thread::scope(|scope| {
        let workers: Vec<_> = (0..settings.jobs).map(|_| scope.spawn(|| work(settings, &next, &sum))).collect();
        workers.into_iter().try_for_each(|worker| worker.join().unwrap_or(Err(io::ErrorKind::Other.into())))
    })?;
    let totals = sum.into_inner().map_err(|_| io::ErrorKind::Other)?;
    println!("{} sequences in joined inputs, {} bytes in all", totals.sequences, totals.bytes);
    println!("compare-crate: {} inputs alike, {} differ", totals.alike, totals.differ);
    Ok(totals.differ)
}

/// Takes the next encoding, to decode from and then to write, until there is none.
fn work(settings: &Settings, next: &AtomicUsize, sum: &Mutex<Totals>) -> io::Result<()> {
    let mut place = next.fetch_add(1, Ordering::Relaxed);
    while let Some(name) = ENCODINGS.iter().chain(&ENCODINGS).nth(place) {
        let decodes = place < ENCODINGS.len();
        let comparison = if decodes { compare_encoding(settings, name)? } else { compare_output(settings, name)? };
        sum.lock().map_err(|_| io::ErrorKind::Other)?.add(place, &comparison);
        place = next.fetch_add(1, Ordering::Relaxed);
    }
    Ok(())
}

/// The encoding of a name. Every name above is the label of one in the crate.
fn encoding_of(name: &str) -> io::Result<&'static Encoding> {
    Encoding::for_label_no_replacement(name.as_bytes()).ok_or(io::ErrorKind::NotFound.into())
}

fn compare_encoding(settings: &Settings, name: &str) -> io::Result<Comparison> {
    let mut comparison = Comparison::new(encoding_of(name)?, UTF_8, settings.recode(name));
    let (few, seed) = (if settings.quick { 10 } else { 1 }, settings.seed);
    compare_sequences(&mut comparison, settings)?;
    hostile::alone(&mut comparison, 600 / few, seed + 10)?;
    hostile::marks(&mut comparison, 20 / few, seed + 11)?;
    hostile::random(&mut comparison, 200 / few, 12 / few, seed + 12)?;
    hostile::boundaries(&mut comparison, seed + 13)?;
    hostile::pieces(&mut comparison, seed + 14)?;
    Ok(comparison)
}

/// From every encoding to this one.
fn compare_output(settings: &Settings, name: &str) -> io::Result<Comparison> {
    let mut comparison = Comparison::new(UTF_8, encoding_of(name)?, settings.recode(&format!("to-{name}")));
    let (rounds, seed) = (if settings.quick { 1 } else { 4 }, settings.seed);
    pairs::every_character(&mut comparison)?;
    pairs::long(&mut comparison, settings.quick, seed + 20)?;
    for from in ENCODINGS {
        comparison.encoding = encoding_of(from)?;
        pairs::short(&mut comparison, rounds, seed + 21)?;
    }
    Ok(comparison)
}

/// Every sequence of one and two bytes, and of three where the encoding isn't single-byte, and samples of longer ones.
fn compare_sequences(comparison: &mut Comparison, settings: &Settings) -> io::Result<()> {
    let (encoding, seed) = (comparison.encoding, settings.seed);
    let count = if settings.quick { 20_000 } else { 200_000 };
    sequences::every(comparison, b"", 1)?;
    sequences::every(comparison, b"", 2)?;
    for front in tokens::fronts(encoding) {
        sequences::every(comparison, front, 2)?;
    }
    if settings.quick || encoding.is_single_byte() {
        sequences::sample(comparison, 3, count, seed)?;
    } else {
        sequences::every(comparison, b"", 3)?;
    }
    sequences::sample(comparison, 4, count, seed + 1)?;
    sequences::every_of_tokens(comparison, if settings.quick { 3 } else { 4 })?;
    sequences::sample_of_tokens(comparison, 12, count, seed + 2)?;
    if encoding == GB18030 || encoding == GBK {
        sequences::every_four_of_gb18030(comparison)?;
    } else if encoding == UTF_8 {
        sequences::every_four_of_utf_8(comparison)?;
    } else if encoding == UTF_16BE || encoding == UTF_16LE {
        sequences::every_pair_of_surrogates(comparison)?;
    }
    Ok(())
}

/// The labels of replacement are refused with the status 2, and the crate knows none of them as one to decode from.
fn compare_replacement(settings: &Settings, totals: &mut Totals) -> io::Result<()> {
    let recode = settings.recode("replacement");
    for label in REPLACEMENT_LABELS {
        let refused = Encoding::for_label(label.as_bytes()) == Some(REPLACEMENT)
            && Encoding::for_label_no_replacement(label.as_bytes()).is_none();
        for [from, to] in [[label, "utf-8"], ["utf-8", label]] {
            let answer = recode.run([from, to], b"a", Delivery::Pipe)?;
            let alike = refused && answer.status == 2 && answer.text.is_empty();
            totals.count(alike);
            if !alike {
                println!("  {from} to {to}: status {}, output {}", answer.status, hex(&answer.text));
            }
        }
    }
    println!("replacement: {} labels, with status 2 each, to decode from and to write", REPLACEMENT_LABELS.len());
    Ok(())
}
