//! Running the program recode on an input.
use peer::oracle::Answer;
use std::fs::File;
use std::io::{self, Read, Write};
use std::path::PathBuf;
use std::process::{Child, ChildStdin, Command, Stdio};
use std::thread;
use std::time::Duration;

/// FROM and TO.
pub type Labels<'a> = [&'a str; 2];

/// How the program is given its input.
#[derive(Clone, Copy)]
pub enum Delivery {
    /// A file.
    File,
    /// A pipe, written at once.
    Pipe,
    /// A pipe, written in pieces of these sizes in turn.
    Pieces(&'static [usize]),
    /// The same, with a pause after each piece, so that the program mostly reads one at a time.
    Slow(&'static [usize]),
}

/// The number of bytes that fit into a pipe before anything is read.
const PIPE: usize = 4096;

/// The program, with a file of its own for its inputs.
pub struct Recode {
    pub program: PathBuf,
    pub file: PathBuf,
}

impl Recode {
    /// What `recode FROM TO` makes of the input.
    pub fn run(&self, labels: Labels, input: &[u8], delivery: Delivery) -> io::Result<Answer> {
        match delivery {
            Delivery::File => {
                std::fs::write(&self.file, input)?;
                finish(self.start(labels, Stdio::from(File::open(&self.file)?))?)
            }
            Delivery::Pipe if input.len() <= PIPE => {
                let mut child = self.start(labels, Stdio::piped())?;
                write_pieces(child.stdin.take(), input, &[PIPE], Duration::ZERO);
                finish(child)
            }
            Delivery::Pipe => self.run_beside(labels, input, &[usize::MAX], Duration::ZERO),
            Delivery::Pieces(sizes) => self.run_beside(labels, input, sizes, Duration::ZERO),
            Delivery::Slow(sizes) => self.run_beside(labels, input, sizes, Duration::from_micros(100)),
        }
    }

    fn start(&self, labels: Labels, stdin: Stdio) -> io::Result<Child> {
        let mut command = Command::new(&self.program);
        command.args(labels).stdin(stdin).stdout(Stdio::piped()).stderr(Stdio::null());
        command.spawn()
    }

    /// Writes in a thread beside the one that reads, so that neither waits for ever.
    fn run_beside(&self, labels: Labels, input: &[u8], sizes: &[usize], pause: Duration) -> io::Result<Answer> {
        let mut child = self.start(labels, Stdio::piped())?;
        let stdin = child.stdin.take();
        thread::scope(|scope| {
            scope.spawn(|| write_pieces(stdin, input, sizes, pause));
            finish(child)
        })
    }
}

/// Writes the input and closes the pipe. The answer of a program shows whether it has read no further.
fn write_pieces(mut stdin: Option<ChildStdin>, input: &[u8], sizes: &[usize], pause: Duration) {
    let mut rest = input;
    for size in sizes.iter().cycle() {
        let (piece, after) = rest.split_at(rest.len().min(*size));
        let written = stdin.as_mut().map(|pipe| pipe.write_all(piece));
        if piece.is_empty() || !matches!(written, Some(Ok(()))) {
            return;
        }
        rest = after;
        if !pause.is_zero() {
            thread::sleep(pause);
        }
    }
}

fn finish(mut child: Child) -> io::Result<Answer> {
    let mut text = Vec::new();
    if let Some(stdout) = child.stdout.as_mut() {
        stdout.read_to_end(&mut text)?;
    }
    // a signal is no status of recode's
    let status = child.wait()?.code().unwrap_or(-1);
    Ok(Answer { text, status })
}
