//! The program that scripts/bench times, over the Rust crate encoding_rs: `peer FROM TO` recodes
//! standard input as `recode FROM TO` does. The buffers are the same too: it reads 64 KiB at a time,
//! decodes into 64 KiB, encodes into 64 KiB, and writes the output of each call. The status is 0, 1
//! where something was replaced, and 2 where a label is unknown.
use encoding_rs::{CoderResult, Decoder, Encoder, Encoding, UTF_8};
use std::fs::File;
use std::io::{self, Read, Write};
use std::os::fd::{AsFd, BorrowedFd};
use std::process::ExitCode;

/// How many bytes the buffers of `recode` have.
const BUFFER: usize = 64 << 10;

/// The file of a standard stream, without the stream's own buffer.
fn unbuffered(stream: BorrowedFd<'_>) -> io::Result<File> {
    Ok(File::from(stream.try_clone_to_owned()?))
}

/// The outcome of a call: the result, the units read and written, and whether something was replaced.
type Outcome = (CoderResult, usize, usize, bool);

/// Calls from the unit that is unread on, as often as it takes, and writes the output of each call. Returns whether
/// something was replaced.
fn write_all(
    output: &mut [u8],
    writer: &mut File,
    mut call: impl FnMut(usize, &mut [u8]) -> Outcome,
) -> io::Result<bool> {
    let (mut at, mut replaced) = (0, false);
    loop {
        let (result, read, written, more) = call(at, output);
        writer.write_all(&output[..written])?;
        at += read;
        replaced |= more;
        if result == CoderResult::InputEmpty {
            return Ok(replaced);
        }
    }
}

/// Decodes all that is read, to UTF-8.
fn decode_all(decoder: &mut Decoder, mut reader: File, mut writer: File) -> io::Result<bool> {
    let (mut input, mut output) = (vec![0; BUFFER], vec![0; BUFFER]);
    let mut replaced = false;
    loop {
        let count = reader.read(&mut input)?;
        replaced |= write_all(&mut output, &mut writer, |at, out| {
            decoder.decode_to_utf8(&input[at..count], out, count == 0)
        })?;
        if count == 0 {
            return Ok(replaced);
        }
    }
}

/// Decodes all that is read, and encodes its text.
fn recode_all(decoder: &mut Decoder, encoder: &mut Encoder, mut reader: File, mut writer: File) -> io::Result<bool> {
    let (mut input, mut bytes) = (vec![0; BUFFER], vec![0; BUFFER]);
    let mut buffer = "\0".repeat(BUFFER);
    let mut replaced = false;
    loop {
        let count = reader.read(&mut input)?;
        let mut rest = &input[..count];
        loop {
            let (result, read, written, more) = decoder.decode_to_str(rest, &mut buffer, count == 0);
            let (text, last) = (&buffer[..written], count == 0 && result == CoderResult::InputEmpty);
            replaced |= more;
            replaced |= write_all(&mut bytes, &mut writer, |at, out| encoder.encode_from_utf8(&text[at..], out, last))?;
            rest = &rest[read..];
            if result == CoderResult::InputEmpty {
                break;
            }
        }
        if count == 0 {
            return Ok(replaced);
        }
    }
}

fn main() -> io::Result<ExitCode> {
    let labels = [1, 2].map(|place| std::env::args().nth(place).unwrap_or_default());
    let [source, target] = labels.map(|label| Encoding::for_label_no_replacement(label.as_bytes()));
    let reader = unbuffered(io::stdin().as_fd())?;
    let writer = unbuffered(io::stdout().as_fd())?;
    let replaced = match (source, target.map(Encoding::output_encoding)) {
        (Some(source), Some(target)) if target == UTF_8 => {
            decode_all(&mut source.new_decoder(), reader, writer)
        }
        (Some(source), Some(target)) => {
            recode_all(&mut source.new_decoder(), &mut target.new_encoder(), reader, writer)
        }
        _ => return Ok(ExitCode::from(2)),
    };
    Ok(ExitCode::from(u8::from(replaced?)))
}
