//! The two calls of a table for a program in another language, as `host/csv-peer`: requests on
//! standard input, answers on standard output, until the input ends. Numbers are big-endian.
//!
//! A request is a letter, `e` for export or `i` for import, a length (4 bytes) and so many bytes: a
//! run of entries, or a file. An answer is the refusal's number or 0 (1 byte), with 13 the bad row,
//! its field, what is wrong with that and where it begins (8 bytes each, else 0), then a length (4
//! bytes) and so many bytes: a file, or a run of entries.

use std::io::{self, ErrorKind, Read, Write};
use whitherhaul::raw;

/// More than the header or a row takes.
const ROW: usize = 100;

/// More than an entry of a run takes for each byte of a file: no row has fewer than 13.
const EACH: usize = 3;

struct Answer {
    code: u8,
    bad: [u64; 4],
    bytes: Vec<u8>,
}

fn main() -> io::Result<()> {
    let (mut input, mut output) = (io::stdin().lock(), io::stdout().lock());
    while let Some((call, bytes)) = request(&mut input)? {
        let answer = match call {
            b'e' => export(&bytes),
            b'i' => import(&bytes),
            _ => return Err(io::Error::new(ErrorKind::InvalidData, "neither e nor i")),
        };
        send(&mut output, &answer)?;
    }
    Ok(())
}

fn request(input: &mut impl Read) -> io::Result<Option<(u8, Vec<u8>)>> {
    let mut front = [0; 5];
    if input.read(&mut front[..1])? == 0 {
        return Ok(None);
    }
    input.read_exact(&mut front[1..])?;
    let [call, length @ ..] = front;
    let mut bytes = vec![0; u32::from_be_bytes(length) as usize];
    input.read_exact(&mut bytes)?;
    Ok(Some((call, bytes)))
}

fn export(run: &[u8]) -> Answer {
    let mut bytes = vec![0; ROW * (1 + run.len() / 32)];
    let (code, length) = raw::csv_export(run, &mut bytes);
    bytes.truncate(length);
    let bad = [0; 4];
    Answer { code, bad, bytes }
}

fn import(file: &[u8]) -> Answer {
    let mut bytes = vec![0; EACH * file.len()];
    let (code, [entries, bad @ ..]) = raw::csv_import(file, &mut bytes);
    bytes.truncate(32 * entries as usize);
    Answer { code, bad, bytes }
}

fn send(output: &mut impl Write, answer: &Answer) -> io::Result<()> {
    let mut sent = vec![answer.code];
    sent.extend(answer.bad.iter().flat_map(|number| number.to_be_bytes()));
    sent.extend((answer.bytes.len() as u32).to_be_bytes());
    sent.extend(&answer.bytes);
    output.write_all(&sent)?;
    output.flush()
}
