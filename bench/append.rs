//! Appends the bytes of a file to another one in batches of lines, and syncs each batch. It is the plain peer of bench/log.sh.
//!
//!     append FROM TO zeros|longer waits|never SPARE BATCH
//!
//! With `zeros` the batches are written over zeros that were synced before, as the log does; with `longer` each makes the file longer.
//! Prints how, the lines of a batch, all lines and bytes, and the nanoseconds.
use std::fs::{File, OpenOptions};
use std::io::Result;
use std::os::unix::fs::FileExt;
use std::time::Instant;

fn batches(text: &[u8], lines: usize) -> Vec<&[u8]> {
    let mut found = Vec::new();
    let (mut start, mut count) = (0, 0);
    for (place, byte) in text.iter().enumerate() {
        if *byte == b'\n' {
            count += 1;
            if count % lines == 0 {
                found.push(&text[start..=place]);
                start = place + 1;
            }
        }
    }
    found
}

struct Out {
    file: File,
    zeros: bool,
    waits: bool,
    spare: usize,
    length: usize,
    size: usize,
}

impl Out {
    fn sync(&self) -> Result<()> {
        if self.waits { self.file.sync_data() } else { Ok(()) }
    }

    fn append(&mut self, bytes: &[u8]) -> Result<()> {
        if self.zeros && self.size - self.length < bytes.len() {
            let more = vec![0; bytes.len() + self.spare];
            self.file.write_all_at(&more, self.size as u64)?;
            self.sync()?;
            self.size += more.len();
        }
        self.file.write_all_at(bytes, self.length as u64)?;
        self.length += bytes.len();
        self.sync()
    }
}

fn main() -> Result<()> {
    let words: Vec<String> = std::env::args().skip(1).collect();
    let [from, to, how, mode, spare, batch] = &words[..] else {
        println!("words: FROM TO zeros|longer waits|never SPARE BATCH");
        return Ok(());
    };
    let all = std::fs::read(from)?;
    let text = &all[..all.iter().position(|byte| *byte == 0).unwrap_or(all.len())];
    let lines: usize = batch.parse().expect("a number");
    let batches = batches(text, lines);
    let mut out = Out {
        file: OpenOptions::new().write(true).create(true).truncate(true).open(to)?,
        zeros: how == "zeros",
        waits: mode == "waits",
        spare: spare.parse().expect("a number"),
        length: 0,
        size: 0,
    };
    let start = Instant::now();
    for bytes in &batches {
        out.append(bytes)?;
    }
    let nanos = start.elapsed().as_nanos();
    println!("{how} {lines} {} {} {nanos}", batches.len() * lines, out.length);
    Ok(())
}
