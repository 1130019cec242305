//! A log in one file, with an index and a head, on the patch cache: in which order its blocks are written is the cache's
//! alone. It is `examples/log_engine.c` once more, and each reads the other's files.
//!
//! ```text
//! printf '%s\n' one two '' three | cargo run --example log_engine log.disk
//! ```
//!
//! says which records the file has, and appends the lines of its input, each a record. An empty line, and the end, sync
//! it: `synced`.
//!
//! Block 0 begins with how many records there are, block 1 has the place where each of them ends, and the others their
//! bytes. A record is some patches: its bytes, then its place, then the head, each after the one before. So whatever a cut
//! of the power leaves, all that the head counts is there and whole: opening reads the head, and there is nothing to
//! repair.

use fstch::cache::{Cache, BLOCK};
use std::fs::File;
use std::io::{self, BufRead, Write};
use std::os::unix::fs::FileExt;
use std::{env, error};

type Result<T> = std::result::Result<T, Box<dyn error::Error>>;

const HEAD: u32 = 0;
const INDEX: u32 = 1;
const LOG: u32 = 2;
const BLOCKS: u32 = 64;
const PLACE: usize = 4;
const MOST: usize = BLOCK / PLACE;
const ROOM: usize = (BLOCKS - LOG) as usize * BLOCK;

struct Engine {
    cache: Cache,
    file: File,
    count: usize, // of records
    end: usize,   // of their bytes
}

impl Engine {
    /// A new file is zeros, and so a log of no records. What it shows is synced first, so that it lasts.
    fn open(path: &str) -> Result<Engine> {
        let file = File::options().read(true).write(true).create(true).truncate(false).open(path)?;
        file.set_len(u64::from(BLOCKS) * BLOCK as u64)?;
        file.sync_all()?;
        let mut log = Engine { cache: Cache::open(BLOCKS)?, file, count: 0, end: 0 };
        log.count = log.number(HEAD, 0)?;
        log.end = log.end_of(log.count)?;
        Ok(log)
    }

    /// Hands a block to the cache, which may not have it yet.
    fn need(&mut self, block: u32) -> Result<()> {
        if !self.cache.is_resident(block)? {
            let mut bytes = [0; BLOCK];
            self.file.read_exact_at(&mut bytes, u64::from(block) * BLOCK as u64)?;
            self.cache.admit(block, &bytes)?;
        }
        Ok(())
    }

    fn lay(&mut self, block: u32, start: usize, bytes: &[u8], after: &[u32]) -> Result<u32> {
        self.need(block)?;
        Ok(self.cache.patch(block, start, bytes, after)?)
    }

    fn append(&mut self, record: &[u8]) -> Result<()> {
        if self.count == MOST || record.len() > ROOM - self.end {
            return Err("the log is full".into());
        }
        let (mut parts, mut end, mut rest) = (Vec::new(), self.end, record);
        while !rest.is_empty() {
            let (part, behind) = rest.split_at(rest.len().min(BLOCK - end % BLOCK));
            parts.push(self.lay(LOG + (end / BLOCK) as u32, end % BLOCK, part, &[])?);
            (end, rest) = (end + part.len(), behind);
        }
        let place = self.lay(INDEX, self.count * PLACE, &(end as u32).to_ne_bytes(), &parts)?;
        self.lay(HEAD, 0, &(self.count as u32 + 1).to_ne_bytes(), &[place])?;
        (self.count, self.end) = (self.count + 1, end);
        Ok(())
    }

    /// Writes one wave after another, and syncs the file behind each, before any of it is completed. Full blocks aren't
    /// kept.
    fn flush(&mut self) -> Result<()> {
        loop {
            let mut wave = Vec::new();
            while let Some(block) = self.cache.next()? {
                let flight = self.cache.send(block)?;
                self.file.write_all_at(flight.image(), u64::from(block) * BLOCK as u64)?;
                wave.push(flight);
            }
            if wave.is_empty() {
                break;
            }
            self.file.sync_data()?;
            for flight in wave {
                self.cache.complete(flight)?;
            }
        }
        for block in LOG..LOG + (self.end / BLOCK) as u32 {
            if self.cache.is_resident(block)? {
                self.cache.evict(block)?;
            }
        }
        Ok(self.cache.renew()?)
    }

    fn number(&mut self, block: u32, start: usize) -> Result<usize> {
        let mut bytes = [0; PLACE];
        self.need(block)?;
        self.cache.read(block, start, &mut bytes)?;
        Ok(u32::from_ne_bytes(bytes) as usize)
    }

    /// Where the first so many records end.
    fn end_of(&mut self, count: usize) -> Result<usize> {
        count.checked_sub(1).map_or(Ok(0), |last| self.number(INDEX, last * PLACE))
    }

    fn record(&mut self, number: usize) -> Result<Vec<u8>> {
        let mut record = Vec::new();
        for place in self.end_of(number)?..self.end_of(number + 1)? {
            let (block, mut byte) = (LOG + (place / BLOCK) as u32, [0]);
            self.need(block)?;
            self.cache.read(block, place % BLOCK, &mut byte)?;
            record.extend(byte);
        }
        Ok(record)
    }
}

fn main() -> Result<()> {
    let path = env::args().nth(1).ok_or("which file?")?;
    let mut log = Engine::open(&path)?;
    let mut out = io::stdout();
    for number in 0..log.count {
        out.write_all(&log.record(number)?)?;
        out.write_all(b"\n")?;
    }
    for line in io::stdin().lock().split(b'\n').chain([Ok(Vec::new())]) {
        match &*line? {
            [] => {
                log.flush()?;
                out.write_all(b"synced\n")?;
            }
            record => log.append(record)?,
        }
    }
    Ok(())
}
