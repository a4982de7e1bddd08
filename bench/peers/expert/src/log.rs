//! A log of posts and withdrawals in one file, each synced before it is answered. It is written as an expert would write it; nothing reads
//! it back.
use crate::names::Names;
use crate::rows::Row;
use std::fs::{File, OpenOptions};
use std::io;
use std::os::unix::fs::FileExt;

/// The kinds of entries.
const POST: u8 = 1;
const WITHDRAWAL: u8 = 4;

pub struct Log {
    file: File,
    end: u64,
    /// Whether an entry is one sync, or two with the byte that makes it count between them.
    has_gates: bool,
    /// How many texts and lists of tags stand in the log.
    texts: usize,
    tags: usize,
    frame: Vec<u8>,
}

impl Log {
    pub fn create(path: &str, has_gates: bool) -> io::Result<Log> {
        let file = OpenOptions::new().write(true).create(true).truncate(true).open(path)?;
        Ok(Log {
            file,
            end: 0,
            has_gates,
            texts: 0,
            tags: 0,
            frame: Vec::new(),
        })
    }

    /// Appends a post: its origin and number, the texts and lists of tags that came with it, and its rows in 64 bytes each.
    pub fn append(&mut self, origin: &[u8], number: u64, rows: &[Row], names: &Names) -> io::Result<()> {
        let mut frame = self.begin(POST, origin, number);
        put_count(&mut frame, names.texts().len() - self.texts);
        for text in &names.texts()[self.texts..] {
            put_text(&mut frame, text.as_bytes());
        }
        put_count(&mut frame, names.lists().len() - self.tags);
        for list in &names.lists()[self.tags..] {
            put_count(&mut frame, list.len());
            for (key, word) in list {
                frame.extend(key.to_le_bytes());
                frame.extend(word.to_le_bytes());
            }
        }
        put_count(&mut frame, rows.len());
        rows.iter().for_each(|row| put_row(&mut frame, row));
        self.finish(frame)?;
        (self.texts, self.tags) = (names.texts().len(), names.lists().len());
        Ok(())
    }

    /// Appends a withdrawal: its origin and number, and the number of the post.
    pub fn append_withdrawal(&mut self, origin: &[u8], number: u64, target: u64) -> io::Result<()> {
        let mut frame = self.begin(WITHDRAWAL, origin, number);
        frame.extend(target.to_le_bytes());
        self.finish(frame)
    }

    /// The frame of an entry up to its content.
    fn begin(&mut self, kind: u8, origin: &[u8], number: u64) -> Vec<u8> {
        let mut frame = std::mem::take(&mut self.frame);
        frame.clear();
        frame.extend([0; 8]);
        put_text(&mut frame, origin);
        frame.extend(number.to_le_bytes());
        frame.push(kind);
        frame
    }

    /// Writes a frame at the end.
    fn finish(&mut self, mut frame: Vec<u8>) -> io::Result<()> {
        let length = (frame.len() - 8) as u32;
        frame[4..8].copy_from_slice(&length.to_le_bytes());
        self.write(&frame)?;
        self.end += frame.len() as u64;
        self.frame = frame;
        Ok(())
    }

    fn write(&mut self, frame: &[u8]) -> io::Result<()> {
        if !self.has_gates {
            self.file.write_all_at(frame, self.end)?;
            return self.file.sync_data();
        }
        self.file.write_all_at(&frame[1..], self.end + 1)?;
        self.file.sync_data()?;
        self.file.write_all_at(&[1], self.end)?;
        self.file.sync_data()
    }
}

fn put_count(frame: &mut Vec<u8>, count: usize) {
    frame.extend((count as u32).to_le_bytes());
}

fn put_text(frame: &mut Vec<u8>, text: &[u8]) {
    put_count(frame, text.len());
    frame.extend(text);
}

fn put_row(frame: &mut Vec<u8>, row: &Row) {
    for amount in [row.billed, row.effective, row.quantity.unwrap_or(i64::MIN), row.start, row.end] {
        frame.extend(amount.to_le_bytes());
    }
    for number in [row.discount, row.unit, row.sku, row.sub_account, row.tags] {
        frame.extend(number.to_le_bytes());
    }
    let used = row.is_used.map_or(0, |is_used| 1 + u8::from(is_used));
    frame.extend([row.category as u8, u8::from(row.is_correction), u8::from(row.is_spend), used]);
}
