//! The command `budget` of the office as a plain program: the same input, the same lines and
//! statuses, std alone, one thread, nothing proved. `bench` measures the proved program beside it.
//!
//!     rustc -O -C target-cpu=native -C panic=abort -o plain_budget plain_budget.rs
//!     plain_budget 0.999 0 67000000 < samples.csv
//!
//! Tuned by hand: the input is read in large pieces and parsed in place in one pass; a record that
//! is no plain line goes a slower way. A name is compared with the one that followed last time
//! before it is looked up. Cells stand in the order in which they came, 20 bytes each, and a table
//! of their numbers has the minutes of a quarter of an hour side by side.
use std::collections::HashMap;
use std::io::{self, Read, Write};
use std::process::exit;

const MOST_BYTES: usize = 67_108_864;
const MOST_CELLS: usize = 2_000_000;
const MOST_MINUTE: u64 = 67_108_863;
const MOST_COUNT: u64 = 1_000_000_000;
const PIECE: usize = 262_144;

#[derive(Clone, Copy)]
struct Cell {
    source: u32,
    minute: u32,
    revision: u32,
    good: u32,
    total: u32,
}

#[derive(Default)]
struct Book {
    numbers: HashMap<Vec<u8>, u32>,
    names: Vec<Vec<u8>>,
    // the name that followed a name last time
    followers: Vec<u32>,
    last: u32,
    cells: Vec<Cell>,
    // one more than a cell's place, 0 for none
    table: Vec<u32>,
    corrected: u64,
    repeated: u64,
    superseded: u64,
}

enum Fault {
    Word(&'static str),
    Conflict(u32, u32),
}

impl Book {
    fn number(&mut self, name: &[u8]) -> u32 {
        let last = self.last as usize;
        if let Some(&guess) = self.followers.get(last) {
            if self.names[guess as usize] == name {
                self.last = guess;
                return guess;
            }
        }
        let number = match self.numbers.get(name) {
            Some(&number) => number,
            None => {
                let number = self.names.len() as u32;
                self.numbers.insert(name.to_vec(), number);
                self.names.push(name.to_vec());
                self.followers.push(number);
                number
            }
        };
        if let Some(follower) = self.followers.get_mut(last) {
            *follower = number;
        }
        self.last = number;
        number
    }

    fn slot(&self, source: u32, minute: u32) -> usize {
        let page = (u64::from(source) << 32 | u64::from(minute >> 4)) + 1;
        let hash = (page.wrapping_mul(0x9E37_79B9_7F4A_7C15) >> 32) as usize;
        (hash << 4 | (minute & 15) as usize) & (self.table.len() - 1)
    }

    fn grow(&mut self) {
        let size = (self.table.len() * 2).max(1024);
        self.table = vec![0; size];
        for place in 0..self.cells.len() {
            let cell = self.cells[place];
            let mut slot = self.slot(cell.source, cell.minute);
            while self.table[slot] != 0 {
                slot = (slot + 1) & (size - 1);
            }
            self.table[slot] = place as u32 + 1;
        }
    }

    fn take(&mut self, row: Cell) -> Result<(), Fault> {
        if 4 * self.cells.len() >= 3 * self.table.len() {
            self.grow();
        }
        let mut slot = self.slot(row.source, row.minute);
        loop {
            let place = self.table[slot];
            if place == 0 {
                if self.cells.len() == MOST_CELLS {
                    return Err(Fault::Word("limit"));
                }
                self.cells.push(row);
                self.table[slot] = self.cells.len() as u32;
                return Ok(());
            }
            let kept = &mut self.cells[place as usize - 1];
            if kept.minute == row.minute && kept.source == row.source {
                if row.revision > kept.revision {
                    *kept = row;
                    self.corrected += 1;
                } else if row.revision < kept.revision {
                    self.superseded += 1;
                } else if kept.good == row.good && kept.total == row.total {
                    self.repeated += 1;
                } else {
                    return Err(Fault::Conflict(kept.good, kept.total));
                }
                return Ok(());
            }
            slot = (slot + 1) & (self.table.len() - 1);
        }
    }
}

fn is_label_byte(byte: u8) -> bool {
    byte.is_ascii_alphanumeric() || byte == b'.' || byte == b'_' || byte == b'-'
}

fn number(text: &[u8], most: u64) -> Option<u64> {
    if text.is_empty() {
        return None;
    }
    let mut value: u64 = 0;
    for &byte in text {
        if !byte.is_ascii_digit() {
            return None;
        }
        value = (value * 10 + u64::from(byte - b'0')).min(1 << 40);
    }
    if value <= most { Some(value) } else { None }
}

fn row(book: &mut Book, fields: &[&[u8]]) -> Result<Cell, Fault> {
    if fields.len() != 5 {
        return Err(Fault::Word("fields"));
    }
    let name = fields[0];
    if name.is_empty() || name.len() > 63 || !name.iter().all(|byte| is_label_byte(*byte)) {
        return Err(Fault::Word("source"));
    }
    let minute = number(fields[1], MOST_MINUTE).ok_or(Fault::Word("minute"))?;
    let revision = number(fields[2], MOST_COUNT).filter(|r| *r >= 1);
    let revision = revision.ok_or(Fault::Word("revision"))?;
    let good = number(fields[3], MOST_COUNT).ok_or(Fault::Word("counts"))?;
    let total = number(fields[4], MOST_COUNT).ok_or(Fault::Word("counts"))?;
    if good > total {
        return Err(Fault::Word("counts"));
    }
    Ok(Cell {
        source: book.number(name),
        minute: minute as u32,
        revision: revision as u32,
        good: good as u32,
        total: total as u32,
    })
}

/// Digits up to a byte: the number and the place behind that byte; none where it isn't so plain.
#[inline]
fn plain_number(text: &[u8], mut at: usize, end: u8, most: u64) -> Option<(u64, usize)> {
    let begin = at;
    let mut value: u64 = 0;
    while at < text.len() && at - begin < 11 {
        let digit = text[at].wrapping_sub(b'0');
        if digit > 9 {
            return if text[at] == end && at > begin && value <= most {
                Some((value, at + 1))
            } else {
                None
            };
        }
        value = value * 10 + u64::from(digit);
        at += 1;
    }
    None
}

/// A line of five plain fields that keep the rules, ended by a line feed.
#[inline]
fn plain_line(book: &mut Book, text: &[u8], begin: usize, label: &[bool; 256]) -> Option<(Cell, usize)> {
    let mut at = begin;
    while at < text.len() && label[text[at] as usize] {
        at += 1;
    }
    if at == begin || at - begin > 63 || at == text.len() || text[at] != b',' {
        return None;
    }
    let name = &text[begin..at];
    let (minute, at) = plain_number(text, at + 1, b',', MOST_MINUTE)?;
    let (revision, at) = plain_number(text, at, b',', MOST_COUNT)?;
    let (good, at) = plain_number(text, at, b',', MOST_COUNT)?;
    let (total, at) = plain_number(text, at, b'\n', MOST_COUNT)?;
    if revision < 1 || good > total {
        return None;
    }
    let source = book.number(name);
    let row = Cell {
        source,
        minute: minute as u32,
        revision: revision as u32,
        good: good as u32,
        total: total as u32,
    };
    Some((row, at))
}

/// Any record: its fields and the place behind it; none where more bytes are wanted.
fn record(text: &[u8], begin: usize, is_end: bool) -> Option<(Vec<Vec<u8>>, usize)> {
    let mut fields = vec![Vec::new()];
    let mut at = begin;
    let mut is_first = true;
    let mut is_open = false;
    while at < text.len() {
        let byte = text[at];
        at += 1;
        let field = fields.last_mut().unwrap();
        if is_open {
            if byte != b'"' {
                field.push(byte);
            } else if text.get(at) == Some(&b'"') {
                field.push(b'"');
                at += 1;
            } else if at == text.len() && !is_end {
                return None;
            } else {
                is_open = false;
            }
        } else if byte == b',' {
            fields.push(Vec::new());
            is_first = true;
            continue;
        } else if byte == b'\n' || byte == b'\r' {
            return Some((fields, at));
        } else if byte == b'"' && is_first {
            is_open = true;
        } else {
            field.push(byte);
        }
        is_first = false;
    }
    if is_end { Some((fields, at)) } else { None }
}

struct Run {
    book: Book,
    count: u64,
    fault: Option<(u64, Fault)>,
    label: [bool; 256],
}

impl Run {
    /// Judges the records in front, and answers how many bytes they are.
    fn judge(&mut self, text: &[u8], is_end: bool) -> usize {
        let mut at = 0;
        while at < text.len() && self.fault.is_none() {
            let row = match plain_line(&mut self.book, text, at, &self.label) {
                Some((row, end)) => {
                    at = end;
                    Ok(row)
                }
                None => {
                    if text[at] == b'\n' || text[at] == b'\r' {
                        at += 1;
                        continue;
                    }
                    let Some((fields, end)) = record(text, at, is_end) else {
                        return at;
                    };
                    at = end;
                    let fields: Vec<&[u8]> = fields.iter().map(|field| &field[..]).collect();
                    row(&mut self.book, &fields)
                }
            };
            self.count += 1;
            if let Err(fault) = row.and_then(|row| self.book.take(row)) {
                self.fault = Some((self.count, fault));
            }
        }
        text.len().min(if self.fault.is_some() { text.len() } else { at })
    }
}

fn refuse(line: &str, status: i32) -> ! {
    eprintln!("slo_office: {line}");
    exit(status)
}

fn gcd(a: u128, b: u128) -> u128 {
    if b == 0 { a } else { gcd(b, a % b) }
}

fn fraction(negative: bool, num: u128, den: u128) -> String {
    let common = gcd(num, den);
    let sign = if negative && num > 0 { "-" } else { "" };
    format!("{sign}{}/{}", num / common, den / common)
}

/// A decimal below 1 in billionths, or two minutes in order.
fn words() -> Option<(u64, u32, u32)> {
    let words: Vec<String> = std::env::args().skip(1).collect();
    if words.len() != 3 {
        return None;
    }
    let (whole, part) = words[0].split_once('.').unwrap_or((&words[0], "0"));
    if part.is_empty() || part.len() > 9 || number(whole.as_bytes(), 0) != Some(0) {
        return None;
    }
    let target = number(format!("{part:0<9}").as_bytes(), 999_999_999)?;
    let from = number(words[1].as_bytes(), MOST_MINUTE)? as u32;
    let to = number(words[2].as_bytes(), MOST_MINUTE)? as u32;
    if from <= to { Some((target, from, to)) } else { None }
}

fn main() {
    let Some((target, from, to)) = words() else {
        refuse("usage", 2);
    };
    let mut label = [false; 256];
    for byte in 0..=255u8 {
        label[byte as usize] = is_label_byte(byte);
    }
    let mut run = Run { book: Book::default(), count: 0, fault: None, label };
    let mut input = io::stdin().lock();
    let mut text = vec![0u8; PIECE];
    let (mut held, mut taken, mut is_begun) = (0, 0, false);
    loop {
        if text.len() - held < PIECE / 2 {
            text.resize(2 * text.len(), 0);
        }
        let room = (text.len() - held).min(MOST_BYTES + 1 - taken);
        let count = input.read(&mut text[held..held + room]).unwrap_or_else(|_| refuse("read fault", 5));
        taken += count;
        held += count;
        if taken > MOST_BYTES {
            refuse("input too large", 9);
        }
        let is_end = count == 0;
        if !is_begun && held < 3 && !is_end {
            continue;
        }
        let begin = if !is_begun && text[..held].starts_with(b"\xEF\xBB\xBF") { 3 } else { 0 };
        is_begun = true;
        let done = begin + run.judge(&text[begin..held], is_end);
        text.copy_within(done..held, 0);
        held -= done;
        if is_end {
            break;
        }
    }
    match run.fault {
        Some((number, Fault::Word(word))) => refuse(&format!("record {number}: {word}"), 9),
        Some((number, Fault::Conflict(good, total))) => {
            refuse(&format!("record {number}: conflict {good},{total}"), 9)
        }
        None => {}
    }
    let book = &run.book;
    let (mut good, mut total) = (0u64, 0u64);
    for cell in &book.cells {
        if from <= cell.minute && cell.minute < to {
            good += u64::from(cell.good);
            total += u64::from(cell.total);
        }
    }
    let mut lines = format!(
        "cells {}\ncorrected {}\nrepeated {}\nsuperseded {}\n",
        book.cells.len(),
        book.corrected,
        book.repeated,
        book.superseded
    );
    if total == 0 {
        lines.push_str("no data\n");
    } else {
        let burnt = u128::from(total - good) * 1_000_000_000;
        let allowed = u128::from(total) * u128::from(1_000_000_000 - target);
        lines.push_str(&format!("good {good}\ntotal {total}\nburn {}\n", fraction(false, burnt, allowed)));
        let left = burnt.abs_diff(allowed);
        lines.push_str(&format!("remaining {}\n", fraction(burnt > allowed, left, allowed)));
    }
    if io::stdout().write_all(lines.as_bytes()).is_err() {
        refuse("write fault", 6);
    }
}
