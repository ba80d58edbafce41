//! The command `counters` of the office as a plain program: the same input, the same rows and
//! statuses, std alone, one thread, nothing proved. `tests/counter_figures` measures the proved one
//! beside it.
//!
//!     rustc -O -C target-cpu=native -C panic=abort -o plain_counters plain_counters.rs
//!     plain_counters shop-good < readings.csv
//!
//! Tuned by hand: the input is parsed in place in one pass; a record that is no plain line goes a
//! slower way. A name is compared with the one that followed last time before it is looked up. Each
//! source has an ordered map of its minutes, and the newest of them beside it, so that readings in
//! order cost one insertion and no search. Rows are spelled by hand into a page.
use std::collections::{BTreeMap, HashMap};
use std::io::{self, Read, Write};
use std::ops::Bound;
use std::process::exit;

const MOST_BYTES: usize = 67_108_864;
const MOST_READINGS: usize = 2_000_000;
const MOST_MINUTE: u64 = 67_108_863;
const MOST_REVISION: u64 = 1_000_000_000;
const MOST_COUNT: u64 = 1_000_000_000_000_000_000;
const MOST_AMOUNT: u64 = 1_000_000_000;
const PAGE: usize = 65_536;

#[derive(Clone, Copy, PartialEq)]
struct Count {
    good: u64,
    total: u64,
}

#[derive(Clone, Copy)]
struct Kept {
    count: Count,
    revision: u32,
    given: u32,
}

struct Reading {
    source: usize,
    minute: u32,
    revision: u32,
    count: Count,
}

#[derive(Default)]
struct Source {
    name: Vec<u8>,
    minutes: BTreeMap<u32, Kept>,
    last: Option<(u32, Count)>,
    // the source that followed this one last time
    follower: usize,
}

enum Fault {
    Word(&'static str),
    Conflict(Count),
    Jump(u32),
}

fn rise(before: Count, now: Count) -> (u64, u64) {
    let (good, total) = if now.good < before.good || now.total < before.total {
        (now.good, now.total)
    } else {
        (now.good - before.good, now.total - before.total)
    };
    (good.min(total), total)
}

struct Page {
    sli: Vec<u8>,
    bytes: Vec<u8>,
}

impl Page {
    fn number(&mut self, mut number: u64) {
        let mut digits = [0u8; 20];
        let mut at = 20;
        loop {
            at -= 1;
            digits[at] = b'0' + (number % 10) as u8;
            number /= 10;
            if number == 0 {
                break;
            }
        }
        self.bytes.extend_from_slice(&digits[at..]);
    }

    fn row(&mut self, source: &[u8], minute: u32, revision: u32, amount: (u64, u64)) {
        let bytes = &mut self.bytes;
        bytes.extend_from_slice(&self.sli);
        bytes.push(b',');
        bytes.extend_from_slice(source);
        bytes.push(b',');
        for (number, mark) in
            [(u64::from(minute), b','), (u64::from(revision), b','), (amount.0, b','), (amount.1, b'\n')]
        {
            self.number(number);
            self.bytes.push(mark);
        }
        if self.bytes.len() > PAGE - 512 {
            self.write();
        }
    }

    fn write(&mut self) {
        if io::stdout().write_all(&self.bytes).is_err() {
            refuse("write fault", 6);
        }
        self.bytes.clear();
    }
}

#[derive(Default)]
struct Book {
    numbers: HashMap<Vec<u8>, usize>,
    sources: Vec<Source>,
    latest: usize,
    readings: usize,
}

impl Book {
    fn number(&mut self, name: &[u8]) -> usize {
        if let Some(source) = self.sources.get(self.latest) {
            if source.name == name {
                return self.latest;
            }
            let guess = source.follower;
            if self.sources[guess].name == name {
                self.latest = guess;
                return guess;
            }
        }
        let number = match self.numbers.get(name) {
            Some(&number) => number,
            None => {
                let number = self.sources.len();
                self.numbers.insert(name.to_vec(), number);
                self.sources.push(Source { name: name.to_vec(), follower: number, ..Source::default() });
                number
            }
        };
        self.sources[self.latest].follower = number;
        self.latest = number;
        number
    }

    /// A reading behind all of its source: only its own difference is new.
    fn append(&mut self, r: &Reading, before: Option<Count>, page: &mut Page) -> Result<(), Fault> {
        if self.readings == MOST_READINGS {
            return Err(Fault::Word("limit"));
        }
        let source = &mut self.sources[r.source];
        let own = before.map(|before| rise(before, r.count));
        if own.is_some_and(|own| own.1 > MOST_AMOUNT) {
            return Err(Fault::Jump(r.minute));
        }
        let given = u32::from(own.is_some());
        source.minutes.insert(r.minute, Kept { count: r.count, revision: r.revision, given });
        source.last = Some((r.minute, r.count));
        self.readings += 1;
        if let Some(own) = own {
            page.row(&source.name, r.minute, 1, own);
        }
        Ok(())
    }

    fn put(&mut self, r: &Reading, page: &mut Page) -> Result<(), Fault> {
        match self.sources[r.source].last {
            None => return self.append(r, None, page),
            Some((minute, count)) if minute < r.minute => return self.append(r, Some(count), page),
            Some(_) => {}
        }
        let source = &mut self.sources[r.source];
        let here = source.minutes.get(&r.minute).copied();
        if let Some(kept) = here {
            if r.revision < kept.revision {
                return Ok(());
            }
            if r.revision == kept.revision {
                if kept.count == r.count {
                    return Ok(());
                }
                return Err(Fault::Conflict(kept.count));
            }
        } else if self.readings == MOST_READINGS {
            return Err(Fault::Word("limit"));
        }
        let before = source.minutes.range(..r.minute).next_back().map(|(_, kept)| kept.count);
        let behind = (Bound::Excluded(r.minute), Bound::Unbounded);
        let next = source.minutes.range_mut(behind).next().map(|(minute, kept)| (*minute, kept));
        let own = before.map(|before| rise(before, r.count));
        let own = own.filter(|own| before.zip(here).map(|(before, here)| rise(before, here.count)) != Some(*own));
        if own.is_some_and(|own| own.1 > MOST_AMOUNT) {
            return Err(Fault::Jump(r.minute));
        }
        let passed = here.map(|here| here.count).or(before);
        let mut moved = None;
        if let Some((minute, kept)) = next {
            let now = rise(r.count, kept.count);
            if passed.map(|passed| rise(passed, kept.count)) != Some(now) {
                if now.1 > MOST_AMOUNT {
                    return Err(Fault::Jump(minute));
                }
                kept.given += 1;
                moved = Some((minute, kept.given, now));
            }
        }
        let given = here.map_or(0, |here| here.given) + u32::from(own.is_some());
        source.minutes.insert(r.minute, Kept { count: r.count, revision: r.revision, given });
        if source.last.is_some_and(|last| last.0 == r.minute) {
            source.last = Some((r.minute, r.count));
        }
        self.readings += usize::from(here.is_none());
        if let Some(own) = own {
            page.row(&source.name, r.minute, given, own);
        }
        if let Some((minute, given, now)) = moved {
            page.row(&source.name, minute, given, now);
        }
        Ok(())
    }
}

fn is_label_byte(byte: u8) -> bool {
    byte.is_ascii_alphanumeric() || byte == b'.' || byte == b'_' || byte == b'-'
}

fn is_label(name: &[u8]) -> bool {
    !name.is_empty() && name.len() <= 63 && name.iter().all(|byte| is_label_byte(*byte))
}

fn number(text: &[u8], most: u64) -> Option<u64> {
    if text.is_empty() {
        return None;
    }
    let mut value: u64 = 0;
    for &byte in text {
        if !byte.is_ascii_digit() {
            return None;
        }
        value = (value * 10 + u64::from(byte - b'0')).min(MOST_COUNT + 1);
    }
    if value <= most { Some(value) } else { None }
}

fn reading(book: &mut Book, fields: &[Vec<u8>]) -> Result<Reading, Fault> {
    let [name, minute, revision, good, total] = fields else {
        return Err(Fault::Word("fields"));
    };
    if !is_label(name) {
        return Err(Fault::Word("source"));
    }
    let minute = number(minute, MOST_MINUTE).ok_or(Fault::Word("minute"))?;
    let revision = number(revision, MOST_REVISION).filter(|r| *r >= 1);
    let revision = revision.ok_or(Fault::Word("revision"))?;
    let good = number(good, MOST_COUNT).ok_or(Fault::Word("counts"))?;
    let total = number(total, MOST_COUNT).ok_or(Fault::Word("counts"))?;
    if good > total {
        return Err(Fault::Word("counts"));
    }
    Ok(Reading {
        source: book.number(name),
        minute: minute as u32,
        revision: revision as u32,
        count: Count { good, total },
    })
}

/// Digits up to a byte: the number and the place behind that byte; none where it isn't so plain.
#[inline]
fn plain_number(text: &[u8], mut at: usize, end: u8, most: u64) -> Option<(u64, usize)> {
    let begin = at;
    let mut value: u64 = 0;
    while at < text.len() && at - begin < 20 {
        let digit = text[at].wrapping_sub(b'0');
        if digit > 9 {
            return if text[at] == end && at > begin && value <= most { Some((value, at + 1)) } else { None };
        }
        if at - begin == 19 {
            return None;
        }
        value = value * 10 + u64::from(digit);
        at += 1;
    }
    None
}

/// A line of five plain fields that keep the rules, ended by a line feed.
#[inline]
fn plain_line(book: &mut Book, text: &[u8], begin: usize, label: &[bool; 256]) -> Option<(Reading, usize)> {
    let mut at = begin;
    while at < text.len() && label[text[at] as usize] {
        at += 1;
    }
    if at == begin || at - begin > 63 || at == text.len() || text[at] != b',' {
        return None;
    }
    let name = &text[begin..at];
    let (minute, at) = plain_number(text, at + 1, b',', MOST_MINUTE)?;
    let (revision, at) = plain_number(text, at, b',', MOST_REVISION)?;
    let (good, at) = plain_number(text, at, b',', MOST_COUNT)?;
    let (total, at) = plain_number(text, at, b'\n', MOST_COUNT)?;
    if revision < 1 || good > total {
        return None;
    }
    let source = book.number(name);
    let (minute, revision) = (minute as u32, revision as u32);
    Some((Reading { source, minute, revision, count: Count { good, total } }, at))
}

/// Any record: its fields and the place behind it.
fn record(text: &[u8], begin: usize) -> (Vec<Vec<u8>>, usize) {
    let mut fields = vec![Vec::new()];
    let mut at = begin;
    let mut is_first = true;
    let mut is_open = false;
    while at < text.len() {
        let byte = text[at];
        at += 1;
        let field = fields.last_mut().unwrap();
        if is_open {
            if byte != b'"' {
                field.push(byte);
            } else if text.get(at) == Some(&b'"') {
                field.push(b'"');
                at += 1;
            } else {
                is_open = false;
            }
        } else if byte == b',' {
            fields.push(Vec::new());
            is_first = true;
            continue;
        } else if byte == b'\n' || byte == b'\r' {
            break;
        } else if byte == b'"' && is_first {
            is_open = true;
        } else {
            field.push(byte);
        }
        is_first = false;
    }
    (fields, at)
}

fn refuse(line: &str, status: i32) -> ! {
    eprintln!("slo_office: {line}");
    exit(status)
}

fn main() {
    let words: Vec<String> = std::env::args().skip(1).collect();
    if words.len() != 1 || words[0].starts_with('-') || !is_label(words[0].as_bytes()) {
        refuse("usage", 2);
    }
    let mut text = Vec::with_capacity(MOST_BYTES + 1);
    let mut input = io::stdin().lock().take(MOST_BYTES as u64 + 1);
    if input.read_to_end(&mut text).is_err() {
        refuse("read fault", 5);
    }
    if text.len() > MOST_BYTES {
        refuse("input too large", 9);
    }
    let mut label = [false; 256];
    for byte in 0..=255u8 {
        label[byte as usize] = is_label_byte(byte);
    }
    let mut book = Book::default();
    let mut page = Page { sli: words[0].clone().into_bytes(), bytes: Vec::with_capacity(PAGE) };
    let mut at = if text.starts_with(b"\xEF\xBB\xBF") { 3 } else { 0 };
    let mut count = 0u64;
    while at < text.len() {
        let reading = match plain_line(&mut book, &text, at, &label) {
            Some((reading, end)) => {
                at = end;
                Ok(reading)
            }
            None => {
                if text[at] == b'\n' || text[at] == b'\r' {
                    at += 1;
                    continue;
                }
                let (fields, end) = record(&text, at);
                at = end;
                reading(&mut book, &fields)
            }
        };
        count += 1;
        if let Err(fault) = reading.and_then(|reading| book.put(&reading, &mut page)) {
            page.write();
            let words = match fault {
                Fault::Word(word) => word.to_string(),
                Fault::Conflict(kept) => format!("conflict {},{}", kept.good, kept.total),
                Fault::Jump(minute) => format!("jump {minute}"),
            };
            refuse(&format!("record {count}: {words}"), 9);
        }
    }
    page.write();
}
