//! What one thread can do with the stream `one` of `figures.py`: a limit to compare with, and no
//! applier. It knows that one table (an integer key, a unique text, a text), takes inserts alone, and
//! believes its input. It prints the report that all print. `figures.py` builds it (`rustc -O`).
//!
//!     limit STREAM
//!
//! Rows lie one behind another in chunks of memory. Keys and texts are found by two indexes that keep
//! a hash and the number of a slot; keys that come in order lie in a list, others in a tree. A streamed
//! transaction is kept aside and applied at its commit, as `pgapply replay` does.
use std::collections::BTreeMap;
use std::fs::File;
use std::io::{self, BufWriter, Read, Write};
use std::{env, mem};

const CHUNK: usize = 1 << 20;
const PIECE: usize = 1 << 18;
const MIX: u64 = 0x9e37_79b9_7f4a_7c15;

/// Where a row lies: its columns, each a kind and then a number, or a length and a text.
#[derive(Clone, Copy)]
struct RowAt {
    chunk: u32,
    at: u32,
}

const NULL: u8 = 0;
const INT: u8 = 1;
const TEXT: u8 = 2;

struct Rows {
    chunks: Vec<Vec<u8>>,
}

impl Rows {
    fn get(&self, row: RowAt) -> Columns<'_> {
        Columns(&self.chunks[row.chunk as usize][row.at as usize..])
    }

    /// The last chunk, where so many bytes have room.
    fn chunk_for(&mut self, count: usize) -> &mut Vec<u8> {
        let is_full = match self.chunks.last() {
            Some(chunk) => chunk.capacity() - chunk.len() < count,
            None => true,
        };
        if is_full {
            self.chunks.push(Vec::with_capacity(CHUNK.max(count)));
        }
        self.chunks.last_mut().expect("a chunk")
    }

    /// The row of an insert. Its first column is an integer.
    fn add(&mut self, rest: &mut Rest) -> RowAt {
        let chunk = self.chunk_for(rest.0.len() + 32);
        let at = chunk.len() as u32;
        let count = rest.number(2);
        for column in 0..count {
            if rest.number(1) as u8 == b'n' {
                chunk.push(NULL);
                continue;
            }
            let length = rest.number(4) as usize;
            let text = std::str::from_utf8(rest.bytes(length)).expect("a text");
            if column == 0 {
                let number: i64 = text.parse().expect("an int");
                chunk.push(INT);
                chunk.extend_from_slice(&number.to_le_bytes());
            } else {
                chunk.push(TEXT);
                chunk.extend_from_slice(&(length as u32).to_le_bytes());
                chunk.extend_from_slice(text.as_bytes());
            }
        }
        RowAt {
            chunk: self.chunks.len() as u32 - 1,
            at,
        }
    }
}

enum Column<'a> {
    Null,
    Int(i64),
    Text(&'a [u8]),
}

/// The columns that are left of a row.
struct Columns<'a>(&'a [u8]);

impl<'a> Columns<'a> {
    fn bytes<const N: usize>(&mut self) -> [u8; N] {
        let (front, back) = self.0.split_first_chunk().expect("a column");
        self.0 = back;
        *front
    }

    fn next(&mut self) -> Column<'a> {
        match self.bytes::<1>()[0] {
            NULL => Column::Null,
            INT => Column::Int(i64::from_le_bytes(self.bytes())),
            _ => {
                let length = u32::from_le_bytes(self.bytes()) as usize;
                let (text, back) = self.0.split_at(length);
                self.0 = back;
                Column::Text(text)
            }
        }
    }

    fn key(mut self) -> i64 {
        match self.next() {
            Column::Int(key) => key,
            _ => panic!("a key"),
        }
    }

    /// The text in the second column.
    fn unique(mut self) -> Option<&'a [u8]> {
        self.next();
        match self.next() {
            Column::Text(text) => Some(text),
            _ => None,
        }
    }
}

fn mix(one: u64, other: u64) -> u64 {
    let product = u128::from(one) * u128::from(other);
    product as u64 ^ (product >> 64) as u64
}

fn hash_of_key(key: i64) -> u32 {
    mix(key as u64 >> 2 ^ 0x51ed, MIX) as u32
}

fn hash_of_text(text: &[u8]) -> u32 {
    let words = text.chunks(8).map(|chunk| {
        let mut word = [0; 8];
        word[..chunk.len()].copy_from_slice(chunk);
        u64::from_le_bytes(word)
    });
    let hash = words.fold(MIX ^ text.len() as u64, |hash, word| mix(hash ^ word, MIX));
    (hash ^ hash >> 32) as u32
}

/// Slots by a hash: words of the hash and the slot's number from 1, each at the first free place behind
/// the one that its hash names.
struct Index {
    words: Vec<u64>,
    count: usize,
}

impl Index {
    fn new() -> Index {
        Index {
            words: vec![0; 1024],
            count: 0,
        }
    }

    /// Room for so many more, where five of eight places are filled at most.
    fn reserve(&mut self, more: usize) {
        let mut places = self.words.len();
        while (self.count + more) * 8 > places * 5 {
            places *= 2;
        }
        if places == self.words.len() {
            return;
        }
        for word in mem::replace(&mut self.words, vec![0; places]) {
            if word != 0 {
                let free = self.place(word, |_| false).expect_err("a place");
                self.words[free] = word;
            }
        }
    }

    /// The place of a word that is sought, or the free one where it would be.
    fn place(&self, word: u64, is_it: impl Fn(u32) -> bool) -> Result<usize, usize> {
        let last = self.words.len() - 1;
        let mut at = (word >> 32) as usize & last;
        loop {
            match self.words[at] {
                0 => return Err(at),
                found if found >> 32 == word >> 32 && is_it(found as u32 - 1) => return Ok(at),
                _ => at = (at + 1) & last,
            }
        }
    }

    /// A slot comes, unless one is found that is the same.
    fn add(&mut self, hash: u32, slot: u32, is_same: impl Fn(u32) -> bool) {
        let word = u64::from(hash) << 32 | u64::from(slot + 1);
        let free = self
            .place(word, is_same)
            .expect_err("a key that stands once");
        self.words[free] = word;
        self.count += 1;
    }
}

struct Table {
    slots: Vec<(i64, RowAt)>,
    by_key: Index,
    by_text: Index,
    /// The slots of keys that came in order, and those of others.
    run: Vec<u32>,
    beside: BTreeMap<i64, u32>,
}

impl Table {
    fn reserve(&mut self, more: usize) {
        self.by_key.reserve(more);
        self.by_text.reserve(more);
        self.slots.reserve(more);
        self.run.reserve(more);
    }

    fn put(&mut self, rows: &Rows, row: RowAt) {
        let slots = &self.slots;
        let slot = slots.len() as u32;
        let key = rows.get(row).key();
        self.by_key.add(hash_of_key(key), slot, |other| {
            slots[other as usize].0 == key
        });
        if let Some(text) = rows.get(row).unique() {
            let is_same = |other: u32| rows.get(slots[other as usize].1).unique() == Some(text);
            self.by_text.add(hash_of_text(text), slot, is_same);
        }
        match self.run.last() {
            Some(&last) if slots[last as usize].0 >= key => drop(self.beside.insert(key, slot)),
            _ => self.run.push(slot),
        }
        self.slots.push((key, row));
    }

    /// The rows in key order.
    fn in_order(&self) -> impl Iterator<Item = RowAt> + '_ {
        let slot = move |&number: &u32| self.slots[number as usize];
        let mut run = self.run.iter().map(slot).peekable();
        let mut beside = self.beside.values().map(slot).peekable();
        std::iter::from_fn(move || match (run.peek(), beside.peek()) {
            (Some(one), Some(other)) if other.0 < one.0 => beside.next(),
            (Some(_), _) => run.next(),
            (None, _) => beside.next(),
        })
        .map(|(_, row)| row)
    }
}

/// What is left of a message.
struct Rest<'a>(&'a [u8]);

impl<'a> Rest<'a> {
    fn bytes(&mut self, count: usize) -> &'a [u8] {
        let (front, back) = self.0.split_at(count);
        self.0 = back;
        front
    }

    fn number(&mut self, count: usize) -> u64 {
        let mut bytes = [0; 8];
        bytes[8 - count..].copy_from_slice(self.bytes(count));
        u64::from_be_bytes(bytes)
    }
}

struct Limit {
    rows: Rows,
    table: Table,
    /// What the open transaction inserted, and what those before did.
    open: Vec<RowAt>,
    journal: Vec<Vec<RowAt>>,
    position: u64,
}

impl Limit {
    fn message(&mut self, rest: &mut Rest) {
        match rest.number(1) as u8 {
            b'I' => {
                // The subtransaction, the relation, and that a new row follows.
                rest.bytes(9);
                let row = self.rows.add(rest);
                self.open.push(row);
            }
            b'c' => {
                rest.bytes(13);
                self.position = rest.number(8);
                self.table.reserve(self.open.len());
                for &row in &self.open {
                    self.table.put(&self.rows, row);
                }
                self.journal.push(mem::take(&mut self.open));
            }
            _ => {}
        }
    }

    /// Takes all whole frames of some bytes, and answers how many bytes these had.
    fn frames(&mut self, bytes: &[u8]) -> usize {
        let mut rest = Rest(bytes);
        while rest.0.len() >= 5 {
            let length = 1 + Rest(&rest.0[1..]).number(4) as usize;
            if rest.0.len() < length {
                break;
            }
            // A letter, a length, another letter, two positions and a time before the message.
            self.message(&mut Rest(&rest.bytes(length)[30..]));
        }
        bytes.len() - rest.0.len()
    }

    fn print(&self) -> io::Result<()> {
        let mut out = BufWriter::with_capacity(1 << 16, io::stdout().lock());
        writeln!(out, "table public.mail {}", self.table.slots.len())?;
        for row in self.table.in_order() {
            let mut columns = self.rows.get(row);
            for column in 0..3 {
                if column > 0 {
                    out.write_all(b"|")?;
                }
                match columns.next() {
                    Column::Null => out.write_all(b"\\N")?,
                    Column::Int(number) => write!(out, "{number}")?,
                    // No text of this stream has a byte that is escaped.
                    Column::Text(text) => out.write_all(text)?,
                }
            }
            out.write_all(b"\n")?;
        }
        let (high, low) = (self.position >> 32, self.position & 0xffff_ffff);
        writeln!(out, "position {high:X}/{low:X}\nend 0 Clean")?;
        out.flush()
    }
}

fn main() -> io::Result<()> {
    let words: Vec<String> = env::args().collect();
    let mut file = File::open(&words[1])?;
    let mut limit = Limit {
        rows: Rows { chunks: Vec::new() },
        table: Table {
            slots: Vec::new(),
            by_key: Index::new(),
            by_text: Index::new(),
            run: Vec::new(),
            beside: BTreeMap::new(),
        },
        open: Vec::new(),
        journal: Vec::new(),
        position: 0,
    };
    let mut piece = vec![0; PIECE];
    let mut filled = 0;
    loop {
        let count = file.read(&mut piece[filled..])?;
        if count == 0 {
            break;
        }
        filled += count;
        let taken = limit.frames(&piece[..filled]);
        piece.copy_within(taken..filled, 0);
        filled -= taken;
    }
    limit.print()?;
    mem::forget(limit);
    Ok(())
}
