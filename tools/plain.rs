//! A plain applier of replication streams, to compare with: the same streams, the same report, and no
//! proofs, no undo, no journal, no holds, no threads. `figures.py` builds it (`rustc -O`) and runs it.
//!
//! It believes its input: a broken stream ends it in a panic. A streamed transaction is kept aside and
//! applied at its commit.
//!
//!     plain STREAM NAME=TYPES:PRIMARY:UNIQUE[;UNIQUE..] ..
//!
//! A table is `public.mail=itt:0:1`: a letter for each column (i int, t text, b bool), the columns of the
//! primary key, and those of each unique key, numbers divided by commas.
use std::collections::{BTreeMap, HashMap};
use std::io::{self, BufWriter, Write};
use std::{env, fs};

#[derive(Clone, PartialEq, Eq, Hash, PartialOrd, Ord)]
enum Value {
    Int(i64),
    Text(Box<[u8]>),
    Bool(bool),
}

type Row = Vec<Option<Value>>;

/// The values of a key. A single one takes no block of its own.
#[derive(Clone, PartialEq, Eq, Hash, PartialOrd, Ord)]
enum Key {
    One(Value),
    Several(Box<[Value]>),
}

/// For each column: as it was, or this value.
type Patch = Vec<Option<Option<Value>>>;

struct Unique {
    columns: Vec<usize>,
    keys: HashMap<Key, Key>,
}

struct Table {
    name: String,
    types: Vec<u8>,
    primary: Vec<usize>,
    uniques: Vec<Unique>,
    rows: BTreeMap<Key, Row>,
}

enum Change {
    Put(usize, Row),
    Set(usize, Key, Patch),
    Remove(usize, Key),
    Wipe(usize),
}

/// The values of these columns, if none of them is null.
fn values<'a>(columns: &[usize], value: impl Fn(usize) -> Option<&'a Value>) -> Option<Key> {
    match columns {
        &[column] => value(column).cloned().map(Key::One),
        _ => {
            let several: Option<_> = columns.iter().map(|&c| value(c).cloned()).collect();
            several.map(Key::Several)
        }
    }
}

fn values_of(row: &Row, columns: &[usize]) -> Option<Key> {
    values(columns, |column| row[column].as_ref())
}

impl Table {
    fn read(text: &str) -> Table {
        let (name, rest) = text.split_once('=').expect("a table");
        let parts: Vec<&str> = rest.split(':').collect();
        let columns = |list: &str| {
            list.split(',')
                .map(|n| n.parse().expect("a column"))
                .collect()
        };
        let uniques = parts[2].split(';').filter(|list| !list.is_empty());
        Table {
            name: name.to_string(),
            types: parts[0].bytes().collect(),
            primary: columns(parts[1]),
            uniques: uniques
                .map(|list| Unique {
                    columns: columns(list),
                    keys: HashMap::new(),
                })
                .collect(),
            rows: BTreeMap::new(),
        }
    }

    fn put(&mut self, row: Row) {
        let key = values_of(&row, &self.primary).expect("a key");
        for unique in &mut self.uniques {
            if let Some(found) = values_of(&row, &unique.columns) {
                assert!(unique.keys.insert(found, key.clone()).is_none(), "unique");
            }
        }
        assert!(self.rows.insert(key, row).is_none(), "primary");
    }

    fn remove(&mut self, key: &Key) -> Option<Row> {
        let row = self.rows.remove(key)?;
        for unique in &mut self.uniques {
            if let Some(found) = values_of(&row, &unique.columns) {
                unique.keys.remove(&found);
            }
        }
        Some(row)
    }

    /// Columns of no key are altered in place.
    fn set(&mut self, key: &Key, patch: Patch) {
        let touches = |columns: &[usize], row: &Row| {
            columns
                .iter()
                .any(|&c| patch[c].as_ref().is_some_and(|value| *value != row[c]))
        };
        let Some(row) = self.rows.get_mut(key) else {
            return;
        };
        let in_place = !touches(&self.primary, row)
            && !self
                .uniques
                .iter()
                .any(|unique| touches(&unique.columns, row));
        if in_place {
            for (column, value) in patch.into_iter().enumerate() {
                if let Some(value) = value {
                    row[column] = value;
                }
            }
            return;
        }
        let mut row = self.remove(key).expect("a row");
        for (column, value) in patch.into_iter().enumerate() {
            if let Some(value) = value {
                row[column] = value;
            }
        }
        self.put(row);
    }
}

fn apply(tables: &mut [Table], change: Change) {
    match change {
        Change::Put(table, row) => tables[table].put(row),
        Change::Set(table, key, patch) => tables[table].set(&key, patch),
        Change::Remove(table, key) => drop(tables[table].remove(&key)),
        Change::Wipe(table) => {
            tables[table].rows.clear();
            for unique in &mut tables[table].uniques {
                unique.keys.clear();
            }
        }
    }
}

/// What is left of a message.
struct Rest<'a>(&'a [u8]);

impl<'a> Rest<'a> {
    fn bytes(&mut self, count: usize) -> &'a [u8] {
        let (front, back) = self.0.split_at(count);
        self.0 = back;
        front
    }

    fn number(&mut self, count: usize) -> u64 {
        let mut bytes = [0; 8];
        bytes[8 - count..].copy_from_slice(self.bytes(count));
        u64::from_be_bytes(bytes)
    }

    fn name(&mut self) -> String {
        let end = self.0.iter().position(|&byte| byte == 0).expect("a name");
        let name = String::from_utf8_lossy(self.bytes(end)).into_owned();
        self.bytes(1);
        name
    }

    fn tuple(&mut self, types: &[u8]) -> Patch {
        let count = self.number(2) as usize;
        (0..count)
            .map(|column| self.column(types[column]))
            .collect()
    }

    fn column(&mut self, kind: u8) -> Option<Option<Value>> {
        match self.number(1) as u8 {
            b'n' => Some(None),
            b'u' => None,
            _ => {
                let length = self.number(4) as usize;
                let text = std::str::from_utf8(self.bytes(length)).expect("a text");
                Some(Some(match kind {
                    b'i' => Value::Int(text.parse().expect("an int")),
                    b'b' => Value::Bool(text == "t"),
                    _ => Value::Text(text.as_bytes().into()),
                }))
            }
        }
    }
}

#[derive(Default)]
struct Applier {
    tables: Vec<Table>,
    /// The table of each relation.
    relations: HashMap<u32, usize>,
    /// The changes of each streamed transaction, with the subtransactions that made them.
    open: HashMap<u32, Vec<(u32, Change)>>,
    block: Option<u32>,
    position: u64,
}

impl Applier {
    fn relation(&mut self, rest: &mut Rest) {
        let oid = rest.number(4) as u32;
        let name = format!("{}.{}", rest.name(), rest.name());
        let table = self
            .tables
            .iter()
            .position(|table| table.name == name)
            .expect("a table");
        self.relations.insert(oid, table);
    }

    fn row_change(&self, tag: u8, rest: &mut Rest) -> Change {
        let number = self.relations[&(rest.number(4) as u32)];
        let table = &self.tables[number];
        let key_of = |patch: &Patch| {
            values(&table.primary, |column| patch[column].as_ref()?.as_ref()).expect("a key")
        };
        let mut kind = rest.number(1) as u8;
        let mut key = None;
        if kind != b'N' {
            key = Some(key_of(&rest.tuple(&table.types)));
            if tag == b'D' {
                return Change::Remove(number, key.expect("a key"));
            }
            kind = rest.number(1) as u8;
        }
        assert!(kind == b'N');
        let new = rest.tuple(&table.types);
        if tag == b'I' {
            return Change::Put(number, new.into_iter().map(Option::flatten).collect());
        }
        Change::Set(number, key.unwrap_or_else(|| key_of(&new)), new)
    }

    fn take(&mut self, sub: u32, change: Change) {
        match self.block {
            None => apply(&mut self.tables, change),
            Some(xid) => self
                .open
                .get_mut(&xid)
                .expect("a transaction")
                .push((sub, change)),
        }
    }

    fn commit(&mut self, rest: &mut Rest) {
        rest.bytes(9);
        self.position = rest.number(8);
    }

    fn abort(&mut self, xid: u32, sub: u32) {
        if xid == sub {
            self.open.remove(&xid);
        } else if let Some(changes) = self.open.get_mut(&xid) {
            if let Some(first) = changes.iter().position(|change| change.0 == sub) {
                changes.truncate(first);
            }
        }
    }

    fn message(&mut self, rest: &mut Rest) {
        let tag = rest.number(1) as u8;
        let is_in_block = b"IUDTRYM".contains(&tag) && self.block.is_some();
        let sub = if is_in_block {
            rest.number(4) as u32
        } else {
            0
        };
        match tag {
            b'R' => self.relation(rest),
            b'I' | b'U' | b'D' => {
                let change = self.row_change(tag, rest);
                self.take(sub, change);
            }
            b'T' => {
                let count = rest.number(4);
                rest.bytes(1);
                for _ in 0..count {
                    let table = self.relations[&(rest.number(4) as u32)];
                    self.take(sub, Change::Wipe(table));
                }
            }
            b'S' => {
                let xid = rest.number(4) as u32;
                self.open.entry(xid).or_default();
                self.block = Some(xid);
            }
            b'E' => self.block = None,
            b'C' => self.commit(rest),
            b'c' => {
                let xid = rest.number(4) as u32;
                self.commit(rest);
                for (_, change) in self.open.remove(&xid).expect("a transaction") {
                    apply(&mut self.tables, change);
                }
            }
            b'A' => {
                let (xid, sub) = (rest.number(4) as u32, rest.number(4) as u32);
                self.abort(xid, sub);
            }
            _ => {}
        }
    }
}

/// A text up to the next byte that is escaped, and so on.
fn print_text(out: &mut impl Write, text: &[u8]) -> io::Result<()> {
    let mut rest = text;
    while let Some(end) = rest.iter().position(|byte| b"\\|\n\r".contains(byte)) {
        out.write_all(&rest[..end])?;
        out.write_all(match rest[end] {
            b'\\' => b"\\\\",
            b'|' => b"\\p",
            b'\n' => b"\\n",
            _ => b"\\r",
        })?;
        rest = &rest[end + 1..];
    }
    out.write_all(rest)
}

fn print_value(out: &mut impl Write, value: &Option<Value>) -> io::Result<()> {
    match value {
        None => out.write_all(b"\\N"),
        Some(Value::Int(number)) => write!(out, "{number}"),
        Some(Value::Bool(truth)) => out.write_all(if *truth { b"t" } else { b"f" }),
        Some(Value::Text(text)) => print_text(out, text),
    }
}

fn print(applier: &Applier) -> io::Result<()> {
    let mut out = BufWriter::new(io::stdout().lock());
    for table in &applier.tables {
        writeln!(out, "table {} {}", table.name, table.rows.len())?;
        for row in table.rows.values() {
            for (column, value) in row.iter().enumerate() {
                if column > 0 {
                    out.write_all(b"|")?;
                }
                print_value(&mut out, value)?;
            }
            out.write_all(b"\n")?;
        }
    }
    writeln!(
        out,
        "position {:X}/{:X}",
        applier.position >> 32,
        applier.position & 0xffff_ffff
    )?;
    writeln!(out, "end 0 Clean")?;
    out.flush()
}

fn main() -> io::Result<()> {
    let words: Vec<String> = env::args().collect();
    let stream = fs::read(&words[1])?;
    let mut applier = Applier {
        tables: words[2..].iter().map(|word| Table::read(word)).collect(),
        ..Applier::default()
    };
    let mut rest = Rest(&stream);
    while !rest.0.is_empty() {
        rest.bytes(1);
        let length = rest.number(4) as usize;
        let mut frame = Rest(rest.bytes(length - 4));
        // XLogData: a letter, two positions and a time before the message.
        if frame.number(1) as u8 == b'w' {
            frame.bytes(24);
            applier.message(&mut frame);
        }
    }
    print(&applier)?;
    // The tables go back as a whole, not row by row.
    std::mem::forget(applier);
    Ok(())
}
