#!/usr/bin/env python3
"""Times pgapply on streams of its own making, beside a plain Rust applier of the same streams, and a limit.

    figures.py [--only KIND,..] [--rows N,..] [--runs N] [--program P] [--keep FOLDER]

Each stream is made as a PostgreSQL server sends the same work, and run by turns: `pgapply replay`,
`pgapply apply`, the plain applier (plain.rs, built by `rustc -O`), and for `one` what one thread can do
with that stream (limit.rs), each --runs times. All have to print the same report. A line for each prints
the best wall-clock time and processor time (user and system), the most memory held, that divided by the
stream's changes, and the ratio of the plain applier's times to these. On a machine with other work the
processor time is the steadier one, and below some 22 MB the memory is that of this script, which starts
the commands. A timing is no test: nothing fails for it.

Needs: python3 (3.11), rustc, and the built program (`rt run` or `rt ci` leave it in
crates/pgapply/out). The kinds:

    one       one streamed transaction of N inserts, in four blocks
    many      N / 10 small transactions: four inserts, three updates, a delete each
    beside    four streamed transactions of N / 4 inserts each into one table, whose blocks come by turns
    apart     the same, each into a table of its own
    keyed     the same, each into a table whose key is two texts, with two unique keys
    saved     one streamed transaction of N inserts, in subtransactions of ten thousand that stay
    undone    one streamed transaction of N inserts with two unique keys, that isn't committed
    wide      one transaction of N / 10 rows of 50 columns
    pairs     one transaction of N rows whose key is two texts
    updates   N rows, and then an update of each, in transactions of a thousand
    churn     N inserts of keys that never come again, each deleted in the next transaction
    aborted   N inserts in streamed transactions of ten thousand, each of which is aborted
    rolled    one streamed transaction of N inserts, in subtransactions of ten thousand that are rolled back
"""
import argparse, hashlib, os, struct, subprocess, sys, tempfile, time
from dataclasses import dataclass, field, replace

HERE = os.path.dirname(os.path.abspath(__file__))
TYPES = {"i": ("int", 20), "t": ("text", 25), "b": ("bool", 16)}


@dataclass
class Table:
    """A table of a stream: a letter for each column (i int, t text, b bool), and the columns of its keys."""
    name: str
    types: str
    primary: list[int]
    uniques: list[list[int]] = field(default_factory=list)
    oid: int = 16385

    def catalog(self):
        names = lambda columns: ", ".join(f'"c{n}"' for n in columns)
        lines = ["[[table]]", 'namespace = "public"', f'name = "{self.name}"',
                 f"primary = [{names(self.primary)}]",
                 f"unique = [{', '.join(f'[{names(key)}]' for key in self.uniques)}]"]
        for number, kind in enumerate(self.types):
            lines += ["[[table.column]]", f'name = "c{number}"', f'type = "{TYPES[kind][0]}"']
        return "\n".join(lines) + "\n"

    def word(self):
        """The table as the plain applier is told of it."""
        columns = lambda key: ",".join(map(str, key))
        return f"public.{self.name}={self.types}:{columns(self.primary)}:{';'.join(map(columns, self.uniques))}"

    def relation(self, sub=b""):
        columns = b"".join(
            struct.pack(">B", number in self.primary) + f"c{number}".encode() + b"\0" + struct.pack(">Ii", TYPES[kind][1], -1)
            for number, kind in enumerate(self.types))
        return (b"R" + sub + struct.pack(">I", self.oid) + b"public\0" + self.name.encode() + b"\0d"
                + struct.pack(">H", len(self.types)) + columns)

    def insert(self, row, sub=b""):
        return b"I" + sub + struct.pack(">I", self.oid) + b"N" + tuple_of(row)

    def update(self, row):
        return b"U" + struct.pack(">I", self.oid) + b"N" + tuple_of(row)

    def delete(self, row):
        old = [value if number in self.primary else None for number, value in enumerate(row)]
        return b"D" + struct.pack(">I", self.oid) + b"K" + tuple_of(old)


def tuple_of(row):
    parts = [struct.pack(">H", len(row))]
    for value in row:
        text = str(value).encode()
        parts.append(b"n" if value is None else b"t" + struct.pack(">I", len(text)) + text)
    return b"".join(parts)


def begin(xid, lsn):
    return b"B" + struct.pack(">QqI", lsn, 0, xid)


def commit(lsn):
    return b"C\0" + struct.pack(">QQq", lsn, lsn + 0x40, 0)


def stream_start(xid, is_first):
    return b"S" + struct.pack(">IB", xid, is_first)


def stream_commit(xid, lsn):
    return b"c" + struct.pack(">I", xid) + b"\0" + struct.pack(">QQq", lsn, lsn + 0x40, 0)


def stream_abort(xid, sub):
    return b"A" + struct.pack(">II", xid, sub) + bytes(16)


def sub_of(xid):
    return struct.pack(">I", xid)


def streamed(parts, blocks, ends=True):
    """Streamed transactions, an xid with a table and rows each, whose blocks come by turns; committed in their order."""
    for block in range(blocks):
        for xid, table, rows in parts:
            yield stream_start(xid, block == 0)
            if block == 0:
                yield table.relation(sub_of(xid))
            for number in range(len(rows) * block // blocks, len(rows) * (block + 1) // blocks):
                yield table.insert(rows[number], sub_of(xid))
            yield b"E"
    for place, (xid, _, _) in enumerate(parts if ends else []):
        yield stream_commit(xid, 0x100 * (place + 1))


class Rows:
    """Rows by number, made when they are asked for."""
    def __init__(self, make, first, count):
        self.make, self.first, self.count = make, first, count

    def __len__(self):
        return self.count

    def __getitem__(self, number):
        return self.make(self.first + number)


def mail(number, note=None):
    return [number, f"user{number}@example.org", note or f"note of the row number {number}, some text"]


MAIL = Table("mail", "itt", [0], [[1]])


def one(count):
    return [MAIL], streamed([(700, MAIL, Rows(mail, 1, count))], 4)


def four(tables, count, row=mail):
    """Four streamed transactions, one into each of these tables."""
    each = count // 4
    parts = [(700 + n, table, Rows(row, 1 + n * each, each)) for n, table in enumerate(tables)]
    return streamed(parts, max(1, each // 1000))


def beside(count):
    return [MAIL], four([MAIL] * 4, count)


def apart(count):
    tables = [replace(MAIL, name=f"mail{n}", oid=MAIL.oid + n) for n in range(4)]
    return tables, four(tables, count)


def keyed(count):
    table = Table("person", "tttii", [0, 1], [[2], [3]])
    row = lambda number: [f"country {number % 97}", f"person {number}", f"user{number}@example.org", number, number % 89]
    tables = [replace(table, name=f"person{n}", oid=table.oid + n) for n in range(4)]
    return tables, four(tables, count, row)


def many(count):
    def messages():
        lsn = 0x1000
        for number in range(count // 10):
            lsn += 0x100
            yield begin(1000 + number, lsn)
            if number == 0:
                yield MAIL.relation()
            base = 4 * number + 1
            for row in range(base, base + 4):
                yield MAIL.insert(mail(row))
            for row in range(max(1, base - 4), max(1, base - 4) + 3):
                yield MAIL.update(mail(row, f"changed {number}"))
            yield MAIL.delete(mail(base + 3))
            yield commit(lsn)
    return [MAIL], messages()


def undone(count):
    table = Table("two", "itt", [0], [[1], [2]])
    row = lambda number: [number, f"a{number}", f"b{number}"]
    return [table], streamed([(700, table, Rows(row, 1, count))], 4, ends=False)


def in_transactions(table, changes, size):
    """These changes, so many in each transaction."""
    lsn, place = 0x1000, 0
    for place, change in enumerate(changes):
        if place % size == 0:
            if place:
                yield commit(lsn)
            lsn += 0x100
            yield begin(1000 + place // size, lsn)
            if place == 0:
                yield table.relation()
        yield change
    yield commit(lsn)


def wide(count):
    table = Table("wide", "i" + "t" * 49, [0])
    rows = ([number] + [f"column {column} of {number}" for column in range(1, 50)] for number in range(1, count // 10 + 1))
    return [table], in_transactions(table, map(table.insert, rows), count)


def pairs(count):
    table = Table("pairs", "tti", [0, 1])
    rows = ([f"country {number % 97}", f"person {number}", number] for number in range(count))
    return [table], in_transactions(table, map(table.insert, rows), count)


def updates(count):
    def changes():
        for number in range(1, count + 1):
            yield MAIL.insert(mail(number))
        for number in range(1, count + 1):
            yield MAIL.update(mail(number, f"changed {number}"))
    return [MAIL], in_transactions(MAIL, changes(), 1000)


def churn(count):
    def changes():
        for first in range(1, count + 1, 1000):
            for number in range(first, first + 1000):
                yield MAIL.insert(mail(number))
            for number in range(first, first + 1000):
                yield MAIL.delete(mail(number))
    return [MAIL], in_transactions(MAIL, changes(), 1000)


def aborted(count):
    def messages():
        for xid, first in enumerate(range(1, count + 1, 10000), 700):
            yield from streamed([(xid, MAIL, Rows(mail, first, 10000))], 1, ends=False)
            yield stream_abort(xid, xid)
    return [MAIL], messages()


def in_subtransactions(count, are_rolled_back):
    """One streamed transaction of inserts, ten thousand in each subtransaction."""
    for sub, first in enumerate(range(1, count + 1, 10000), 701):
        yield stream_start(700, sub == 701)
        if sub == 701:
            yield MAIL.relation(sub_of(700))
        for number in range(first, first + 10000):
            yield MAIL.insert(mail(number), sub_of(sub))
        yield b"E"
        if are_rolled_back:
            yield stream_abort(700, sub)
    yield stream_commit(700, 0x100)


def saved(count):
    return [MAIL], in_subtransactions(count, False)


def rolled(count):
    return [MAIL], in_subtransactions(count, True)


KINDS = {kind.__name__: kind for kind in (one, many, beside, apart, keyed, saved, undone, wide, pairs, updates, churn, aborted, rolled)}


def write_stream(path, messages):
    """Writes the frames of messages, and answers how many of these change a row."""
    changes = 0
    with open(path, "wb", buffering=1 << 20) as file:
        for message in messages:
            changes += message[:1] in (b"I", b"U", b"D")
            file.write(b"d" + struct.pack(">I", 29 + len(message)) + b"w" + bytes(24) + message)
    return changes


@dataclass
class Run:
    seconds: float
    processor: float
    memory: int
    report: str


def run(words, out):
    """Runs a command whose report goes to a file. Its wall-clock and processor time, and the most memory that it held."""
    with open(out, "wb") as file:
        begun = time.perf_counter()
        child = subprocess.Popen(words, stdout=file)
        _, status, usage = os.wait4(child.pid, 0)
        seconds = time.perf_counter() - begun
    if status:
        sys.exit(f"figures: {' '.join(words)} ended with {os.waitstatus_to_exitcode(status)}")
    with open(out, "rb") as file:
        return Run(seconds, usage.ru_utime + usage.ru_stime, usage.ru_maxrss * 1024, hashlib.file_digest(file, "sha256").hexdigest())


def measure(kind, count, program, folder, runs):
    tables, messages = KINDS[kind](count)
    stream, catalog = f"{folder}/{kind}.stream", f"{folder}/{kind}.toml"
    changes = write_stream(stream, messages)
    with open(catalog, "w") as file:
        file.write("\n".join(table.catalog() for table in tables))
    commands = {verb: [program, verb, "--config", catalog, "--stream", stream] for verb in ("replay", "apply")}
    commands["plain"] = [f"{folder}/plain", stream, *(table.word() for table in tables)]
    if kind == "one":
        commands["limit"] = [f"{folder}/limit", stream]
    best = {}
    for _ in range(runs):
        for name, words in commands.items():
            now = run(words, f"{folder}/report")
            was = best.setdefault(name, now)
            if now.report != was.report or now.report != best["replay"].report:
                sys.exit(f"figures: {kind} {count}: {name} printed another report")
            best[name] = Run(min(was.seconds, now.seconds), min(was.processor, now.processor), max(was.memory, now.memory), now.report)
    size = os.path.getsize(stream)
    os.remove(stream)
    for name, it in best.items():
        print(f"| {kind} {count} | {size / 1e6:.0f} MB | {name} | {it.seconds:.2f} | {it.processor:.2f} | {it.memory / 1e6:.0f} MB "
              f"| {it.memory / changes:.0f} | {best['plain'].seconds / it.seconds:.2f} "
              f"| {best['plain'].processor / it.processor:.2f} |", flush=True)


def main():
    words = argparse.ArgumentParser(description=__doc__, formatter_class=argparse.RawDescriptionHelpFormatter)
    words.add_argument("--only", default=",".join(KINDS), help="kinds of streams, divided by commas")
    words.add_argument("--rows", default="1000000", help="how many rows, divided by commas")
    words.add_argument("--runs", type=int, default=3, help="how often each command runs")
    words.add_argument("--program", default=f"{HERE}/../crates/pgapply/out/pgapply")
    words.add_argument("--keep", help="a folder for the streams and the two Rust programs; else a temporary one")
    said = words.parse_args()
    with tempfile.TemporaryDirectory() as temporary:
        folder = said.keep or temporary
        for name in ("plain", "limit"):
            subprocess.run(["rustc", "-O", "-o", f"{folder}/{name}", f"{HERE}/{name}.rs"], check=True)
        print("| stream | size | command | seconds | processor | memory | bytes a change | plain / it | by processor |")
        print("|---|---|---|---|---|---|---|---|---|")
        for kind in said.only.split(","):
            for count in said.rows.split(","):
                measure(kind, int(count), said.program, folder, said.runs)


if __name__ == "__main__":
    main()
