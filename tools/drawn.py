#!/usr/bin/env python3
"""Draws streams, and compares what pgapply makes of them with rows that this script keeps.

    drawn.py [--program P] [--first N] [--streams N] [--turns N] [--tables N] [--unlocked]
    drawn.py --mirror P [--kills N] [--first N] [--streams N] [--turns N] [--tables N]

A stream is that of a publisher whose transactions keep the rows and unique values that they touch
locked until they end. Up to six are open at once, most of them streamed in blocks, with savepoints,
rollbacks to them, and aborts. `replay` has to print the rows that the script kept, and `apply` the same
by each of some settings of workers and rings. With --unlocked nothing is locked, so transactions meet: then
each run has to end, and one of `apply` that ends Clean has to print what `replay` prints.

With --tables each transaction changes any of so many tables, and now and then truncates one or several, which it
keeps locked too; the workers are as many as 16 then.

With --mirror it is `mirror` that follows each stream, into a file and as lines, by each of four settings; it is
killed at drawn moments and begun again. The file, and the rows that the lines make, have to be those that the
script kept, and no line may come twice. The same is asked of lines alone, without kills.

A stream is drawn from its number: --first N --streams 1 draws one again, and leaves it in the folder.
The last line counts; the status is 1 if anything differed. Needs python3 (3.11) and the built program.
"""
import argparse, collections, json, os, random, sqlite3, struct, subprocess, sys, tempfile, time
from dataclasses import dataclass, field
from figures import HERE, Table, begin, commit, stream_abort, stream_commit, stream_start, sub_of, tuple_of, write_stream

TABLES = [Table(f"mail{number or ''}", "itt", [0], [[1]], oid=16385 + number) for number in range(8)]
SETTINGS = [(0, 64), (1, 1), (1, 64), (2, 2), (3, 64), (4, 1), (6, 8)]
SETTINGS_OF_TABLES = [(0, 64), (1, 64), (2, 1), (4, 8), (8, 64), (16, 2), (16, 64)]
LAWFUL = {"Clean", "Unique", "HeldKey"}
# Of mirror: commits of an epoch, commits of a transaction of the file, workers.
FOLLOWING = [(1, 1, 2), (3, 1000, 0), (2, 2, 4), (100000, 1000, 2)]


# A place is the number of a table and that of a row; a mail is known with its table too.


def insert(place, row, sub):
    return TABLES[place[0]].insert(row, sub)


def update(place, row, sub, moved_from=None):
    old = b"" if moved_from is None else b"K" + tuple_of([moved_from, None, None])
    return b"U" + sub + struct.pack(">I", TABLES[place[0]].oid) + old + b"N" + tuple_of(row)


def delete(place, sub):
    return b"D" + sub + struct.pack(">I", TABLES[place[0]].oid) + b"K" + tuple_of([place[1], None, None])


def truncate(tables, sub):
    return b"T" + sub + struct.pack(">IB", len(tables), 0) + b"".join(struct.pack(">I", TABLES[table].oid) for table in tables)


@dataclass
class Savepoint:
    sub: int
    rows: dict
    places: set
    emptied: set


@dataclass
class Transaction:
    """What is open: the places and the mails that it has touched, the tables that it has locked whole and those
    that it has emptied, and its rows at these places."""
    xid: int
    is_streamed: bool
    places: set = field(default_factory=set)
    mails: set = field(default_factory=set)
    whole: set = field(default_factory=set)
    emptied: set = field(default_factory=set)
    rows: dict = field(default_factory=dict)
    savepoints: list = field(default_factory=list)
    subs: int = 0
    unsent: list = field(default_factory=list)
    is_known: bool = False

    def touch(self, places, mails):
        self.places |= set(places)
        self.mails |= {mail for mail in mails if mail[1]}

    def tables(self):
        """Those that it has touched."""
        return self.whole | {table for table, _ in self.places}


class Publisher:
    """Makes one stream, and keeps the rows that its commits leave."""

    def __init__(self, number, tables, is_locking):
        self.draws = random.Random(number)
        self.tables, self.is_locking = range(tables), is_locking
        self.numbers = range(1, self.draws.choice([8, 30, 200]))
        self.rows, self.open, self.messages = {}, [], []
        self.lsn, self.xid, self.is_known = 0x1000, 700, False

    def run(self, turns):
        for _ in range(turns):
            self.turn()
        if self.draws.random() < 0.7:
            for transaction in list(self.open):
                self.end(transaction)
        else:
            for transaction in self.open:
                self.send(transaction)
        return self.messages

    def turn(self):
        if len(self.open) < self.draws.choice([1, 3, 6]) and self.draws.random() < 0.3:
            self.xid += 1
            self.open.append(Transaction(self.xid, self.draws.random() < 0.75))
        if not self.open:
            return
        transaction, drawn = self.draws.choice(self.open), self.draws.random()
        if drawn < 0.75:
            for _ in range(self.draws.choice([1, 1, 5, 20])):
                self.work(transaction)
        elif drawn < 0.83:
            self.roll_back(transaction)
        elif drawn < 0.9:
            self.send(transaction)
        elif drawn > 0.95:
            self.end(transaction)

    def seen_by(self, transaction):
        """The committed rows, with the transaction's own at what it has touched."""
        seen = {place: row for place, row in self.rows.items()
                if place not in transaction.places and place[0] not in transaction.emptied}
        return seen | transaction.rows

    def others(self, transaction, of):
        """What other open transactions have touched."""
        return set().union(*(getattr(it, of) for it in self.open if it is not transaction)) if self.is_locking else set()

    def free_mail(self, transaction, table, seen):
        """A mail that no row of the table has and nobody else has touched, or none."""
        mail = f"m{self.draws.randrange(2 * len(self.numbers))}"
        is_taken = (table, mail) in self.others(transaction, "mails") or any(
            place[0] == table and mail == row[1] for rows in (seen, self.rows) for place, row in rows.items())
        return None if self.draws.random() < 0.3 or self.is_locking and is_taken else mail

    def work(self, transaction):
        """A change, some of them in a subtransaction of its own."""
        savepoints = transaction.savepoints
        is_new = transaction.is_streamed and self.draws.random() < 0.15
        if is_new:
            transaction.subs += 1
            savepoints.append(Savepoint(100 * transaction.xid + transaction.subs, dict(transaction.rows),
                                        set(transaction.places), set(transaction.emptied)))
        sub = savepoints[-1].sub if savepoints else transaction.xid
        empties = len(self.tables) > 1 and self.draws.random() < 0.02
        message = (self.empty if empties else self.change)(transaction, sub_of(sub) if transaction.is_streamed else b"")
        if message:
            transaction.unsent.append(message)
        elif is_new:
            savepoints.pop()

    def change(self, transaction, sub):
        seen, locked, whole = self.seen_by(transaction), self.others(transaction, "places"), self.others(transaction, "whole")
        free = [(table, number) for table in self.tables for number in self.numbers
                if table not in whole and (table, number) not in locked]
        if not free:
            return None
        place, kind = self.draws.choice(free), self.draws.random()
        if place not in seen:
            return self.put(transaction, sub, place, seen)
        table, old = place[0], seen[place]
        if (table, old[1]) in self.others(transaction, "mails"):
            return None
        if kind < 0.35:
            transaction.touch([place], [(table, old[1])])
            transaction.rows.pop(place, None)
            return delete(place, sub)
        if kind < 0.8:
            mail = self.free_mail(transaction, table, seen) if kind < 0.6 else old[1]
            return self.replace(transaction, sub, place, old, [place[1], mail, f"n{self.draws.randrange(1000)}"])
        target = self.draws.choice([other for other in free if other[0] == table])
        return None if target in seen else self.replace(transaction, sub, place, old, [target[1], old[1], old[2]])

    def put(self, transaction, sub, place, seen):
        if place in self.rows and place not in transaction.places and place[0] not in transaction.emptied:
            return None
        row = [place[1], self.free_mail(transaction, place[0], seen), f"n{self.draws.randrange(1000)}"]
        transaction.touch([place], [(place[0], row[1])])
        transaction.rows[place] = row
        return insert(place, row, sub)

    def replace(self, transaction, sub, place, old, new):
        table, target = place[0], (place[0], new[0])
        transaction.touch([place, target], [(table, old[1]), (table, new[1])])
        transaction.rows.pop(place, None)
        transaction.rows[target] = new
        return update(place, new, sub, old[0] if old[0] != new[0] else None)

    def empty(self, transaction, sub):
        """A truncate of one or several tables that nobody else has touched. They stay locked whole."""
        tables = self.draws.sample(self.tables, self.draws.choice([1, 2, min(3, len(self.tables))]))
        touched = set().union(*(it.tables() for it in self.open if it is not transaction))
        if self.is_locking and touched & set(tables):
            return None
        transaction.whole |= set(tables)
        transaction.emptied |= set(tables)
        transaction.rows = {place: row for place, row in transaction.rows.items() if place[0] not in tables}
        return truncate(tables, sub)

    def roll_back(self, transaction):
        """Back to a savepoint. What was touched since stays locked, and is as it is committed."""
        if not transaction.savepoints:
            return
        first = self.draws.randrange(len(transaction.savepoints))
        savepoint = transaction.savepoints[first]
        self.send(transaction)
        self.messages.append(stream_abort(transaction.xid, savepoint.sub))
        since = {place for place in transaction.places - savepoint.places if place[0] not in savepoint.emptied}
        transaction.rows = savepoint.rows | {place: self.rows[place] for place in since if place in self.rows}
        transaction.emptied = savepoint.emptied
        del transaction.savepoints[first:]

    def send(self, transaction):
        """What a streamed transaction has done since its last block."""
        if not transaction.is_streamed or transaction.is_known and not transaction.unsent:
            return
        self.messages.append(stream_start(transaction.xid, not transaction.is_known))
        if not transaction.is_known:
            self.messages += [TABLES[table].relation(sub_of(transaction.xid)) for table in self.tables]
        self.messages += [*transaction.unsent, b"E"]
        transaction.is_known, transaction.unsent = True, []

    def end(self, transaction):
        self.open.remove(transaction)
        self.send(transaction)
        if transaction.is_streamed and self.draws.random() < 0.2:
            self.messages.append(stream_abort(transaction.xid, transaction.xid))
            return
        self.lsn += 0x100
        if transaction.is_streamed:
            self.messages.append(stream_commit(transaction.xid, self.lsn))
        else:
            self.messages.append(begin(transaction.xid, self.lsn))
            if not self.is_known:
                self.messages += [TABLES[table].relation() for table in self.tables]
            self.is_known = True
            self.messages += [*transaction.unsent, commit(self.lsn)]
        self.rows = {place: row for place, row in self.rows.items()
                     if place not in transaction.places and place[0] not in transaction.emptied}
        self.rows |= transaction.rows

    def report(self):
        lines = []
        for table in self.tables:
            rows = [self.rows[place] for place in sorted(self.rows) if place[0] == table]
            lines.append(f"table public.{TABLES[table].name} {len(rows)}")
            lines += ["|".join("\\N" if value is None else str(value) for value in row) for row in rows]
        return "\n".join(lines) + "\n"


def run(program, folder, verb, *options):
    words = [program, verb, "--config", f"{folder}/drawn.toml", "--stream", f"{folder}/drawn.stream", *options]
    try:
        return subprocess.run(words, capture_output=True, text=True, timeout=60).stdout
    except subprocess.TimeoutExpired:
        return "end 0 Never\n"


def end_of(report):
    return report.splitlines()[-1].split()[2]


def differences(program, folder, publisher, ends):
    """Which runs of the stream in the folder print what they may not."""
    replayed = run(program, folder, "replay")
    is_clean = end_of(replayed) == "Clean"
    if publisher.is_locking and not (is_clean and replayed.startswith(publisher.report())):
        yield "replay"
    for workers, ring in SETTINGS if len(publisher.tables) == 1 else SETTINGS_OF_TABLES:
        applied = run(program, folder, "apply", "--workers", str(workers), "--ring", str(ring))
        end = end_of(applied)
        ends[end] += 1
        is_same = applied == replayed
        if not is_same and (publisher.is_locking or end == "Clean") or end not in LAWFUL:
            yield f"apply --workers {workers} --ring {ring}: end {end}"


def rows_of_file(path, tables):
    """The rows of a file of mirror."""
    file = sqlite3.connect(path)
    rows = {(table, row[0]): list(row) for table in tables
            for row in file.execute(f'SELECT c0, c1, c2 FROM "{TABLES[table].name}"')}
    file.close()
    return rows


def rows_of_lines(path):
    """The rows that lines of mirror make, or None where one is broken, comes twice or meets another row."""
    rows, ends = {}, []
    numbers = {f"public.{table.name}": number for number, table in enumerate(TABLES)}
    with open(path, encoding="utf-8", newline="") as file:
        text = file.read()
    for line in filter(None, text.split("\n")):
        change = json.loads(line)
        high, low = change["lsn"].split("/")
        end, kind, table = int(high, 16) << 32 | int(low, 16), change["kind"], numbers[change["table"]]
        if ends and end < ends[-1]:
            return None
        ends.append(end)
        if kind == "truncate":
            rows = {place: row for place, row in rows.items() if place[0] != table}
            continue
        key = table, change["key"]["c0"]
        if (kind == "insert") == (key in rows):
            return None
        rows.pop(key, None)
        if "row" in change:
            rows[table, change["row"]["c0"]] = list(change["row"].values())
    return rows if text.endswith("\n") or not text else None


def follow(program, folder, words, kills, draws):
    """Follows the stream in the folder, killed so often meanwhile; whether it ended well."""
    words = [program, "--config", f"{folder}/drawn.toml", "--stream", f"{folder}/drawn.stream", *words]
    for _ in range(kills):
        begun = subprocess.Popen(words, stderr=subprocess.DEVNULL)
        time.sleep(draws.random() * 0.12)
        begun.kill()
        begun.wait()
    return subprocess.run(words, capture_output=True, timeout=60).returncode == 0


def mirror_differences(program, folder, publisher, kills):
    """By which settings mirror leaves what it may not."""
    file, lines = f"{folder}/drawn.sqlite", f"{folder}/drawn.jsonl"
    for epoch, batch, workers in FOLLOWING:
        setting = ["--epoch", str(epoch), "--batch", str(batch), "--workers", str(workers)]
        for path in (file, f"{file}-wal", lines):
            if os.path.exists(path):
                os.remove(path)
        ended = follow(program, folder, ["--into", file, "--json", lines, *setting], kills, publisher.draws)
        if not (ended and rows_of_file(file, publisher.tables) == rows_of_lines(lines) == publisher.rows):
            yield f"mirror {' '.join(setting)}"
        os.remove(lines)
        if not (follow(program, folder, ["--json", lines, *setting], 0, publisher.draws) and rows_of_lines(lines) == publisher.rows):
            yield f"mirror {' '.join(setting)}, lines alone"


def main():
    words = argparse.ArgumentParser(description=__doc__, formatter_class=argparse.RawDescriptionHelpFormatter)
    words.add_argument("--program", default=f"{HERE}/../crates/pgapply/out/pgapply")
    words.add_argument("--first", type=int, default=1, help="the number of the first stream")
    words.add_argument("--streams", type=int, default=100, help="how many streams")
    words.add_argument("--turns", type=int, default=400, help="how many turns of a publisher a stream has")
    words.add_argument("--tables", type=int, default=1, choices=range(1, len(TABLES) + 1), help="how many tables a stream has")
    words.add_argument("--unlocked", action="store_true", help="transactions lock nothing")
    words.add_argument("--mirror", help="the program mirror, which follows the streams in place of pgapply")
    words.add_argument("--kills", type=int, default=4, help="how often mirror is killed")
    said = words.parse_args()
    ends, messages, differing = collections.Counter(), 0, 0
    with tempfile.TemporaryDirectory() as temporary:
        folder = os.getcwd() if said.streams == 1 else temporary
        with open(f"{folder}/drawn.toml", "w") as file:
            file.write("".join(table.catalog() for table in TABLES[:said.tables]))
        for number in range(said.first, said.first + said.streams):
            publisher = Publisher(number, said.tables, not said.unlocked)
            drawn = publisher.run(said.turns)
            write_stream(f"{folder}/drawn.stream", drawn)
            messages += len(drawn)
            differing_runs = (mirror_differences(said.mirror, folder, publisher, said.kills) if said.mirror
                              else differences(said.program, folder, publisher, ends))
            for difference in differing_runs:
                differing += 1
                print(f"stream {number}: {difference}", flush=True)
    told = ", ".join(f"{count} {end}" for end, count in sorted(ends.items())) or "none"
    print(f"{said.streams} streams of {messages} messages; ends of apply: {told}; {differing} differ")
    return differing > 0


if __name__ == "__main__":
    sys.exit(main())
