#!/usr/bin/env python3
"""Compares pgapply's rows with those of a real PostgreSQL server, table by table.

Sets up a server of its own in a temporary folder (PostgreSQL 16 or later), captures the stream of a
publication with `publisher capture` while sessions work on its tables side by side: large transactions
that are streamed, savepoints, rollbacks, truncates, changes of keys, long texts that stay, odd texts.
Beside it `pgapply follow` takes the same work from `publisher serve` while it comes. Then it shuts the
server down, which ends both, applies the file with `pgapply replay` and `pgapply apply`, and prints a line
for each table. Further captures are applied too: of a slot that was made before the work and is read after
it; one with `--copy`, of a slot that is made while sessions write to tables that have rows; and one that is
killed again and again, each time with `--append` behind it. A follower that reads slowly stays to the
shutdown, and has to hear its end. Then sessions write while `serve`, `follow` and the server are killed at
drawn moments: a follower that keeps what it was given goes on behind each `serve`, `follow` begins anew with
the rows that are there, and a capture goes on with `--append`. At last `mirror` is killed at drawn moments, and
goes on with its file behind the same `serve`. It exits with 0 where all rows are right.

With --mirror-figures it measures `mirror` alone: how fast it takes a slot's stream, and the memory that it has.
With --mirror-memory it follows while sessions change rows at a pace, ten million times in an hour: the memory that
it has is to stay.

Needs: python3 (3.11), PostgreSQL's programs (Debian: postgresql-16 or later) in --bin, and the built
programs `publisher`, `pgapply` and `mirror` (`rt run` or `rt ci` leave them in crates/NAME/out).
"""
import argparse, json, os, random, shutil, signal, socket, sqlite3, struct, subprocess, sys, tempfile, threading
import time, tomllib

FORMS = ("-c datestyle=ISO -c intervalstyle=postgres -c extra_float_digits=3 -c timezone=UTC "
         "-c bytea_output=hex")

TABLES = r'''
CREATE DOMAIN positive AS int CHECK (value > 0);
CREATE TYPE mood AS ENUM ('sad', 'ok', 'a|b\c');
CREATE TABLE accounts (id int PRIMARY KEY, email text UNIQUE, note text DEFAULT 'x', ok boolean,
    amount positive);
CREATE TABLE "Odd ""table"" \ |" ("k 1" text, k2 varchar(40), v text, PRIMARY KEY ("k 1", k2));
CREATE TABLE whole (id bigint PRIMARY KEY, body text, n smallint);
ALTER TABLE whole REPLICA IDENTITY FULL;
CREATE TABLE large (id bigint PRIMARY KEY, session int, body text);
CREATE TABLE emptied (id int PRIMARY KEY, body text);
CREATE TABLE other (id int PRIMARY KEY, price numeric(20,4) UNIQUE, at timestamptz, face mood,
    tags text[], doc jsonb, bin bytea, f float8, gap interval);
CREATE PUBLICATION live FOR ALL TABLES;
'''

ODD = ["", "|", "\\", "\\N", "\\p|\\", "a\nb", "a\rb", "\r\n", "\t", "'", '"', "\u00e4\u00f6\u20ac", "\U0001f600",
       "\x01\x7f", "x" * 5000, "t", "NULL", "  ", "e\u0301"]


def quote(text):
    return "NULL" if text is None else "E'" + text.replace("\\", "\\\\").replace("'", "\\'") + "'"


class Server:
    def __init__(self, options):
        self.bin, self.user, self.port = options.bin, options.run_as, options.port
        self.folder = tempfile.mkdtemp(prefix="live-", dir=options.folder)
        os.chmod(self.folder, 0o777)
        self.data = os.path.join(self.folder, "data")
        self.runs = False

    def program(self, name, *words, **more):
        prefix = ["runuser", "-u", self.user, "--"] if self.user else []
        return subprocess.run(prefix + [os.path.join(self.bin, name), *words], check=True,
                              stdout=subprocess.DEVNULL, **more)

    def set_up(self):
        self.program("initdb", "-D", self.data, "-U", "postgres", "-A", "trust", "--no-sync", "-E", "UTF8",
                     "--locale=C")
        self.start()

    def start(self, **more):
        settings = (f"-c port={self.port} -c listen_addresses=127.0.0.1 -c unix_socket_directories={self.folder} "
                    "-c wal_level=logical -c logical_decoding_work_mem=64kB -c fsync=off")
        self.program("pg_ctl", "-D", self.data, "-l", os.path.join(self.folder, "log"), "-w", "-o", settings,
                     "start", **more)
        self.runs = True

    def stop(self, mode="fast"):
        self.runs = False
        self.program("pg_ctl", "-D", self.data, "-m", mode, "-w", "-t", "300", "stop")

    def kill(self):
        """Kills the server, and starts it again once its processes have seen that."""
        self.runs = False
        with open(os.path.join(self.data, "postmaster.pid")) as file:
            os.kill(int(file.readline()), signal.SIGKILL)
        for _ in range(60):
            time.sleep(0.5)
            try:
                return self.start(stderr=subprocess.DEVNULL)
            except subprocess.CalledProcessError:
                pass
        sys.exit("the server does not start again")

    def drop_slot(self, slot):
        """Drops a slot as soon as nobody streams through it, if it is there."""
        there = f"FROM pg_replication_slots WHERE slot_name = '{slot}'"
        while self.sql(f"SELECT 1 {there};")[0]:
            self.sql(f"SELECT pg_drop_replication_slot(slot_name) {there} AND NOT active;")
            time.sleep(0.05)

    def log_end(self):
        return self.sql("SELECT pg_current_wal_insert_lsn();")[0].strip()

    def sql(self, text):
        words = ["psql", "-X", "-q", "-At", "-v", "ON_ERROR_STOP=1", "-h", "127.0.0.1", "-p", str(self.port), "-U",
                 "postgres", "-d", "postgres"]
        done = subprocess.run(words, input=text, text=True, capture_output=True,
                              env={**os.environ, "PGOPTIONS": FORMS, "PGCLIENTENCODING": "UTF8"})
        return done.stdout, done.stderr


def large_work(session, turn, chance):
    """A transaction that is streamed: some thousand rows, savepoints, some rolled back."""
    base = session * 100_000_000 + turn * 100_000
    lines = ["BEGIN;"]
    for part in range(chance.randint(2, 6)):
        first = base + part * 10_000
        lines.append(f"SAVEPOINT s{part};")
        lines.append(f"INSERT INTO large SELECT i, {session}, repeat(md5(i::text), 4) FROM "
                     f"generate_series({first}, {first + chance.randint(100, 1500)}) i;")
        if chance.random() < 0.4:
            lines.append(f"SAVEPOINT t{part}; UPDATE large SET body = {quote(chance.choice(ODD))} "
                         f"WHERE id >= {first} AND id % 3 = 0 AND session = {session};")
            if chance.random() < 0.5:
                lines.append(f"ROLLBACK TO t{part};")
        if chance.random() < 0.3:
            lines.append(f"DELETE FROM large WHERE id >= {first} AND id % 7 = 0 AND session = {session};")
        if chance.random() < 0.35:
            lines.append(f"ROLLBACK TO s{part};")
    lines.append("COMMIT;" if chance.random() < 0.8 else "ROLLBACK;")
    return lines


def small_work(session, turn, chance):
    """Short transactions on rows of this session's own."""
    own = session * 1000 + chance.randint(0, 60)
    odd = quote(chance.choice(ODD + [None]))
    key = quote(f"{session}{chance.choice(ODD)[:30]}")
    return [chance.choice([
        f"INSERT INTO accounts VALUES ({own}, 'e{own}-{turn}', {odd}, {chance.choice(['true', 'false', 'NULL'])}, "
        f"{own + 1}) ON CONFLICT (id) DO UPDATE SET note = {odd}, amount = NULL;",
        f"UPDATE accounts SET id = id + 100 WHERE id = {own} AND NOT EXISTS "
        f"(SELECT FROM accounts WHERE id = {own + 100});",
        f"DELETE FROM accounts WHERE id = {own};",
        f"INSERT INTO \"Odd \"\"table\"\" \\ |\" VALUES ({key}, 'v{session}', {odd}) ON CONFLICT DO NOTHING;",
        f"UPDATE \"Odd \"\"table\"\" \\ |\" SET v = {odd} WHERE \"k 1\" = {key};",
        # A row whose longer key is there is passed over: keys are compared row by row, in an order of the plan.
        f"UPDATE \"Odd \"\"table\"\" \\ |\" o SET k2 = k2 || 'x' WHERE \"k 1\" = {key} AND length(k2) < 20 AND NOT EXISTS "
        f"(SELECT FROM \"Odd \"\"table\"\" \\ |\" WHERE \"k 1\" = o.\"k 1\" AND k2 = o.k2 || 'x');",
        f"INSERT INTO whole VALUES ({own}, (SELECT string_agg(md5(i::text), '') FROM generate_series(1, 400) i), "
        f"{turn % 100}) ON CONFLICT (id) DO UPDATE SET n = whole.n + 1;",
        f"DELETE FROM whole WHERE id = {own};",
        f"INSERT INTO emptied VALUES ({own}, {odd}) ON CONFLICT DO NOTHING;",
        "TRUNCATE emptied;",
        f"INSERT INTO other VALUES ({own}, {own}.5, now(), {quote(chance.choice(['sad', 'ok', 'a|b' + chr(92) + 'c']))}, "
        f"ARRAY[{odd}, 'b'], '{{\"a\": [1, null]}}', '\\x00ff', {own} / 3.0, '1 day 2 hours') "
        f"ON CONFLICT (id) DO UPDATE SET tags = NULL, f = 'NaN';",
    ])]


def session_work(server, session, turns, seed, failures):
    chance = random.Random(seed * 100 + session)
    lines = []
    for turn in range(turns):
        lines += large_work(session, turn, chance) if chance.random() < 0.15 else small_work(session, turn, chance)
    _, errors = server.sql("\n".join(lines))
    if errors:
        failures.append(errors.splitlines()[0])


def escape(text):
    return text.replace("\\", "\\\\").replace("|", "\\p").replace("\n", "\\n").replace("\r", "\\r")


def shown(kind, text):
    """A value in pgapply's report."""
    if text is None:
        return "\\N"
    if kind == "bool":
        return text[0]
    return escape(text) if kind == "text" else text


def named(name):
    """A name in SQL."""
    return '"' + name.replace('"', '""') + '"'


def lines_of(table, rows):
    """What pgapply prints of a table with these rows, whose values are texts."""
    columns = table["column"]
    places = [next(i for i, c in enumerate(columns) if c["name"] == key) for key in table["primary"]]
    kinds = [column["type"] for column in columns]

    def order(row):
        return [int(row[p]) if kinds[p] == "int" else row[p].encode() for p in places]

    return ["|".join(shown(kind, value) for kind, value in zip(kinds, row)) for row in sorted(rows, key=order)]


def label_of(table):
    return escape(table["namespace"]) + "." + escape(table["name"])


def expected(server, catalog):
    """What pgapply has to print of the server's own rows."""
    lines = {}
    for table in catalog["table"]:
        texts = ", ".join(named(column["name"]) + "::text" for column in table["column"])
        output, errors = server.sql(
            f"SELECT json_build_array({texts}) FROM {named(table['namespace'])}.{named(table['name'])};")
        if errors:
            sys.exit(errors)
        lines[label_of(table)] = lines_of(table, (json.loads(line) for line in output.split("\n") if line))
    return lines


def rows_of_file(path, catalog):
    """What pgapply would print of the rows in a file of `mirror`."""
    file = sqlite3.connect(f"file:{path}?mode=ro", uri=True)
    if file.execute("PRAGMA integrity_check").fetchall() != [("ok",)]:
        sys.exit(f"{path} is not whole")
    lines = {}
    for table in catalog["table"]:
        kinds = [column["type"] for column in table["column"]]
        columns = ", ".join(named(column["name"]) for column in table["column"])
        name = table["name"] if table["namespace"] == "public" else f"{table['namespace']}.{table['name']}"
        rows = file.execute(f"SELECT {columns} FROM {named(name)}")
        lines[label_of(table)] = lines_of(table, (list(map(text_of, kinds, row)) for row in rows))
    file.close()
    return lines


def position_of(path):
    """How far in the log a file of `mirror` is; 0 where there is none."""
    if not os.path.exists(path):
        return 0
    file = sqlite3.connect(f"file:{path}?mode=ro", uri=True)
    (position,) = file.execute("SELECT lsn FROM pgapply_position").fetchone()
    file.close()
    return position


def text_of(kind, value):
    """The server's text of a value in a file of `mirror`."""
    if value is None:
        return None
    return ("false", "true")[value] if kind == "bool" else str(value)


def reported(text):
    """A report by its tables, and its last lines."""
    lines, tables, at = text.split("\n"), {}, 0
    while lines[at].startswith("table "):
        label, count = lines[at][6:].rsplit(" ", 1)
        tables[label] = lines[at + 1:at + 1 + int(count)]
        at += 1 + int(count)
    return tables, lines[at:]


def compare_tables(name, tables, wanted):
    """Whether tables have the server's rows, with a line for each."""
    right = True
    for label, rows in wanted.items():
        same = tables.get(label) == rows
        right = right and same
        print(f"{name}: {label}: {len(rows)} rows {'right' if same else 'WRONG'}")
    return right


def compare(name, report, status, wanted):
    """Whether a report has the server's rows."""
    tables, rest = reported(report)
    right = compare_tables(name, tables, wanted)
    print(f"{name}: {sum(map(len, wanted.values()))} rows, {rest[0]}, {rest[1]}, status {status}")
    return right and status == 0


def compare_file(name, verb, options, catalog_file, stream, wanted):
    began = time.monotonic()
    words = [options.pgapply, verb, "--config", catalog_file, "--stream", stream]
    done = subprocess.run(words, capture_output=True)
    seconds = time.monotonic() - began
    size = os.path.getsize(stream)
    print(f"{name} {verb}: {size} bytes in {seconds:.2f} s ({size / 1e6 / seconds:.1f} MB/s)")
    return compare(f"{name} {verb}", done.stdout.decode(), done.returncode, wanted)


def compare_files(server, options, names, wanted):
    """Whether these files give the server's rows, each by both commands."""
    place = lambda name: os.path.join(server.folder, name)
    right = True
    for name in names:
        for verb in ["replay", "apply"]:
            right = compare_file(name, verb, options, place("catalog.toml"), place(f"{name}.stream"), wanted) and right
    return right


class Program:
    """A program that goes on, and what it says on standard error."""

    STARTED = []

    def __init__(self, words):
        self.process = subprocess.Popen(words, stderr=subprocess.PIPE, text=True)
        self.STARTED.append(self.process)
        self.said = []
        self.thread = threading.Thread(target=self.hear, daemon=True)
        self.thread.start()

    def hear(self):
        for line in self.process.stderr:
            self.said.append(line.strip())

    def last(self):
        return self.said[-1] if self.said else ""

    def has_said(self, text):
        return any(text in line for line in list(self.said))

    def runs(self):
        return self.process.poll() is None

    def kill(self):
        self.process.kill()
        self.wait()

    def wait(self, seconds=60):
        """Waits until it has ended, and answers its status."""
        self.process.wait(timeout=seconds)
        self.thread.join()
        return self.process.returncode


class Service(Program):
    """A `publisher serve` that listens."""

    def __init__(self, options, where, slot, number, more):
        self.address = f"127.0.0.1:{options.port + number}"
        super().__init__([options.publisher, "serve", *where, "--slot", slot, "--listen", self.address, *more])
        # It says before that it made the slot.
        while not self.has_said("listening at"):
            time.sleep(0.01)
            if not self.runs():
                sys.exit(f"serve: {self.last()}")

    def is_free(self):
        """Whether it has seen that each one whom it served is gone."""
        said = list(self.said)
        gone = sum(line.endswith((": the follower closed", ": a fault")) for line in said)
        return gone == sum("a follower came" in line for line in said)


class Follower:
    """`pgapply follow`, which takes a slot's stream from `publisher serve`."""

    def __init__(self, options, service, catalog_file):
        self.service = service
        self.follow = subprocess.Popen([options.pgapply, "follow", "--config", catalog_file, "--connect",
                                        service.address], stdout=subprocess.PIPE, stderr=subprocess.PIPE)

    def kill(self):
        self.follow.kill()
        self.follow.communicate()

    def report(self):
        report, errors = self.follow.communicate(timeout=120)
        sys.stderr.write(errors.decode())
        self.service.wait()
        return report.decode(), self.follow.returncode


class Own:
    """A follower of the test's own, which answers as `pgapply follow` does."""

    def __init__(self):
        self.frames, self.applied, self.seen, self.end = {}, 0, 0, "nothing"

    def connect(self, address):
        host, port = address.split(":")
        self.socket = socket.create_connection((host, int(port)))

    def receive(self):
        return self.socket.recv(65536)

    def read(self):
        rest = b""
        try:
            while chunk := self.receive():
                rest = self.take_all(rest + chunk)
            self.end = "the end"
        except OSError as error:
            self.end = repr(error)
        self.socket.close()

    def take_all(self, chunk):
        at = 0
        while len(chunk) >= at + 5 and len(chunk) > (last := at + struct.unpack_from(">I", chunk, at + 1)[0]):
            frame, at = chunk[at:last + 1], last + 1
            self.take(frame)
        return chunk[at:]

    def take(self, frame):
        kind = frame[:1].decode() + (frame[5:6].decode() if frame[:1] == b"d" else "")
        self.frames[kind] = self.frames.get(kind, 0) + 1
        commits = kind == "dw" and frame[30:31] in b"Cc"
        if kind == "dk":
            self.seen = max(self.seen, struct.unpack(">Q", frame[6:14])[0])
        if kind == "dw":
            self.seen = max(self.seen, *struct.unpack(">QQ", frame[6:22]))
            if commits:
                self.applied = struct.unpack(">Q", frame[40:48] if frame[30:31] == b"C" else frame[44:52])[0]
        if kind == "dk" and frame[22] or commits:
            places = struct.pack(">QQQQB", self.seen, self.applied, self.applied, 0, 0)
            self.socket.sendall(b"d\0\0\0\x26r" + places)


class Slow(Own):
    """One that reads some ten kilobytes a second until it is to hurry."""

    def __init__(self, options, where):
        super().__init__()
        self.service = Service(options, where, "slow", 2, ["--create", "--once"])
        self.hurries = False
        self.connect(self.service.address)
        self.thread = threading.Thread(target=self.read, daemon=True)
        self.thread.start()

    def receive(self):
        if self.hurries:
            return super().receive()
        time.sleep(0.1)
        return self.socket.recv(1000)

    def is_right(self):
        """Whether it heard CopyDone and then the end, and not a keepalive for each answer."""
        self.thread.join(timeout=120)
        self.service.wait()
        keepalives = self.frames.get("dk", 0)
        right = self.end == "the end" and self.frames.get("c") == 1 and keepalives < 2000
        print(f"slow: {self.frames.get('dw', 0)} pieces, {keepalives} keepalives, then {self.end}; "
              f"{self.service.last()}: {'right' if right else 'WRONG'}")
        return right


class Keeping(Own):
    """One that keeps what it is given up to the last edge outside of transactions, and goes on there behind
    each `serve` that is killed."""

    def __init__(self, server, options, where, seed):
        super().__init__()
        self.server, self.options, self.where, self.chance = server, options, where, random.Random(seed)
        self.bytes, self.edge, self.inside, self.open, self.fresh = bytearray(), 0, False, [], None
        self.done, self.in_copy = False, 0

    def serve(self, *more):
        """A service that begins with the rows, as long as they did not come whole."""
        if not self.applied:
            self.server.drop_slot("kept")
        begins = [] if self.applied else ["--create", "--copy"]
        self.service = Service(self.options, self.where, "kept", 3, [*begins, *more])
        self.thread = threading.Thread(target=self.follow, daemon=True)
        self.thread.start()

    def kill(self):
        for kill in range(self.options.kills):
            self.serve()
            # The first kills come while the rows are copied, the others behind that.
            while kill >= self.options.kills // 4 and self.service.runs() and not self.applied:
                time.sleep(0.01)
            time.sleep(self.chance.uniform(0.05, 1.5 if self.applied else 0.3))
            self.service.kill()
            self.thread.join()
            self.in_copy += not self.applied

    def finish(self, until, path):
        self.serve("--until", until)
        self.thread.join(timeout=120)
        self.service.kill()
        with open(path, "wb") as file:
            file.write(self.bytes)

    def follow(self):
        """Follows until the service is gone, or says that the stream is over. A slot is taken for a moment by
        the service before."""
        while self.service.runs() and not self.done:
            try:
                self.connect(self.service.address)
            except OSError:
                continue
            self.read()
            self.cut()
            time.sleep(0.05)

    def take(self, frame):
        self.keep(frame)
        super().take(frame)

    def keep(self, frame):
        if frame[:1] in b"Ec":
            self.done = self.done or frame[:1] == b"c"
            return
        self.bytes += frame
        if frame[:1] == b"d" and frame[5:6] == b"w":
            self.note(frame[30:31], frame[31:35], frame[35:39])
        if not self.inside:
            self.edge, self.fresh = len(self.bytes), None

    def note(self, tag, xid, subtransaction):
        if tag == b"S" and xid not in self.open:
            self.open.append(xid)
            self.fresh = xid
        if (tag == b"c" or tag == b"A" and xid == subtransaction) and xid in self.open:
            self.open.remove(xid)
        self.inside = tag in b"BS" or self.inside and tag not in b"CEc"

    def cut(self):
        """Streamed transactions that are open come again from their beginnings: each is aborted here."""
        del self.bytes[self.edge:]
        for xid in self.open:
            if xid != self.fresh:
                body = struct.pack(">cQQQc", b"w", self.seen, self.seen, 0, b"A") + xid + xid
                body += struct.pack(">QQ", self.seen, 0)
                self.bytes += b"d" + struct.pack(">I", len(body) + 4) + body
        self.edge, self.inside, self.open, self.fresh = len(self.bytes), False, [], None
        self.seen = self.applied


class Killed:
    """A capture that is killed at drawn moments, and goes on with --append."""

    def __init__(self, server, options, where, slot, path, seed):
        self.words = [options.publisher, "capture", *where, "--slot", slot, "--out", path]
        self.slot, self.server, self.kills, self.chance = slot, server, 0, random.Random(seed)
        self.least = options.kills
        self.capture = subprocess.Popen([*self.words, "--create", "--copy"], stderr=subprocess.DEVNULL)
        wait_for_slot(server, slot, self.capture)

    def append(self, *more):
        return subprocess.Popen([*self.words, "--append", *more], stderr=subprocess.DEVNULL)

    def kill_captures(self):
        while self.kills < self.least:
            time.sleep(self.chance.uniform(0.05, 1.5))
            if self.capture.poll() is None:
                self.capture.kill()
                self.kills += 1
            self.capture.wait()
            self.capture = self.append()

    def kill_servers(self):
        """The capture has to end by itself each time."""
        while self.kills < self.least:
            time.sleep(self.chance.uniform(0.05, 1.5))
            self.server.kill()
            self.kills += 1
            if self.capture.wait(timeout=60) == 0:
                sys.exit("a capture did not see that the server was killed")
            self.capture = self.append()

    def finish(self, until):
        """Brings the file up to the place."""
        self.capture.kill()
        self.capture.wait()
        for _ in range(100):
            # The server may not have seen yet that the capture before is gone.
            if self.append("--until", until).wait() == 0:
                return
            time.sleep(0.2)
        sys.exit(f"the capture of {self.slot} does not go on")


def wait_for_slot(server, slot, process):
    """Waits until the slot's stream has begun: it is also active while it is made."""
    streams = ("SELECT 1 FROM pg_replication_slots s JOIN pg_stat_replication r ON r.pid = s.active_pid "
               f"WHERE s.slot_name = '{slot}' AND r.state IN ('catchup', 'streaming');")
    while not server.sql(streams)[0]:
        time.sleep(0.1)
        if process.poll() is not None:
            sys.exit(f"the capture of {slot} ended before the work")


def is_next_served(service):
    """Whether one who comes next is served. Else the service has ended: the copy of its rows broke off."""
    host, port = service.address.split(":")
    for _ in range(600):
        try:
            with socket.create_connection((host, int(port)), timeout=5) as stranger:
                # A notice comes first, to one who is served, and an error to one who isn't.
                if stranger.recv(1) == b"N":
                    return True
        except OSError:
            pass
        if not service.runs():
            return False
        time.sleep(0.1)
    sys.exit("serve did not see that its follower was killed")


def kill_followers(server, options, where, catalog_file, seed):
    """Kills `follow`, each time behind a slot that is made anew. No slot stays of a copy that broke off."""
    chance, in_copy, right = random.Random(seed), 0, True
    for kill in range(options.kills):
        service = Service(options, where, "again", 4, ["--create", "--copy"])
        follower = Follower(options, service, catalog_file)
        if kill % 2:
            wait_for_slot(server, "again", service.process)
        time.sleep(chance.uniform(0.05, 1.5))
        follower.kill()
        if not is_next_served(service):
            in_copy += 1
            right = right and not server.sql("SELECT 1 FROM pg_replication_slots WHERE slot_name = 'again';")[0]
        service.kill()
        server.drop_slot("again")
    print(f"follow: killed {options.kills} times, {in_copy} of them in the copy: {'right' if right else 'WRONG'}")
    return right


def start_mirror(server, options, service, file, *more):
    return Program([options.mirror, "--config", os.path.join(server.folder, "catalog.toml"), "--connect",
                    service.address, "--into", file, *more])


class Mirror:
    """`mirror`, which is killed at drawn moments and goes on with its file. `serve` stays, but where a copy of the
    rows broke off: then it has dropped its slot, and both begin anew, with a new file."""

    SLOT, FILES = "mirrored", ["mirror.sqlite", "copy.sqlite"]

    def __init__(self, server, options, where, seed):
        self.server, self.options, self.where, self.chance = server, options, where, random.Random(seed)
        self.file, self.copy = [os.path.join(server.folder, name) for name in self.FILES]
        self.begun = 0

    def serve(self, *more):
        slot = self.server.sql(f"SELECT 1 FROM pg_replication_slots WHERE slot_name = '{self.SLOT}';")[0]
        if not slot:
            self.begun += 1
            for name in os.listdir(self.server.folder):
                if name.startswith(tuple(self.FILES)):
                    os.remove(os.path.join(self.server.folder, name))
        begins = [] if slot else ["--create", "--copy"]
        self.service = Service(self.options, self.where, self.SLOT, 5, [*begins, *more])

    def start(self, *more):
        self.mirror = start_mirror(self.server, self.options, self.service, self.file, "--publish", self.copy, *more)

    def kill(self):
        """Each second time from the moment on at which it is connected: before that it reads its file. The first
        kills come while the rows are copied, the others behind that. It answers whether `mirror` never ended by
        itself."""
        self.serve()
        for kill in range(self.options.mirror_kills):
            if not self.service.runs():
                self.serve()
            self.start()
            if kill % 2:
                self.wait_for(lambda: self.mirror.has_said("connected to"))
            if kill >= self.options.mirror_kills // 4:
                self.wait_for(lambda: position_of(self.copy))
            time.sleep(self.chance.uniform(0.05, 1.5))
            if not self.mirror.runs():
                print(f"mirror: ended by itself: {self.mirror.last()}: WRONG")
                return False
            self.mirror.kill()
            self.wait_for(self.service.is_free)
        return True

    def wait_for(self, is_so):
        """Waits until this is so, or the service has ended."""
        while self.service.runs() and not is_so():
            time.sleep(0.02)

    def finish(self, until):
        """Brings the file up to this place, and answers whether `mirror` ended well."""
        if is_next_served(self.service):
            self.service.kill()
        self.serve("--once", "--until", until)
        self.start("--once")
        status = self.mirror.wait(600)
        self.service.wait()
        print(f"mirror: killed {self.options.mirror_kills} times, {self.begun - 1} of them in the copy; then "
              f"{self.mirror.last()}, status {status}")
        return status == 0


class Writers:
    """Sessions that write until they are to stop. What fails, as the server is gone, is passed over."""

    def __init__(self, server, options, sessions, seed, pause=0.2):
        self.server, self.seed, self.pause, self.goes_on = server, seed, pause, True
        self.threads = [threading.Thread(target=self.write, args=(session,), daemon=True) for session in sessions]
        for thread in self.threads:
            thread.start()

    def write(self, session):
        chance, turn = random.Random(self.seed * 100 + session), 0
        while self.goes_on:
            lines = []
            for turn in range(turn + 1, turn + 5):
                kind = large_work if chance.random() < 0.15 else small_work
                lines += kind(session, turn, chance)
            self.server.sql("\n".join(lines))
            time.sleep(self.pause)

    def stop(self):
        self.goes_on = False
        for thread in self.threads:
            thread.join()


def work(server, options, sessions, seed, title):
    """Sessions that write side by side."""
    failures = []
    began = time.monotonic()
    threads = [threading.Thread(target=session_work, args=(server, s, options.turns, seed, failures))
               for s in sessions]
    for thread in threads:
        thread.start()
    return threads, failures, began, title


def finish_work(going, options):
    threads, failures, began, title = going
    for thread in threads:
        thread.join()
    if failures:
        sys.exit("a session failed: " + failures[0])
    print(f"{title}: {len(threads)} sessions, {options.turns} turns each, {time.monotonic() - began:.1f} s")


def main():
    parser = argparse.ArgumentParser(description=__doc__, formatter_class=argparse.RawDescriptionHelpFormatter)
    parser.add_argument("--bin", default="/usr/lib/postgresql/16/bin")
    parser.add_argument("--publisher", default="crates/publisher/out/publisher")
    parser.add_argument("--pgapply", default="crates/pgapply/out/pgapply")
    parser.add_argument("--mirror", default="crates/mirror/out/mirror")
    parser.add_argument("--run-as", default="postgres" if os.geteuid() == 0 else "",
                        help="who runs the server, as PostgreSQL refuses root; empty: who runs this")
    parser.add_argument("--folder", default=None, help="where the temporary folder is made")
    parser.add_argument("--port", type=int, default=5499)
    parser.add_argument("--sessions", type=int, default=4)
    parser.add_argument("--turns", type=int, default=300)
    parser.add_argument("--kills", type=int, default=20, help="how often each program and the server is killed")
    parser.add_argument("--mirror-kills", type=int, default=50, help="how often mirror is killed")
    parser.add_argument("--mirror-figures", type=float, nargs="?", const=1.0, default=0.0, metavar="SHARE",
                        help="measure mirror, and nothing else, on this share of the work")
    parser.add_argument("--mirror-memory", type=int, nargs="?", const=10_000_000, default=0, metavar="CHANGES",
                        help="measure the memory of mirror, and nothing else, while rows change so often")
    parser.add_argument("--pace", type=int, default=2800, help="how often they change in a second")
    parser.add_argument("--seed", type=int, default=1)
    options = parser.parse_args()
    server = Server(options)
    try:
        server.set_up()
        _, errors = server.sql(TABLES)
        if errors:
            sys.exit(errors)
        right = run(server, options)
        sys.exit(0 if right else 1)
    finally:
        for process in Program.STARTED:
            process.kill()
        if server.runs:
            server.stop()
        shutil.rmtree(server.folder, ignore_errors=True)


def run(server, options):
    where = ["--host", "127.0.0.1", "--port", str(server.port), "--user", "postgres", "--dbname", "postgres",
             "--publication", "live"]
    if options.mirror_figures:
        return run_figures(server, options, where)
    if options.mirror_memory:
        return run_memory(server, options, where)
    tables = read_catalog(server, options, where)
    right = run_beside_work(server, options, where, tables)
    right = run_beside_kills(server, options, where, tables) and right
    return run_mirror(server, options, where, tables) and right


def read_catalog(server, options, where):
    """The publication's catalog, which then lies beside the server."""
    catalog = subprocess.run([options.publisher, "catalog", "--text", *where], capture_output=True, check=True)
    with open(os.path.join(server.folder, "catalog.toml"), "wb") as file:
        file.write(catalog.stdout)
    return tomllib.loads(catalog.stdout.decode())


def run_beside_work(server, options, where, tables):
    """Captures and followers while sessions work, up to a fast shutdown."""
    place = lambda name: os.path.join(server.folder, name)
    late = [options.publisher, "capture", *where, "--slot", "late"]
    subprocess.run([*late, "--create", "--out", place("none"), "--seconds", "1"], check=True)
    live = subprocess.Popen([options.publisher, "capture", *where, "--slot", "live", "--create", "--out",
                             place("live.stream")])
    wait_for_slot(server, "live", live)
    follower = Follower(options, Service(options, where, "followed", 1, ["--create", "--once"]), place("catalog.toml"))
    finish_work(work(server, options, range(1, options.sessions + 1), options.seed, "work"), options)
    # Tables that have rows, and sessions that write to them while they are copied.
    going = work(server, options, range(options.sessions + 1, 2 * options.sessions + 1), options.seed, "more work")
    time.sleep(0.3)
    copied = subprocess.Popen([options.publisher, "capture", *where, "--slot", "copied", "--create", "--copy",
                               "--out", place("copied.stream")])
    slow = Slow(options, where)
    finish_work(going, options)
    until = server.log_end()
    began = time.monotonic()
    subprocess.run([*late, "--out", place("late.stream"), "--until", until], check=True)
    seconds = time.monotonic() - began
    size = os.path.getsize(place("late.stream"))
    print(f"late: captured up to {until} in {seconds:.2f} s ({size / 1e6 / seconds:.1f} MB/s)")
    wanted = expected(server, tables)
    stopping = threading.Thread(target=server.stop)
    stopping.start()
    time.sleep(2)
    slow.hurries = True
    stopping.join()
    if live.wait(timeout=60) != 0 or copied.wait(timeout=60) != 0:
        sys.exit("a capture failed")
    right = [compare("follow", *follower.report(), wanted), slow.is_right()]
    server.start()
    for slot in ["late", "live", "followed", "copied", "slow"]:
        server.drop_slot(slot)
    return compare_files(server, options, ["live", "late", "copied"], wanted) and all(right)


def run_beside_kills(server, options, where, tables):
    """Sessions write while `capture`, `serve` and `follow`, and then the server, are killed."""
    place = lambda name: os.path.join(server.folder, name)
    first = 2 * options.sessions + 1
    writers = Writers(server, options, [first, first + 1], options.seed)
    killed = Killed(server, options, where, "killed", place("killed.stream"), options.seed)
    keeping = Keeping(server, options, where, options.seed)
    killing = [threading.Thread(target=kill, daemon=True) for kill in (killed.kill_captures, keeping.kill)]
    for thread in killing:
        thread.start()
    right = kill_followers(server, options, where, place("catalog.toml"), options.seed)
    for thread in killing:
        thread.join()
    print(f"capture: killed {options.kills} times")
    print(f"serve: killed {options.kills} times, {keeping.in_copy} of them in the copy")
    service = Service(options, where, "again", 4, ["--create", "--copy", "--once"])
    follower = Follower(options, service, place("catalog.toml"))
    downed = Killed(server, options, where, "downed", place("downed.stream"), options.seed)
    time.sleep(1)
    writers.stop()
    until = server.log_end()
    killed.finish(until)
    keeping.finish(until, place("kept.stream"))
    wanted = expected(server, tables)
    right = compare_files(server, options, ["killed", "kept"], wanted) and right
    server.stop()
    right = compare("follow", *follower.report(), wanted) and right
    downed.capture.wait(timeout=60)
    server.start()
    downed.capture = downed.append()
    writers = Writers(server, options, [first + 2, first + 3], options.seed)
    downed.kill_servers()
    writers.stop()
    print(f"server: killed {downed.kills} times")
    downed.finish(server.log_end())
    return compare_files(server, options, ["downed"], expected(server, tables)) and right


def run_mirror(server, options, where, tables):
    """Sessions write while `mirror` is killed. It reads all rows at each start, so most are deleted before."""
    server.sql("DELETE FROM large WHERE id % 10 <> 0;")
    first = 2 * options.sessions + 5
    writers = Writers(server, options, [first, first + 1], options.seed, pause=1)
    mirror = Mirror(server, options, where, options.seed)
    right = mirror.kill()
    writers.stop()
    right = mirror.finish(server.log_end()) and right
    wanted = expected(server, tables)
    right = compare_tables("mirror", rows_of_file(mirror.file, tables), wanted) and right
    return compare_tables("mirror's copy", rows_of_file(mirror.copy, tables), wanted) and right


def figures(share):
    """What `mirror` is measured on: statements, the transactions that these are, and the changes."""
    rows, single, updates = int(1_000_000 * share), int(100_000 * share), int(10_000 * share)
    loop = "DO $$ BEGIN FOR i IN 1..{} LOOP {} COMMIT; END LOOP; END $$;".format
    insert = "INSERT INTO counted SELECT k, 0, md5(k::text) FROM generate_series({}) k;".format
    thousand = "FOR j IN 1..10 LOOP UPDATE counted SET n = n + 1; END LOOP;"
    return [
        ("one large transaction", insert(f"1, {rows}"), 1, rows),
        ("transactions of one row", loop(single, insert("i, i")), single, single),
        ("a hundred rows updated", insert("1, 100") + loop(updates, thousand), updates + 1, 1000 * updates + 100),
    ]


def make_counted(server, options, where):
    """Makes the table that `mirror` is measured on, and answers the catalog of it alone."""
    server.sql("CREATE TABLE counted (id int PRIMARY KEY, n bigint, body text);")
    catalog = read_catalog(server, options, where)
    return {"table": [table for table in catalog["table"] if table["name"] == "counted"]}


def run_figures(server, options, where):
    """How fast `mirror` takes what a slot has, and the memory that it has meanwhile."""
    counted = make_counted(server, options, where)
    return all([measure(server, options, where, counted, *figure) for figure in figures(options.mirror_figures)])


def measure(server, options, where, tables, name, statements, commits, changes):
    file = os.path.join(server.folder, f"{name}.sqlite")
    server.sql("TRUNCATE counted; SELECT pg_create_logical_replication_slot('figures', 'pgoutput');")
    _, errors = server.sql(statements)
    if errors:
        sys.exit(errors)
    # At the end the service waits until the follower has read all.
    service = Service(options, where, "figures", 6, ["--once", "--until", server.log_end(), "--timeout", "3600"])
    began = time.monotonic()
    mirror = start_mirror(server, options, service, file, "--once")
    most, samples = watch_memory(mirror)
    seconds = time.monotonic() - began
    service.wait()
    print(f"{name}: {commits} commits with {changes} changes in {seconds:.1f} s: {commits / seconds:.0f} commits and "
          f"{changes / seconds:.0f} changes a second; a file of {os.path.getsize(file)} bytes; memory of {most} kB at "
          f"most, each ten seconds {samples[::100]}")
    print(f"{name}: {service.last()}; {mirror.last()}, status {mirror.wait()}")
    server.drop_slot("figures")
    return compare_tables(name, rows_of_file(file, tables), expected(server, tables)) and mirror.wait() == 0


def watch_memory(program):
    """The memory of a program until it ends, in kilobytes: the most, and what it has each tenth of a second."""
    most, samples, began = 0, [], time.monotonic()
    while program.runs():
        with open(f"/proc/{program.process.pid}/status") as file:
            fields = dict(line.split(":", 1) for line in file)
        # A program that has ended has no memory.
        if "VmRSS" in fields:
            now, most = [int(fields[name].split()[0]) for name in ("VmRSS", "VmHWM")]
            samples.append(now)
        time.sleep(max(0, began + 0.1 * len(samples) - time.monotonic()))
    return most, samples


class Changing:
    """Sessions that change rows at a pace while a follower is there: some ten thousand rows that come and go."""

    # One of ten of its transactions is streamed.
    CHANGE = """
CREATE PROCEDURE change(first int, enough int, INOUT changes int, INOUT commits int) LANGUAGE plpgsql AS $$
DECLARE place int; wide int; done int;
BEGIN
    WHILE changes < enough LOOP
        wide := CASE WHEN random() < 0.1 THEN 1000 ELSE 20 + random() * 80 END;
        place := first + random() * 4000;
        DELETE FROM counted WHERE id BETWEEN place AND place + wide;
        GET DIAGNOSTICS done = ROW_COUNT;
        changes := changes + done;
        place := first + random() * 4000;
        INSERT INTO counted SELECT k, 0, md5(k::text) FROM generate_series(place, place + wide) k
            ON CONFLICT DO NOTHING;
        GET DIAGNOSTICS done = ROW_COUNT;
        changes := changes + done;
        UPDATE counted SET n = n + 1, body = md5(body) WHERE id BETWEEN place AND place + 2 * wide;
        GET DIAGNOSTICS done = ROW_COUNT;
        changes := changes + done;
        commits := commits + 1;
        COMMIT;
    END LOOP;
END $$;
"""

    def __init__(self, server, options, follower):
        _, errors = server.sql(self.CHANGE)
        if errors:
            sys.exit(errors)
        self.server, self.follower, self.seed = server, follower, options.seed
        self.enough, self.pace = options.mirror_memory / options.sessions, options.pace / options.sessions
        self.sessions = {session: (0, 0) for session in range(options.sessions)}
        self.threads = [threading.Thread(target=self.change, args=(session,), daemon=True)
                        for session in self.sessions]
        for thread in self.threads:
            thread.start()

    def change(self, session):
        """A session's changes, those of some five seconds at once."""
        chance, began = random.Random(self.seed * 100 + session), time.monotonic()
        changes = commits = 0
        while changes < self.enough and self.follower.runs():
            output, _ = self.server.sql(f"SELECT setseed({chance.random()}); "
                                        f"CALL change({session * 10_000}, {int(5 * self.pace)}, 0, 0);")
            done = output.split()[-1].split("|")
            changes, commits = changes + int(done[0]), commits + int(done[1])
            self.sessions[session] = changes, commits
            time.sleep(max(0, began + changes / self.pace - time.monotonic()))

    def finish(self):
        """Waits for the sessions, and answers how many changes and commits they made."""
        for thread in self.threads:
            thread.join()
        return [sum(counts) for counts in zip(*self.sessions.values())]


def run_memory(server, options, where):
    """The memory that `mirror` has while it follows a long stream."""
    counted = make_counted(server, options, where)
    file = os.path.join(server.folder, "long.sqlite")
    service = Service(options, where, "long", 7, ["--create", "--once"])
    mirror = start_mirror(server, options, service, file, "--once")
    began, changing, made = time.monotonic(), Changing(server, options, mirror), []

    def finish():
        """A fast shutdown ends the service, and that ends its follower."""
        made.extend([changing.finish(), expected(server, counted)])
        server.stop()

    finishing = threading.Thread(target=finish)
    finishing.start()
    most, samples = watch_memory(mirror)
    seconds = time.monotonic() - began
    finishing.join()
    (changes, commits), wanted = made
    tenths = [samples[len(samples) * i // 10:len(samples) * (i + 1) // 10] for i in range(10)]
    print(f"a long stream: {commits} commits with {changes} changes in {seconds:.0f} s; a file of "
          f"{os.path.getsize(file)} bytes; memory of {min(samples)} to {max(most, *samples)} kB, the least of each tenth "
          f"{[min(tenth) for tenth in tenths]}, the most {[max(tenth) for tenth in tenths]}")
    print(f"a long stream: {service.last()}; {mirror.last()}, status {mirror.wait()}")
    return compare_tables("a long stream", rows_of_file(file, counted), wanted) and mirror.wait() == 0


if __name__ == "__main__":
    main()
