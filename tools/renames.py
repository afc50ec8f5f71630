#!/usr/bin/env python3
"""Gives crates, files and names of an older checkout those of today.

    tools/renames.py CHECKOUT

rewrites the checkout in CHECKOUT, one of commit 89ccf66 or of a branch from it, in place: the folders
of crates, the files of specs/ and proofs/, and what stands in *.rt, *.antt, *.edit and crates.txt. So a
patch that speaks of the old names is applied to a branch from that commit, this runs over the branch,
and the branch is merged. What it knows is below: tables, and nothing of the language but where a name is
imported from. What can't be told by a table was done by hand behind it.
"""
import os
import re
import subprocess
import sys

# ---- crates
CRATES = {
    "live": "live_tables",
    "lanes": "dispatch",
    "crew": "worker_threads",
    "spooled": "run",
    "course": "run_laws",
    "command": "pgapply_command",
    "settings": "publisher_command",
    "connection": "tcp",
    "embed": "cache_example",
}

# ---- files of specs/ and proofs/, by the crate's old name; beside these each ..Laws that has lemmas is ..Lemmas
FILES = {
    ("model", "specs"): {
        "Exact": "ExactLemmas",
        "Mapped": "MappedLemmas",
        "SortedEntries": "SortedEntriesLemmas",
        "LawsOfCells": "CellStatements",
    },
    ("live", "specs"): {
        "LawsOfReads": "ReadStatements",
        "MadeRoom": "MadeRoomLemmas",
        "MarkedHolds": "MarkedHoldsLemmas",
        "Stood": "BeforeImages",
        "StoodLaws": "BeforeImageLemmas",
        "StoodCalls": "BeforeImageCallLemmas",
        "TiedActs": "ActLemmas",
        "TiedBasics": "BasicLemmas",
        "TiedEnds": "EndedLemmas",
        "TiedReads": "ReadingLemmas",
        "Tied": "Represents",
        "Kept": "KeptRecords",
        "GivenUp": "ReleasedLemmas",
        "Told": "CallResults",
    },
    ("session", "specs"): {"Told": "StreamEvents"},
    ("crew", "specs"): {"Place": "MailboxState"},
    ("worker", "specs"): {"Post": "Outbox"},
    ("worker", "proofs"): {"PostLists": "OutboxLists"},
    ("engine", "specs"): {"Clear": "FirstClash", "ClearLaws": "FirstClashLemmas"},
    ("indexes", "proofs"): {"GivenUp": "Released"},
    ("live", "proofs"): {"Standing": "BeforeImageSteps"},
}

# ---- modules of src/, by the crate's old name
MODULES = {
    "live": {"stood": "before_image", "laws_of_reads": "read_laws"},
    "model": {"laws_of_cells": "cell_laws"},
    "crew": {"desk": "mailbox", "place": "state"},
    "worker": {"post": "outbox"},
}

# ---- words, as regular expressions over whole names; for these crates, or for all
EVERYWHERE = [
    (r"find_twin", "find_duplicate"),
    (r"([A-Za-z_-]*)twin([A-Za-z_-]*)", r"\1duplicate\2"),
    (r"([A-Za-z_-]*)Twin([A-Za-z_-]*)", r"\1Duplicate\2"),
    (r"tell_to_give_up", "doom_worker"),
    (r"tell_given", "count_given"),
    (r"tell_end", "signal_end"),
    (r"tell_(start|changes|act|commit|item|begun)", r"record_\1"),
    (r"run_over", "run_spooled_on"),
    (r"run_with_workers", "run_on"),
    (r"execute_over", "execute_on"),
    (r"execute_heard", "execute_heard_on"),
    (r"is_run_over", "is_run_on"),
]
# what an operation on a cell gives back
RELEASED = [
    (r"give_up(_\w+)?", r"release\1"),
    (r"GivesUp(\w+)", r"Releases\1"),
    (r"(\w*)_given_up(\w*)", r"\1_released\2"),
    (r"given_up(\w*)", r"released\1"),
    (r"HasGivenUp", "HasReleased"),
    (r"IsGivenUp", "IsReleased"),
    (r"AreGivenUp", "AreReleased"),
    (r"GivenUp", "Released"),
]
# what stood at a cell before a transaction touched it
BEFORE_IMAGES = [
    (r"Stood", "BeforeImage"),
    (r"AreStood", "AreBeforeImages"),
    (r"HasStood", "HasBeforeImages"),
    (r"([A-Z]\w*?)IsStood", r"\1KeepsBeforeImages"),
    (r"(\w+)_is_stood", r"\1_keeps_before_images"),
    (r"TakesStood", "TakesBeforeImages"),
    (r"Stood([A-Z]\w*)", r"BeforeImage\1"),
    (r"what_stood", "before_image_of"),
    (r"with_what_stood", "with_before_images"),
    (r"up_to_stood", "up_to_before_image"),
    (r"stood_(\w+)", r"before_image_\1"),
    (r"takes_stood", "takes_before_images"),
    (r"nothing_stood", "no_before_image"),
    (r"_stood", "_before_image"),
    (r"stood", "before_image"),
]
OUTBOXES = [
    (r"Post", "Outbox"),
    (r"PostEvent", "OutboxEvent"),
    (r"PostNames", "OutboxNames"),
    (r"LaneNames", "RingNames"),
    (r"lock_post", "lock_outbox"),
    (r"Posted", "OutboxModel"),
    (r"posted", "outbox_model"),
    (r"IsPost", "IsOutbox"),
    (r"post", "outbox"),
    (r"posts", "outboxes"),
    (r"post_of", "outbox_of"),
    (r"late", "queued"),
    (r"late_len", "queued_len"),
    (r"send_late", "send_queued"),
    (r"its_late", "its_queued"),
    (r"late_then", "queued_then"),
]
MAILBOXES = [
    (r"Desk", "Mailbox"),
    (r"desk", "mailbox"),
    (r"desks", "mailboxes"),
    (r"make_desks", "make_mailboxes"),
]
BY_CRATE = {
    "indexes": RELEASED,
    "undo": RELEASED,
    "live": RELEASED + BEFORE_IMAGES,
    "engine": [(r"Stood", "BeforeImage"), (r"is_stood", "keeps_before_images")],
    "keyholds": [(r"StoodAt", "BeforeImageAt"), (r"stood", "before_image")],
    "store_tests": RELEASED + [(r"Stood", "BeforeImage")] + OUTBOXES,
    "crew": MAILBOXES + [(r"Place", "MailboxState"), (r"Slot", "JobState"), (r"IsFree", "IsVacant")],
    "worker": OUTBOXES + [(r"lane", "worker"), (r"its_lane", "its_worker"), (r"lanes", "workers")],
    "lanes": OUTBOXES + MAILBOXES,
    "leader": OUTBOXES + MAILBOXES,
    "course": [
        (r"Lane", "Outbox"),
        (r"lane", "outbox"),
        (r"lanes", "outboxes"),
        (r"late", "queued"),
        (r"empty_lane", "empty_outbox"),
        (r"with_late", "with_queued"),
        (r"GivesLate", "GivesQueued"),
        (r"(\w+)_lane", r"\1_outbox"),
        (r"lane_(\w+)", r"outbox_\1"),
        (r"(\w+)_lanes", r"\1_outboxes"),
        (r"lanes_(\w+)", r"outboxes_\1"),
        (r"late_(\w+)", r"queued_\1"),
        (r"in_some_lane", "in_some_outbox"),
    ],
}

# ---- names with two meanings, and names of one relation: (crate, file of specs/, old, new)
NAMES = [
    ("session", "Told", "Told", "StreamEvent"),
    ("session", "Told", "Nothing", "NoEvent"),
    ("session", "Told", "Opens", "TransactionOpens"),
    ("session", "Told", "Gives", "ItemComes"),
    ("session", "Told", "Commits", "TransactionCommits"),
    ("session", "Told", "Aborts", "TransactionAborts"),
    ("keyholds", "Holds", "IsFree", "IsFreeCell"),
    ("keyholds", "Holds", "IsHeldBy", "IsCellHeldBy"),
    ("keyholds", "Holds", "AreApart", "AreDisjoint"),
    ("indexes", "Unique", "IsFree", "IsUnused"),
    ("indexes", "Content", "Keeps", "KeepsCells"),
    ("lanes", "Lanes", "IsFree", "IsIdle"),
    ("lanes", "Standing", "Turns", "Replaces"),
    ("lanes", "Standing", "Does", "OwnDoes"),
    ("leader", "Threads", "IsAgreed", "IsAssigned"),
    ("leader", "Threads", "AreAgreed", "AreAssigned"),
    ("leader", "Threads", "IsLeft", "IsOpenAtEnd"),
    ("leader", "Threads", "AreLeft", "AreOpenAtEnd"),
    ("leader", "WithWorkers", "Leaves", "LeavesLine"),
    ("leader", "Ending", "AreStood", "AreOpenIn"),
    ("course", "Turns", "IsLeft", "IsUnmoved"),
    ("course", "Runs", "Leaves", "LeavesWorld"),
    ("course", "Course", "past_of", "committed_past"),
    ("course", "Course", "world_of", "world_at"),
    ("live", "Told", "IsLeft", "HasSameRows"),
    ("live", "Waits", "IsCounted", "IsSentCount"),
    ("live", "Stood", "row_in", "row_by_inverse"),
    ("spooled", "Handler", "end_of", "end_of_result"),
    ("spooled", "Handler", "Answers", "AnswersItem"),
    ("frames", "Reads", "Answers", "AnswersFault"),
    ("change", "Applied", "Answers", "AnswersOutcome"),
    ("origin", "Commits", "Commits", "PublishedCommits"),
    ("tokens", "ManyLists", "Opens", "OpensList"),
    ("ring", "Steps", "Told", "StepRule"),
]

# ---- the relation between what code keeps and what it stands for: (crate, file, old, its name beside another)
REPRESENTS = [
    ("session", "Represents", "Represents", "SessionRepresents"),
    ("session", "KeptTransactions", "Keeps", "TransactionsRepresent"),
    ("session", "KnownRelations", "Knows", "RelationsRepresent"),
    ("live", "Kept", "IsKept", "RecordsRepresent"),
    ("live", "Tied", "IsTied", "LiveRepresents"),
    ("engine", "Engine", "IsStore", "StoreRepresents"),
    ("engine", "Shared", "IsShared", "SharedRepresents"),
    ("engine", "SerialInside", "IsSerial", "SerialRepresents"),
    ("spooled", "Applier", "IsAt", "ApplierRepresents"),
    ("leader", "Threads", "IsLeadAt", "LeadRepresents"),
]
REPRESENTS_WORDS = {"spooled": [(r"IsAtSome", "RepresentsSome")],
                    "leader": [(r"IsLeadAtSome", "RepresentsSome"), (r"IsLeadAtStart", "RepresentsStart")]}

LETTER = r"[A-Za-z0-9_']"


def whole(pattern):
    """The pattern as a whole name, or as the first part of a lemma's name (IsAt-item)."""
    return re.compile(rf"(?<!{LETTER})(?:{pattern})(?!{LETTER})")


def unqualified(name):
    """The name where no other module's alias stands before it (steps.Nothing)."""
    return re.compile(rf"(?<![A-Za-z0-9_'.]){re.escape(name)}(?!{LETTER})")


class Checkout:
    def __init__(self, top):
        self.top = top
        self.files = {}
        for folder, _, names in os.walk(os.path.join(top, "crates")):
            if "/out/" in folder + "/":
                continue
            for name in names:
                if name.endswith((".rt", ".antt", ".edit")):
                    path = os.path.relpath(os.path.join(folder, name), top)
                    with open(os.path.join(top, path)) as file:
                        self.files[path] = file.read()
        self.paths = {path: path for path in self.files}
        with open(os.path.join(top, "crates.txt")) as file:
            self.crates = file.read()
        self.needs = {}
        for line in self.crates.splitlines():
            if ":" in line and not line.startswith("#"):
                head, tail = line.split(":", 1)
                self.needs[head.split()[0]] = tail.split()

    def crate(self, path):
        return path.split("/")[1]

    def put_back(self):
        for path, text in self.files.items():
            old, new = os.path.join(self.top, path), os.path.join(self.top, self.paths[path])
            if old != new:
                os.makedirs(os.path.dirname(new), exist_ok=True)
                subprocess.run(["git", "-C", self.top, "mv", path, self.paths[path]], check=True)
            with open(new, "w") as file:
                file.write(text)


def imported(text, module, name):
    """How a file has a name of a module: 'plain', an alias, or not at all; and the module's own alias."""
    found = None
    for line in re.finditer(rf"Rattle\.{re.escape(module)}\.\{{([^}}]*)\}}", text):
        for entry in line.group(1).split(","):
            words = entry.split()
            if words and words[0] == name:
                found = words[2] if len(words) == 3 else "plain"
    other = re.search(rf"Rattle\.{re.escape(module)} as (\w+)", text)
    return found, other.group(1) if other else None


def rename_in_import(text, module, name, new):
    def in_line(line):
        entries = [entry.strip() for entry in line.group(2).split(",")]
        kept = []
        for entry in entries:
            words = entry.split()
            if words and words[0] == name:
                words[0] = new
                if len(words) == 3 and words[2] == new:
                    words = words[:1]
            kept.append(" ".join(words))
        return line.group(1) + ", ".join(kept) + "}"

    return re.sub(rf"(Rattle\.{re.escape(module)}\.\{{)([^}}]*)\}}", in_line, text)


def outside_imports(text, pattern, new):
    """Replaces a name but in the lists of imports of other modules."""
    parts = re.split(r"(Rattle(?:\.\w+)+(?:\.\{[^}]*\}| as \w+)?)", text)
    return "".join(part if i % 2 else pattern.sub(new, part) for i, part in enumerate(parts))


def rename_names(tree):
    for crate, module, name, new in NAMES:
        at = f"{crate}.specs.{module}"
        home = f"crates/{crate}/specs/{module}.antt"
        if home not in tree.files:
            sys.exit(f"no {home}")
        pattern = unqualified(name)
        for path, text in tree.files.items():
            how, alias = imported(text, at, name)
            if alias:
                text = re.sub(rf"(?<!{LETTER}){alias}\.{name}(?!{LETTER})", f"{alias}.{new}", text)
            if path == home or how == "plain":
                text = outside_imports(text, pattern, new)
            if how:
                text = rename_in_import(text, at, name, new)
            # the lemmas that bear its name
            if tree.crate(path) == crate:
                text = re.sub(rf"(?<!{LETTER}){name}-(?={LETTER})", f"{new}-", text)
            tree.files[path] = text


def rename_representing(tree):
    for path, text in tree.files.items():
        here = []
        for crate, module, name, beside in REPRESENTS:
            at = f"{crate}.specs.{module}"
            how, _ = imported(text, at, name)
            home = path == f"crates/{crate}/specs/{module}.antt"
            lemmas = tree.crate(path) == crate and whole(re.escape(name) + "-" + LETTER).search(text)
            if home or how or lemmas:
                here.append((at, name, beside, home, how))
        if not here:
            continue
        own = [one for one in here if one[3]]
        first = own[0] if own else here[-1]
        for at, name, beside, home, how in here:
            text = re.sub(rf"(?<!{LETTER}){name}-(?={LETTER})", f"{'Represents'}-", text)
            if (at, name) == first[:2]:
                word = "Represents"
            else:
                word = beside
            if home or how == "plain":
                text = outside_imports(text, unqualified(name), "\0" + word)
                text = rename_in_import(text, at, name, f"\0{name}" if word == "Represents" else f"\0{name} as {word}")
                text = text.replace(f"\0{name} as", "\0Represents as").replace(f"\0{name}", "\0Represents")
        text = text.replace("\0", "")
        tree.files[path] = text
    for crate, words in REPRESENTS_WORDS.items():
        for path in tree.files:
            for old, new in words:
                tree.files[path] = whole(old).sub(new, tree.files[path])


def rename_words(tree):
    for path, text in tree.files.items():
        for old, new in EVERYWHERE + BY_CRATE.get(tree.crate(path), []):
            text = code_only(path, text, whole(old), new)
        tree.files[path] = text


PROSE = re.compile(r"^(\s*(?://+!?|--)\s.*)$", re.M)


def code_only(path, text, pattern, new):
    """Replaces a name in code, and in comments only where it is marked as code."""
    lines = []
    for line in text.split("\n"):
        if PROSE.match(line):
            line = re.sub(r"`[^`]*`", lambda quoted: pattern.sub(new, quoted.group(0)), line)
            if re.match(r"\s*--     ", line):
                head, gap, tail = line.partition("      ") if "      " in line[7:] else (line, "", "")
                line = line[:7] + re.sub(r"^(.*?)(      |$)", lambda m: pattern.sub(new, m.group(1)) + m.group(2), line[7:], count=1)
        else:
            line = pattern.sub(new, line)
        lines.append(line)
    return "\n".join(lines)


def rename_files(tree):
    for path in list(tree.files):
        crate = tree.crate(path)
        parts = tree.paths[path].split("/")
        if len(parts) == 4 and parts[2] in ("specs", "proofs") and parts[3].endswith(".antt"):
            name = parts[3][:-5]
            new = file_name(crate, parts[2], name)
            if new != name:
                parts[3] = new + ".antt"
        tree.paths[path] = "/".join(parts)
    moves = {}
    for path, now in tree.paths.items():
        if path != now:
            parts, new = path.split("/"), now.split("/")
            moves.setdefault((parts[1], parts[2]), {})[parts[3][:-5]] = new[3][:-5]
    for path, text in tree.files.items():
        crate = tree.crate(path)
        for (other, kind), names in moves.items():
            for old, new in names.items():
                text = re.sub(rf"(?<![\w.])(Rattle\.{other}\.{kind}\.){old}(?![\w])", rf"\g<1>{new}", text)
                text = re.sub(rf"(?<![\w:])({other}::{kind}::){old}(?!\w)", rf"\g<1>{new}", text)
                if other == crate:
                    text = re.sub(rf"(?<![\w:])(crate::{kind}::){old}(?!\w)", rf"\g<1>{new}", text)
                    text = re.sub(rf"(?m)^(//.*|file: )({kind}/){old}(?=[\s,.;:`'])", rf"\g<1>{kind}/{new}", text)
                    if path.endswith(f"/{kind}/Lib.antt"):
                        text = re.sub(rf"(?m)^((?:pub )?mod ){old}$", rf"\g<1>{new}", text)
        tree.files[path] = text


def file_name(crate, kind, name):
    names = FILES.get((crate, kind), {})
    if name in names:
        return names[name]
    if name == "Laws" and kind == "specs":
        return "Statements"
    if name.endswith("Laws"):
        return name[:-4] + "Lemmas"
    return name


def rename_modules(tree):
    for crate, modules in MODULES.items():
        for old, new in modules.items():
            for path in tree.files:
                text = tree.files[path]
                parts = tree.paths[path].split("/")
                if tree.crate(path) == crate:
                    if parts[2] == "src" and parts[3] == f"{old}.rt":
                        parts[3] = f"{new}.rt"
                    if parts[2] == "proofs" and len(parts) > 4 and parts[3] == old:
                        parts[3] = new
                    tree.paths[path] = "/".join(parts)
                    text = re.sub(rf"(?m)^((?:pub )?mod ){old};", rf"\g<1>{new};", text)
                    text = re.sub(rf"(?<!\w)((?:pub )?use (?:crate::)?){old}::", rf"\g<1>{new}::", text)
                    text = re.sub(rf"(?m)^(file: src/){old}\.rt", rf"\g<1>{new}.rt", text)
                    text = re.sub(rf"(?m)^(//   ){old}(?= )", rf"\g<1>{new}", text)
                for kind in ("specs.declared", "proofs", "specs.contracts"):
                    text = re.sub(rf"(Rattle\.{crate}\.{kind}\.){old}(?=\.)", rf"\g<1>{new}", text)
                tree.files[path] = text


def rename_proof_folders(tree):
    """A folder of proofs/ has the name of its function, type or module."""
    for path in tree.files:
        parts = tree.paths[path].split("/")
        if parts[2] == "proofs" and len(parts) > 4:
            for i in range(3, len(parts) - 1):
                for old, new in EVERYWHERE + BY_CRATE.get(tree.crate(path), []):
                    parts[i] = whole(old).sub(new, parts[i])
            tree.paths[path] = "/".join(parts)


def rename_crates(tree):
    for path in tree.files:
        text = tree.files[path]
        crate = tree.crate(path)
        for old, new in CRATES.items():
            text = re.sub(rf"(?<![\w.])Rattle\.{old}(?=\.)", f"Rattle.{new}", text)
            if old in tree.needs.get(crate, []):
                text = re.sub(rf"(?<![\w:.]){old}(?=::)", new, text)
                text = re.sub(rf"(?m)^((?:pub )?use ){old}(?=[;: ])", rf"\g<1>{new}", text)
            text = re.sub(rf"`{old}`", f"`{new}`", text) if crate != old or True else text
        tree.files[path] = text
        parts = tree.paths[path].split("/")
        parts[1] = CRATES.get(parts[1], parts[1])
        tree.paths[path] = "/".join(parts)
    lines = []
    for line in tree.crates.splitlines():
        if not line.startswith("#"):
            line = re.sub(r"[\w]+", lambda word: CRATES.get(word.group(0), word.group(0)), line)
        lines.append(line)
    tree.crates = "\n".join(lines) + "\n"


def main():
    if len(sys.argv) != 2:
        sys.exit(__doc__)
    tree = Checkout(sys.argv[1])
    rename_names(tree)
    rename_representing(tree)
    rename_files(tree)
    rename_modules(tree)
    rename_words(tree)
    rename_proof_folders(tree)
    rename_crates(tree)
    tree.put_back()
    with open(os.path.join(tree.top, "crates.txt"), "w") as file:
        file.write(tree.crates)
    # what lies in a crate's folder beside its sources
    for old, new in CRATES.items():
        was, now = os.path.join(tree.top, "crates", old), os.path.join(tree.top, "crates", new)
        if os.path.isdir(was):
            for name in os.listdir(was):
                if name == "out":
                    continue
                if os.path.exists(os.path.join(now, name)):
                    continue
                subprocess.run(["git", "-C", tree.top, "mv", f"crates/{old}/{name}", f"crates/{new}/{name}"])


if __name__ == "__main__":
    main()
