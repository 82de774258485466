#!/usr/bin/env bash
# Tries the wrong bodies that the gate leaves out, crates/*/slips/*.edit: the check must refuse each.
#
#     bench/slips.sh [CRATE...]      # those that weren't tried on these sources, of every crate by default
#     bench/slips.sh CRATE/SLIP...   # these
#     bench/slips.sh --changed       # the same of the crates whose sources, or one of whose slips, changed since they were tried
#     bench/slips.sh --anew          # all, also those that were tried on these sources
#     bench/slips.sh --count         # tries nothing: says how many were refused by what, and which weren't tried on these sources
#     bench/slips.sh --minutes 20    # ends after so many minutes; the next run goes on from there
#     bench/slips.sh --jobs 2        # so many crates side by side; else JOBS or RT_JOBS says how many, else as many as the gate proves
#     LOGS=FOLDER bench/slips.sh     # keeps what each check said
#
# bench/slips.tsv has a line for each slip that was tried: its crate and name, what refused it, the goal, and the checksum of the slip and
# of the crate's sources without comments and hints on inlining, which no proof depends on. So the slips of a crate are tried again once
# the rest of its sources changes. The line is written as soon as its slip has been tried, so a run that is interrupted, or ends for want
# of time, loses the check under way alone.
#
# A slip has the form of the gate's own edits in must-fail/. Where it lies in one function, it is written into a copy of that function
# under another name, with its contract and its proof, so that one check tries all of a crate: of these copies, of the functions as they
# are, which must be proved, and of what they call. A slip elsewhere (in a constant, a type, a trait's method, a function of a cycle,
# several functions), and one whose copy is proved, is tried in its place, a check each: of the modules that it changes, and if these are
# proved, of the whole crate. All is done on a copy of the crate, over what `rt check` has kept in out/.
#
# An answer of a hand-written proof that misfits a slip is left out, and the check run again, so that the search meets the goal. Beside
# it the function as it is gets a copy whose proof lacks the same answers. For each slip a line says what refused it:
#
#     clause   a goal that doesn't hold; where answers were left out, one of a clause that the function as it is meets at each of its
#              exits without them
#     goal     a goal of a clause that the function as it is doesn't meet without those answers either; its name follows
#     proof    only the text of a hand-written proof, which says less
#     case     what a program of cases prints, of a slip that gives up as a want of memory would, which every contract allows. Its file
#              names that program in a line `case: CRATE`; the program is tried unproved
#
# Last comes how many were refused by each, how many weren't, and how many the time didn't suffice for. The status is 0 where all that
# were tried were refused.
#
# It wants python3 and rt on the path, and as much free disk as the crates' out/ that are tried side by side.
set -euo pipefail

top=$(cd "$(dirname "$0")/.." && pwd)
cd "$top"
exec python3 - "$top" "${JOBS:-$(.ci/lanes)}" "${LOGS:-}" "$@" <<'PYTHON'
import argparse
import fcntl
import hashlib
import os
import re
import shutil
import signal
import subprocess
import sys
import tempfile
import threading
import time
from collections import Counter
from concurrent.futures import ThreadPoolExecutor
from pathlib import Path

top, logs = Path(sys.argv[1]), sys.argv[3]
words = argparse.ArgumentParser(prog="bench/slips.sh", allow_abbrev=False)
words.add_argument("chosen", nargs="*", metavar="CRATE[/SLIP]")
for option in ["--changed", "--anew", "--count"]:
    words.add_argument(option, action="store_true")
words.add_argument("--minutes", type=float)
words.add_argument("--jobs", type=int, default=int(sys.argv[2]))
options = words.parse_intermixed_args(sys.argv[4:])
named = {(name, slip) for name, _, slip in (it.partition("/") for it in options.chosen) if slip}
for name, slip in [*named, *((it, "") for it in options.chosen if "/" not in it)]:
    if not (top / "crates" / name / "slips" / f"{slip}.edit" if slip else top / "crates" / name).exists():
        words.error(f"there is no {name}{'/' + slip if slip else ''}")
begin = time.time()
crates = sorted({it.partition("/")[0] for it in options.chosen} or {it.parent.parent.name for it in top.glob("crates/*/slips/*.edit")})
PARTS = ["src", "specs", "proofs"]
TURNS = 6
RECORD = top / "bench" / "slips.tsv"
REFUSED = ("clause", "goal", "proof", "case")
NO_CODE = re.compile(r"\s*(//.*|#\[(inline(\((always|never)\))?|cold)\])")
NO_SPEC = re.compile(r"\s*-- .*")
FUNCTION = re.compile(r"(\s*)(?:pub(?:\([a-z]+\))? )?(?:const )?fn (\w+)")


def read_proved(path):
    """What a proof can depend on in a file: all but comments and hints on inlining in lines of their own."""
    left_out = {".rt": NO_CODE, ".antt": NO_SPEC}.get(path.suffix)
    lines = path.read_text(encoding="utf-8").splitlines()
    return [line for line in lines if not (left_out and left_out.fullmatch(line))]


def sum_of(name):
    """The checksum of what proofs can depend on in a crate's sources."""
    found = hashlib.sha256()
    for path in sorted(it for part in PARTS for it in (top / "crates" / name / part).glob("**/*") if it.is_file()):
        found.update(repr((str(path.relative_to(top)), read_proved(path))).encode())
    return found.hexdigest()


def size_of(name):
    """How many octets the sources of a crate have."""
    return sum(it.stat().st_size for part in PARTS for it in (top / "crates" / name / part).glob("**/*"))


class Record:
    """What was found of each slip that was tried, with the checksum of what it was tried on."""

    def __init__(self):
        self.lock = threading.Lock()
        self.sums = {}
        self.rows = self.read()

    def read(self):
        """The rows of the file."""
        rows = {}
        for line in RECORD.read_text(encoding="utf-8").splitlines() if RECORD.exists() else []:
            crate, slip, *rest = line.split("\t")
            rows[crate, slip] = rest
        return rows

    def sum(self, crate, slip):
        """The checksum of a slip and of what it is tried on."""
        if crate not in self.sums:
            self.sums[crate] = sum_of(crate)
        text = (top / "crates" / crate / "slips" / f"{slip}.edit").read_text(encoding="utf-8")
        return hashlib.sha256((self.sums[crate] + text).encode()).hexdigest()[:16]

    def verdict(self, crate, slip):
        """What was found of a slip on these sources, or None if it wasn't tried on them."""
        verdict, _, tried = self.rows.get((crate, slip), (None, None, None))
        return verdict if tried == self.sum(crate, slip) else None

    def note(self, crate, slip, verdict, goal):
        # Several runs may write to the file, so each takes what the others wrote.
        with self.lock, open(top / "bench" / "slips.sh", encoding="utf-8") as held:
            fcntl.flock(held, fcntl.LOCK_EX)
            self.rows = self.read()
            if verdict in REFUSED:
                self.rows[crate, slip] = [verdict, goal, self.sum(crate, slip)]
            else:
                self.rows.pop((crate, slip), None)
            there = {key: row for key, row in self.rows.items() if (top / "crates" / key[0] / "slips" / f"{key[1]}.edit").exists()}
            lines = ["\t".join([*key, *row]) + "\n" for key, row in sorted(there.items())]
            # The file is the old one or the new one, also if the run is interrupted here.
            new = RECORD.with_suffix(".new")
            new.write_text("".join(lines), encoding="utf-8")
            os.replace(new, RECORD)


record = Record()


def slips_of(name):
    """The slips of a crate, or those of it that are named."""
    them = [it.stem for it in sorted((top / "crates" / name / "slips").glob("*.edit"))]
    return [it for it in them if (name, it) in named or not any(crate == name for crate, _ in named)]


def wanted_of(name):
    """The slips of a crate that are to be tried."""
    return [slip for slip in slips_of(name) if options.anew or named or record.verdict(name, slip) is None]


if options.changed:
    # A crate changed if one of its slips has a line that is of other sources, or of another text of the slip.
    crates = [name for name in crates if any((name, slip) in record.rows and record.verdict(name, slip) is None for slip in slips_of(name))]
if options.count:
    total = Counter(record.verdict(name, slip) for name in crates for slip in slips_of(name))
    for name in crates:
        untried = [slip for slip in slips_of(name) if record.verdict(name, slip) is None]
        if untried:
            print(f"not tried on these sources: {len(untried)} of {name}: {', '.join(untried)}")
    print(", ".join(f"{total[kind]} refused by a {kind}" for kind in REFUSED) + f", {total[None]} not tried on these sources")
    sys.exit(0 if not total[None] else 1)
# The largest come first, so that the last ones end at about one time.
crates = sorted((name for name in crates if wanted_of(name)), key=lambda name: -size_of(name))


def module_of(file):
    """The module of a file of src/, as the names of its path."""
    module = Path(file).relative_to("src").with_suffix("")
    return [] if str(module) in ("lib", "main") else list(module.parts)


class Function:
    """A function that a copy can be made of: its file, its name, the type it is a method of, and where its text is."""

    def __init__(self, file, name, owner, start, end):
        self.file, self.name, self.owner, self.start, self.end = file, name, owner, start, end
        self.home = module_of(file)

    def path(self, name=None):
        """The path below the crate of the function, or of its copy of this name."""
        return "::".join([*self.home, *([self.owner] if self.owner else []), name or self.name])

    def same(self, other):
        return (self.file, self.start) == (other.file, other.start)


class Copy:
    """A copy of a function under a name of its own: the slip that is in it, or none."""

    def __init__(self, function, name, slip, left_out=()):
        self.function, self.name, self.slip = function, name, slip
        self.left_out = set(left_out)

    def path(self):
        return self.function.path(self.name)

    def control(self):
        """The copy without its slip, whose proof lacks the same answers."""
        return Copy(self.function, self.name.replace("_slip", "_kept"), None, self.left_out)


def read_slip(edit):
    """The changes of a slip: file, old text, new text."""
    pairs, path, old = [], None, None
    for line in edit.read_text(encoding="utf-8").split("\n"):
        kind, _, text = line.partition(":")
        text = text.removeprefix(" ")
        if kind == "file":
            path = text
        elif kind == "old":
            old = text
        elif kind == "new":
            pairs.append((path, old, text))
    return pairs


def case_of(edit):
    """The program whose cases refuse a slip that its crate's contracts allow, or None."""
    found = re.search(r"^case: (\w+)$", edit.read_text(encoding="utf-8"), re.MULTILINE)
    return found[1] if found else None


def write_slip(pairs, crate):
    """Writes a slip into the copy of the crate."""
    for path, old, new in pairs:
        whole = (crate / path).read_text(encoding="utf-8")
        if whole.count(old) != 1:
            return f"what it changes is {whole.count(old)} times in the file, and not once"
        (crate / path).write_text(whole.replace(old, new), encoding="utf-8")
    return None


def function_at(file, text, place):
    """The function whose text has this place, or None; also for a function of a cycle, of which there can be no copy."""
    lines = text.split("\n")
    starts = [0]
    for line in lines:
        starts.append(starts[-1] + len(line) + 1)
    row = max(n for n in range(len(lines)) if starts[n] <= place)
    head = row
    while head < len(lines) and re.match(r"\s*(#\[|//)", lines[head]):
        head += 1
    while head >= 0 and not FUNCTION.match(lines[head]):
        head -= 1
    if head < 0:
        return None
    indent, name = FUNCTION.match(lines[head]).groups()
    end = head
    while end < len(lines) and lines[end] != indent + "}":
        end += 1
    first = head
    while first > 0 and lines[first - 1].strip().startswith("#["):
        first -= 1
    if any(it.strip().startswith("#[cycle(") for it in lines[first:head]):
        return None
    owner = ""
    if indent:
        above = head
        while not lines[above][:1].isalpha():
            above -= 1
        block = re.match(r"impl(?:<.*?>)? *(\w+)", lines[above])
        if not block or " for " in lines[above]:
            return None
        owner = block[1]
    return Function(file, name, owner, starts[first], starts[end + 1]) if end >= row else None


def home_of(pairs, crate):
    """The function that holds all of a slip, or None."""
    file = pairs[0][0]
    text = (crate / file).read_text(encoding="utf-8")
    if any(path != file or text.count(old) != 1 for path, old, _ in pairs):
        return None
    homes = []
    for _, old, _ in pairs:
        place = text.index(old) + len(old) - len(old.lstrip())
        home = function_at(file, text, place)
        if home is None or text[home.start : home.end].count(old) != 1:
            return None
        homes.append(home)
    return homes[0] if all(home.same(homes[0]) for home in homes) else None


def proof_of(function, proofs):
    """The folder of a function's proof, which need not be there."""
    if function.owner:
        found = [it for it in proofs.glob(f"**/{function.owner}/{function.name}") if it.is_dir()]
        return found[0] if found else proofs / function.owner / function.name
    module = Path(function.file).relative_to("src").with_suffix("")
    return proofs / function.name if str(module) in ("lib", "main") else proofs / module / function.name


def copy_proof(copy, crate):
    """Gives a copy the proof of its function."""
    proofs = crate / "proofs"
    old = proof_of(copy.function, proofs)
    if not old.is_dir():
        return
    new = old.with_name(copy.name)
    shutil.copytree(old, new)
    before, after = (".".join(it.relative_to(proofs).parts) for it in (old, new))
    for path in new.rglob("*.antt"):
        text = path.read_text(encoding="utf-8")
        prefix = rf"(Rattle\.{crate.name}\.proofs\.)"
        path.write_text(re.sub(rf"{prefix}{re.escape(before)}\.", rf"\g<1>{after}.", text), encoding="utf-8")
        for file, name in copy.left_out:
            if path.name == file:
                leave_out(path, name)


def write_copies(copies, crate, slips):
    """Writes the copies behind their functions, into a crate that has none."""
    behind = {}
    for copy in copies:
        home = copy.function
        text = (crate / home.file).read_text(encoding="utf-8")[home.start : home.end]
        for _, old, new in slips[copy.slip] if copy.slip else []:
            text = text.replace(old, new)
        text = re.sub(rf"\bfn {home.name}\b", f"fn {copy.name}", text, count=1)
        behind.setdefault(home.file, []).append((home.end, "\n" + text))
        copy_proof(copy, crate)
    for file, them in behind.items():
        text = (crate / file).read_text(encoding="utf-8")
        for end, added in sorted(them, key=lambda it: -it[0]):
            text = text[:end] + added + text[end:]
        (crate / file).write_text(text, encoding="utf-8")


def parts_of(text):
    """The definitions of a proof file, each with its name, and its imports, each with its text."""
    parts = []
    for line in text.split("\n"):
        if line and not line.startswith((" ", "\t", "}", ")", "unfolding ")):
            head = re.match(r"(?:pub )?([\w\-+]+)", line)
            name = head[1] if head else ""
            name = line if name == "use" else name
            if not parts or name != parts[-1][0]:
                parts.append((name, []))
        if not parts:
            parts.append(("", []))
        parts[-1][1].append(line)
    return parts


def leave_out(path, name):
    """Takes a definition or an import out of a proof file."""
    parts = parts_of(path.read_text(encoding="utf-8"))
    kept = [line for part, lines in parts if part != name for line in lines]
    path.write_text("\n".join(kept), encoding="utf-8")


def misfits(said, crate):
    """The definitions and imports of proof files that the check finds wrong: the file, and what `parts_of` names."""
    found = set()
    for file, row in re.findall(r"^(?:\./)?(proofs/\S+\.antt):(\d+):\d+: error", said, re.MULTILINE):
        path = crate / file
        if not path.is_file():
            continue
        rows = 0
        for name, lines in parts_of(path.read_text(encoding="utf-8")):
            rows += len(lines)
            if rows >= int(row):
                if name:
                    found.add((path, name))
                break
    return found


class Ended(Exception):
    """The run ends before all is tried: its time is over, or it is interrupted."""


class Runs:
    """The commands that run now. Each has a process group of its own, which ends with the run."""

    def __init__(self):
        self.lock = threading.Lock()
        self.there = set()
        self.over = False

    def run(self, command, **how):
        """The status and the output of a command."""
        if self.is_over():
            raise Ended
        with self.lock:
            done = subprocess.Popen(command, start_new_session=True, **how)
            self.there.add(done)
        if self.over:
            self.kill(done)
        try:
            said, more = done.communicate(timeout=None if options.minutes is None else self.left())
        except subprocess.TimeoutExpired:
            self.kill(done)
            done.communicate()
            raise Ended from None
        finally:
            with self.lock:
                self.there.discard(done)
        if self.over:
            raise Ended
        return done.returncode, said, more

    def left(self):
        """How many seconds are left of the run."""
        return begin + 60 * options.minutes - time.time()

    def is_over(self):
        return self.over or (options.minutes is not None and self.left() <= 0)

    def kill(self, done):
        try:
            os.killpg(done.pid, signal.SIGKILL)
        except ProcessLookupError:
            pass

    def end(self, *_):
        """Ends all that runs, and lets nothing begin."""
        self.over = True
        for done in list(self.there):
            self.kill(done)


runs = Runs()
for number in (signal.SIGINT, signal.SIGTERM, signal.SIGHUP):
    signal.signal(number, runs.end)


def check(crate, paths, label):
    """What a check says of the functions and modules of these paths and of what they call, or of the whole crate if there is none."""
    started = time.time()
    command = ["rt", "check", "--jobs", "1", *(word for path in paths for word in ("--only", path))]
    status, said, _ = runs.run(command, cwd=crate, stdin=subprocess.DEVNULL, stdout=subprocess.PIPE, stderr=subprocess.STDOUT, text=True, errors="replace")
    if logs:
        Path(logs).mkdir(parents=True, exist_ok=True)
        (Path(logs) / f"{crate.name}_{label}.log").write_text(f"{time.time() - started:.0f} s\n{said}", encoding="utf-8")
    return status, said


def is_verdict(status, said):
    return status == 0 or status == 1 and re.search(r"^(logic=not-proved|only=\d+ )", said, re.MULTILINE) is not None


def restore(name, crate):
    """Makes the copy of a crate what the crate is."""
    for part in PARTS:
        shutil.rmtree(crate / part, ignore_errors=True)
        if (top / "crates" / name / part).is_dir():
            subprocess.run(["cp", "-a", top / "crates" / name / part, crate], check=True)


def judged(said, path):
    """What the check says of a function and its closures: how it is refused, or that it is proved, or nothing; and what is left, the
    goals for one that is refused by a clause."""
    name = path.rpartition("::")[2]
    lines = re.findall(rf"^fn \w+::{re.escape(path)}(?:::\S*)?: (.*)$", said, re.MULTILINE)
    open_lines = [line for line in lines if line != "proved"]
    if not open_lines:
        return ("proved" if lines else "nothing"), []
    unmet = [re.findall(r"`([^`]+)`", line.partition("did not prove")[2]) for line in open_lines]
    goals = [goal for them in unmet for goal in them]
    goals += re.findall(rf"^note: `([^`]+)` of proofs/\S*\b{re.escape(name)}/\S+ must prove", said, re.MULTILINE)
    if goals:
        return "clause", sorted(set(goals))
    return "proof", [open_lines[0][:160]]


def clauses_of(goals):
    """The clauses that these goals are of, at whichever exit of the function, and the other goals as they are."""
    ends = re.compile(r"returns\b(?:.*-clause-(\w+)(?:-\d+)?$)?")
    return {("clause", found[1] or "") if found else ("goal", goal) for goal in goals for found in [ends.match(goal)]}


def is_met_else(said, path, goals):
    """Whether a check of the function as it is meets a clause, at each of its exits, that one of these goals is of, or such a goal."""
    verdict, left = judged(said, path)
    return verdict == "proved" or verdict == "clause" and not clauses_of(goals) <= clauses_of(left)


def short(said):
    """The line of a check that came to no verdict."""
    faults = re.findall(r"^.*: error.*$", said, re.MULTILINE) or said.splitlines() or ["nothing said"]
    return faults[-1][:200]


class Trial:
    """The slips of a crate, tried on a copy of it."""

    def __init__(self, name, crate):
        self.name, self.crate = name, crate
        self.slips = {it: read_slip(top / "crates" / name / "slips" / f"{it}.edit") for it in wanted_of(name)}
        self.found = {}
        self.proved = {}
        self.checks = 0

    def check(self, paths=()):
        self.checks += 1
        return check(self.crate, paths, self.checks)

    def tell(self, slip, verdict, more):
        self.found[slip] = verdict
        record.note(self.name, slip, verdict, re.sub(r"\s+", " ", more)[:100])
        kind = f"refused ({verdict})" if verdict in REFUSED else verdict
        print(f"{kind}: {self.name}/{slip}: {more}", flush=True)

    def write(self, copies):
        """Writes these copies into the crate as it is, and beside each that lacks answers the function as it is."""
        restore(self.name, self.crate)
        write_copies(copies + [copy.control() for copy in copies if copy.left_out], self.crate, self.slips)

    def try_all(self):
        """Tries each slip that lies in a function in a copy of that, and the others, and what is left of those, in their place."""
        copies = []
        for number, (slip, pairs) in enumerate(self.slips.items()):
            home = home_of(pairs, self.crate)
            if home:
                copies.append(Copy(home, f"{home.name}_slip{number}", slip))
        self.try_copies(copies)
        for slip in self.slips:
            if slip not in self.found:
                self.try_in_place(slip)

    def try_copies(self, copies):
        """Tries copies in checks of all of them, until of each it is known what refuses it, or that it is to be tried in its place."""
        for turn in range(TURNS + 1):
            if not copies:
                return
            self.write(copies)
            status, said = self.check(self.paths_of(copies))
            if not is_verdict(status, said):
                self.try_readable(copies, said)
                return
            copies = self.tell_known(copies, said, turn == TURNS)

    def paths_of(self, copies):
        """The copies, those without a slip beside them, and the functions as they are."""
        names = [copy.name for copy in copies] + [copy.control().name for copy in copies if copy.left_out]
        homes = [copy.function for copy in copies] + [copy.function for copy in copies if copy.left_out]
        return sorted({home.path(name) for home, name in zip(homes, names)} | {home.path() for home in homes})

    def tell_known(self, copies, said, last):
        """Says what refuses each copy, but for those that need another check, which it gives: some of their answers misfit."""
        again = []
        for copy in copies:
            if not last and self.leave_out(copy, said):
                again.append(copy)
            else:
                self.tell_copy(copy, said)
        return again

    def try_readable(self, copies, said):
        """After a check that came to no verdict: tries the copies that it can read, or the halves if it doesn't say which it can't."""
        left = [copy for copy in copies if not self.is_unread(copy, said)]
        half = len(copies) // 2
        if len(left) < len(copies):
            self.try_copies(left)
        elif half:
            self.try_copies(copies[:half])
            self.try_copies(copies[half:])

    def is_unread(self, copy, said):
        """Whether an error is at the text of a copy."""
        for file, row in re.findall(r"^(?:\./)?(src/\S+\.rt):(\d+):\d+: error", said, re.MULTILINE):
            text = (self.crate / file).read_text(encoding="utf-8")
            place = len("\n".join(text.split("\n")[: int(row) - 1])) + 1
            home = function_at(file, text, place)
            if home and home.name == copy.name:
                return True
        return False

    def leave_out(self, copy, said):
        """Notes the answers that misfit a copy which nothing else refuses; whether there were any."""
        if judged(said, copy.path())[0] != "proof":
            return False
        new = {(path.name, name) for path, name in misfits(said, self.crate) if copy.name in path.parts} - copy.left_out
        copy.left_out |= new
        return bool(new)

    def tell_copy(self, copy, said):
        verdict, goals = judged(said, copy.path())
        if verdict in ("proved", "nothing"):
            return
        home = copy.function
        if judged(said, home.path())[0] != "proved":
            self.tell(copy.slip, "NOT TRIED", f"{home.path()} isn't proved itself")
            return
        if verdict == "clause" and copy.left_out and not is_met_else(said, copy.control().path(), goals):
            verdict = "goal"
        self.tell(copy.slip, verdict, f"{home.owner + '::' if home.owner else ''}{home.name}: {', '.join(goals[:4])}")

    def is_proved(self, paths):
        """Whether the crate as it is is proved, as far as a check of these paths goes."""
        if paths not in self.proved:
            restore(self.name, self.crate)
            self.proved[paths] = self.check(paths)[0] == 0
        return self.proved[paths]

    def modules_of(self, slip):
        """The modules that a slip changes, or none if it changes anything else."""
        files = {path for path, _, _ in self.slips[slip]}
        modules = ["::".join(module_of(file)) if file.startswith("src/") else "" for file in files]
        return tuple(sorted(modules)) if all(modules) else ()

    def try_in_place(self, slip):
        """Tries a slip where it is: a check of the modules that it changes, and then one of the whole crate."""
        modules = self.modules_of(slip)
        if modules and self.is_proved(modules) and self.try_check(slip, modules):
            return
        if not self.is_proved(()):
            self.tell(slip, "NOT TRIED", "the crate isn't proved itself")
        elif not self.try_check(slip, ()):
            self.try_cases(slip)

    def try_check(self, slip, paths):
        """Whether a check of these paths says that a slip is refused where it is, or that it can't be tried."""
        left_out = set()
        for _ in range(TURNS):
            restore(self.name, self.crate)
            fault = write_slip(self.slips[slip], self.crate) or self.drop(left_out)
            if fault:
                self.tell(slip, "NOT TRIED", fault)
                return True
            status, said = self.check(paths)
            if status == 0:
                return False
            left = re.findall(r"^fn \w+::(\S+): (?!proved$)", said, re.MULTILINE)
            if not is_verdict(status, said) or not left:
                if not paths:
                    self.tell(slip, "NOT TRIED", "no function is named" if is_verdict(status, said) else short(said))
                return not paths
            by_clause = [path for path in left if judged(said, path)[0] == "clause"]
            new = {(path.relative_to(self.crate), name) for path, name in misfits(said, self.crate)} - left_out
            if by_clause or not new:
                break
            left_out |= new
        verdict = "clause" if by_clause else "proof"
        path = (by_clause or left)[0]
        goals = judged(said, path)[1]
        if by_clause and left_out:
            restore(self.name, self.crate)
            self.drop(left_out)
            _, said = self.check(paths)
            verdict = "clause" if is_met_else(said, path, goals) else "goal"
        more = f", and {len(left) - 1} more" if len(left) > 1 else ""
        self.tell(slip, verdict, f"{path}: {', '.join(goals[:4])}{more}")
        return True

    def try_cases(self, slip):
        """Runs the cases over a slip that the check proves, if its file names a program of them."""
        program = case_of(top / "crates" / self.name / "slips" / f"{slip}.edit")
        if not program:
            return self.tell(slip, "NOT REFUSED", "the check proves it")
        folder = self.crate.parent / program
        with open(folder / "stdin", "rb") as given:
            _, said, more = runs.run(["rt", "try", "--seconds", "1000"], cwd=folder, stdin=given, stdout=subprocess.PIPE, stderr=subprocess.PIPE)
        if b"run=ended status=0" not in more:
            return self.tell(slip, "NOT TRIED", f"{program} gave no answer")
        wanted = (folder / "stdout").read_bytes().splitlines()
        rows = [row for row, both in enumerate(zip(wanted, said.splitlines()), 1) if both[0] != both[1]]
        if not rows:
            return self.tell(slip, "NOT REFUSED", f"the check proves it, and {program} prints what it should")
        return self.tell(slip, "case", f"{program}: line {rows[0]} of its output differs")

    def drop(self, left_out):
        """Leaves these answers out of the crate's proofs."""
        for path, name in left_out:
            leave_out(self.crate / path, name)


def copy_crates(name, room):
    """Copies the repository's crates: this one whole, the others by links to their files."""
    (room / "crates").mkdir()
    for part in ["crates.txt", "HANDLES"]:
        shutil.copy(top / part, room)
    for it in (top / "crates").iterdir():
        # Links want the folder for temporary files on the same disk.
        how = ["cp", "-a", "--reflink=auto"] if it.name == name else ["cp", "-al"]
        if runs.run([*how, it, room / "crates"], stderr=subprocess.DEVNULL)[0] != 0:
            shutil.rmtree(room / "crates" / it.name, ignore_errors=True)
            runs.run(["cp", "-a", it, room / "crates"])


def try_crate(name):
    """How many of a crate's slips were refused by what, how many not, and how many are left."""
    wanted = wanted_of(name)
    with tempfile.TemporaryDirectory() as folder:
        trial = Trial(name, Path(folder) / "crates" / name)
        try:
            copy_crates(name, Path(folder))
            trial.try_all()
        except Ended:
            pass
        return Counter(trial.found.values()) + Counter({"left": len(wanted) - len(trial.found)})


with ThreadPoolExecutor(max(1, options.jobs)) as room:
    total = sum(room.map(try_crate, crates), Counter())
refused, left = {kind: total.pop(kind, 0) for kind in REFUSED}, total.pop("left", 0)
said = ", ".join(f"{count} by a {kind}" for kind, count in refused.items())
over = f"; {left} not tried yet" if left else ""
print(f"{sum(refused.values())} refused ({said}), {sum(total.values())} not{over}; {(time.time() - begin) / 60:.0f} minutes")
sys.exit(0 if not total and not runs.over else 1)
PYTHON
