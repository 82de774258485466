#!/usr/bin/env bash
# Refuses each growth of the built programs in turn: the first of a run, then in a new run the second, until none is refused.
#
#     bench/growths.sh [--only KIND] [FOLDER]      # a folder of scripts, examples/ by default
#     JOBS=2 bench/growths.sh                      # so many cases side by side; else as many as there are processors
#
# A library that is loaded before the program, bench/fail_alloc.c, makes the runs of a case, each a child from before `main`.
#
# It goes over the cases of the four programs, crates/gw_*_vectors, each in a run of its own, and over `bacgw replay` on each script of the folder; with --only
# over the cases of one kind alone, as `again` or `edits`. A script is played twice: by `replay`, and as a case of `again`, where each
# datagram that found no memory is given once more. A case then comes to what it does with ample memory; or it tells that
# there was none, in its line or after whole blocks of a script; or the program ends with status 1. Of a case of `serve` the events
# that found no memory may be dropped. A case of `run` may end as the program does then, tell its fault without the note that explains
# it, or serve on without the datagram; one of `fronts` is runs over and over, one of `behind` scripts once more, one of `brief` a long script in short, and one of `trial` two
# runs, of which one may end for want of memory: they are passed by. A replay does what it does with ample memory, or ends with `bacgw: out of memory` and status 1, and what it wrote is
# whole blocks, each up to its line `end`, from the front of the right output. NAME.out has the right output; NAME.toml, where it is
# there, is the configuration. A script of another folder whose right output the program doesn't print yet is left out.
#
# It wants gcc and python3, and all built: (cd crates/NAME && rt run < stdin) of each, and ./bacgw prove. Where all agree with examples/
# it writes the date and the commit to docs/GATE.md. It prints how many growths of each kind were refused, and the last line says how
# many were met well.
set -euo pipefail

top=$(cd "$(dirname "$0")/.." && pwd)
only=
[ "${1:-}" = --only ] && { only=${2:?kind}; shift 2; }
folder=${1:-$top/examples}
program=$top/crates/bacgw/out/bacgw
work=$(mktemp -d)
trap 'rm -rf "$work"' EXIT

for stdin in "$top"/crates/gw_*_vectors/stdin; do
    name=$(basename "${stdin%/stdin}")
    [ -x "$top/crates/$name/out/$name" ] || { echo "build the cases first: (cd crates/$name && rt run < stdin)" >&2; exit 1; }
done
[ -x "$program" ] || { echo "build bacgw first: ./bacgw prove" >&2; exit 1; }
gcc -std=c11 -Wall -Wextra -Werror -O2 -fPIC -shared -o "$work/fail_alloc.so" "$top/bench/fail_alloc.c"

python3 - "$work/fail_alloc.so" "$program" "$folder" "$top" "$only" <<'PYTHON'
import collections
import datetime
import os
import re
import signal
import struct
import subprocess
import sys
import tempfile
from concurrent.futures import ThreadPoolExecutor
from pathlib import Path

shim, program = sys.argv[1:3]
folder, top, only = Path(sys.argv[3]).resolve(), Path(sys.argv[4]), sys.argv[5]
vectors = sorted((top / "crates").glob("gw_*_vectors"))
is_examples = folder == top / "examples"

# The kinds whose section is one case.
WHOLE = {"script", "brief", "explained", "again", "list", "check", "texts", "run", "fronts", "faults"}
# The kinds that play cases of another kind again, or tell a long one in short.
PASSED_BY = {"fronts", "behind", "brief", "trial"}


# The line of each program that tells it; and the program whose runs a crate's cases are, where it isn't `bacgw`.
OUT_OF_MEMORY = {name: name.encode() + b": out of memory" for name in ("bacgw", "bacgwctl")}
RUN_BY = {"gw_tool_vectors": "bacgwctl"}
# How the line of a fault begins in a case, and what is written where words are no command line.
FAULTS = tuple(b"err %s: " % name.encode() for name in OUT_OF_MEMORY)
BAD_WORDS = {fault + b"bad command line" for fault in FAULTS}
# The commands that explain a fault of a configuration.
EXPLAINING = {"check", "explain", "lint"}

# What fail_alloc.c writes before the output and the errors of a run: whether a growth was refused, the status, and their lengths.
FRAME = struct.Struct("=IiII")


def runs(words, given):
    """Of each run whether a growth was refused, and its status, output and errors: with none refused, the first, the second and on."""
    how = {"env": {**os.environ, "LD_PRELOAD": shim, "FAIL_ALLOC": "each"}, "stdout": subprocess.PIPE}
    with tempfile.TemporaryFile() as file:
        file.write(given)
        file.flush()
        with subprocess.Popen(words, stdin=file, **how) as process:
            while head := process.stdout.read(FRAME.size):
                is_refused, status, output, errors = FRAME.unpack(head)
                yield is_refused == 1, (status, process.stdout.read(output), process.stdout.read(errors))
    if process.returncode != 0:
        raise ChildProcessError(f"the runs ended with status {process.returncode}")


def kind_of(name):
    return "replay" if name.endswith(".script") else name.split(" ")[0].rstrip(":")


def is_cut(line, right):
    """Whether a telling was cut where what it is written to had to grow: it tells so, and what was written is a front."""
    call, _, answer = line.partition(b" => write failed")
    wanted_call, _, wanted = right.partition(b" => ok ")
    return bool(answer) and call == wanted_call and wanted.startswith(answer.removeprefix(b" "))


def tells_it(line, right):
    """Whether a line is right, or tells that there was no memory. Of `serve` it may tell that an event was dropped for it."""
    dropped = re.search(rb"=> ok \d+ \d+ [1-9]", line)
    return line == right or b"memory" in line.lower() or dropped is not None or is_cut(line, right)


def is_well_answered(answer, right, told=b"err " + OUT_OF_MEMORY["bacgw"], at_end=(b"status 1",)):
    """Whether a case came to what is right, or says that there was no memory. Of a `run` that is the line `told`, and one of the statuses `at_end`."""
    status, output, errors = answer
    if answer == right:
        return True
    if status == 1 and b"memory" in errors.lower():
        return right[1].startswith(output)
    lines, wanted = output.splitlines(), right[1].splitlines()
    if status != 0 or not lines:
        return False
    if told in lines and any(status in lines for status in at_end):
        printed = [line for line in lines if line.startswith(b"out ")]
        return printed == [line for line in wanted if line.startswith(b"out ")][:len(printed)]
    if lines[-1] in (b"out of memory", b"write failed"):  # the second where what is written to had to grow
        return lines[:-1] == wanted[:len(lines) - 1] and (len(lines) < 4 or lines[-2] == b"end")
    return len(lines) == len(wanted) and all(map(tells_it, lines, wanted))


def is_note(line):
    """Whether a line of a run is no fault's own: a front of it explains the fault, or how the program is called."""
    return line.startswith((b"out ", b"err ")) and not line.startswith(FAULTS)


def is_uncounted(words, lines, wanted):
    """Whether a replay that counts its asks says in the place of the counts that there was no memory for them."""
    left = [line for line in wanted if not line.startswith((b"err rule ", b"err default: "))]
    told = [line for line in lines if line != b"err bacgw: asks aren't counted: out of memory"]
    return words[0] == "replay" and "--stats" in words and len(told) + 1 == len(lines) and told == left


def is_told_without_note(lines, wanted):
    """Whether a fault is told without its note, or with one that says that there was no memory."""
    left = [line for line in lines if not (is_note(line) and line.endswith(b"out of memory"))]
    return b"status 0" not in wanted and left == [line for line in wanted if not is_note(line)]


# A report of a run, and one that tells that its one datagram was dropped.
REPORT = b"err stats "
DROPPED = re.compile(rb"err stats seconds=\d+ datagrams=0 memory_drops=1 denials=0 sends=0 ")


def is_served_without(turns, most, lines, wanted):
    """Whether a run was served to its end without its one datagram: that found no memory and was dropped, and each report tells so,
    as far as standard error, which takes at most so many octets, has room for it."""
    kept = [line for line in wanted if line.startswith((b"== ", b"err bacgw: serving", b"err bacgw: net.ipv4.ip_forward")) or line == b"log "]
    reports = [line for line in lines if line.startswith(REPORT)]
    others = [line for line in lines if line not in reports]
    told = [line for line in others if line not in (b"status 0", b"receives %d sends 0" % turns)]
    is_told = all(DROPPED.match(line) or most is not None and len(line) == len(b"err ") + most for line in reports)
    return told == kept and len(others) == len(kept) + 2 and is_told


# What counts the events and the writes that found no memory.
COUNT = re.compile(rb"\b(?:memory_drops|unseen|unkept)=(\d+)|bacgw_(?:drops_total\{reason=\"memory\"\}|unwatched_events_total"
                   rb"|unkept_states_total|lost_metrics_total) (\d+)")


def counted(lines):
    return sum(int(number) for numbers in COUNT.findall(b"\n".join(lines)) for number in numbers if number)


def tells_of_memory(lines, wanted):
    """Whether a run says that there was no memory for something: by a line, or by a count."""
    told = (b"out of memory", b": lines are lost")
    return counted(lines) > counted(wanted) or any(line.endswith(told) and line not in wanted for line in lines)


def is_within(lines, wanted):
    left = iter(wanted)
    return all(line in left for line in lines)


# The lines of a run that may be other ones where there was no memory: what it counts, what it says of that, what it did in its place,
# and a note in a stamped log.
VARIES = re.compile(rb"err (?:stats|rule \d+|default:) |err default: |metrics |receives |err reload(?: refused)?: |log (?!.* rule=)|log $"
                    rb"|err bacgw: state is kept again$|.*out of memory$|.*: lines are lost$|.* rule=")
FIELD = re.compile(rb"(seconds|datagrams|denials|sends|registrations|peers|learned_routes)=(\d+)")


def counts_no_more(lines, wanted):
    """Whether no report counts more of what was done than the one in its place should."""
    reports, right = ([FIELD.findall(line) for line in them if line.startswith(REPORT)] for them in (lines, wanted))
    return len(reports) == len(right) and all(
        len(some) == len(most) and all(a[0] == b[0] and int(a[1]) <= int(b[1]) for a, b in zip(some, most)) for some, most in zip(reports, right))


def does_no_more(lines, wanted):
    """Whether a run received as often as it should, sent, logged and counted no more, and is else as it should be, line for line."""
    ends = re.compile(rb"receives (\d+) sends (\d+)")
    ended, should = (ends.fullmatch(them[-1]) for them in (lines, wanted))
    asks, right = ([line for line in them if b" rule=" in line] for them in (lines, wanted))
    others, same = ([line for line in them if not VARIES.match(line)] for them in (lines, wanted))
    return (ended and should and ended[1] == should[1] and int(ended[2]) <= int(should[2]) and is_within(asks, right)
            and others == same and counts_no_more(lines, wanted))


def has_metrics(lines, wanted):
    """Whether the metrics are those that should be there, whatever they count, or there are none."""
    names, right = ([re.sub(rb" \d+$", b"", line) for line in them if line.startswith(b"metrics ")] for them in (lines, wanted))
    return names in ([], right)


# What a run may do less than it should without a word: tell why it refused a configuration, write a note into a stamped log, and
# replace the text of its metrics.
REFUSAL = re.compile(rb"(err reload refused: configuration: \w+).*")
LEFT_OUT = re.compile(rb"metrics |log (?!.* rule=)")


def done_by(lines):
    return [REFUSAL.sub(rb"\1", line) for line in lines if not LEFT_OUT.match(line)]


def is_unreported(turns, lines, wanted):
    """Whether a run that reports nothing did all but its one datagram, which found no memory and was dropped; its log doesn't fail then."""
    dropped = b"receives %d sends 0" % turns
    fails = b"err bacgw: log failed" in wanted
    left = [line for line in done_by(wanted) if b" rule=" not in line and not line.startswith((b"receives ", b"err bacgw: log failed"))]
    right = [b"status 0" if fails and line == b"status 1" else line for line in left] + [dropped]
    return done_by(lines) == right and not any(line.startswith(REPORT) for line in wanted)


def is_unstamped(words, lines, wanted):
    """Whether a run ended since a line of its log found no memory for the time in front of it: then the log failed."""
    logs, right = ([line for line in them if line.startswith(b"log ")] for them in (lines, wanted))
    return "--stamp" in words and b"status 1" in lines and any(line.startswith(b"err bacgw: log failed") for line in lines) and is_within(logs, right)


def has_no_room(most, lines):
    """Whether a run ended for want of memory, and the reports before took all the octets that standard error has room for."""
    reports = [line for line in lines if line.startswith(REPORT)]
    return most is not None and b"status 1" in lines and len(reports) == 1 and len(reports[0]) == len(b"err ") + most


def judge_of_keeper(given):
    """How a case of `keep` may come out: if its first try finds no memory, in the store or before it is asked, the keeper counts it, and goes
    on as if the store had failed then."""
    front, _, case = given.rstrip("\n").rpartition("\n")
    turns, answers, script = case.split(" ", 2)
    later = f"{front}\n{turns} f{answers.strip('-')} {script}\n"
    ran = subprocess.run([built(top / "crates" / "gw_gateway_vectors")], input=later.encode(), capture_output=True, timeout=120, check=True)
    less = lambda tries: b" %s of %d" % (tries[1], int(tries[2]) - 1)
    failed = ran.stdout.rpartition(b" => ")[2]
    unasked = re.sub(rb" (\d+) of (\d+)", less, failed, count=1)

    def judge(answer, right):
        status, output, _ = answer
        begins, _, ends = output.rpartition(b" => ")
        wanted_begins, _, wanted = right[1].rpartition(b" => ")
        refused = re.sub(rb" (\d+) of ", lambda tries: b" %d of " % (int(tries[1]) + 1), wanted, count=1)
        is_kept_later = begins == wanted_begins and ends in (failed, unasked, refused)
        return is_well_answered(answer, right) or status == 0 and is_kept_later

    return judge


def judge_of(section, program="bacgw"):
    """The judge of a case. A run may leave out the note on its fault, and drop the datagram that it serves; and where standard
    error takes so many octets alone, the line that tells of the memory is as long."""
    head, *others = section.split("== ")[-1].split("\ninput\n")[0].split("\n")
    if head.startswith("keep "):
        return judge_of_keeper(section)
    if not head.startswith("run "):
        return is_well_answered
    words = others[0].split("|")
    narrow = re.search(r"(?m)^errors (\d+)$", "\n".join(others))
    most = int(narrow[1]) if narrow else None
    told = b"err " + OUT_OF_MEMORY[program][:most]
    counted = re.search(r"(?:^|\|)--turns\|(\d+)(?:\||$)", others[0])
    turns = int(counted[1]) if counted else None
    # `compare` ends with 2 at a fault, but before the command is read a want of memory is one of any call.
    at_end = (b"status 1", b"status 2") if words[0] == "compare" else (b"status 1",)

    def is_well_run(answer, right):
        lines, wanted = answer[1].splitlines(), right[1].splitlines()
        if is_well_answered(answer, right, told, at_end):
            return True
        if answer[0] != 0 or not lines or not has_metrics(lines, wanted):
            return False
        if turns is None:
            explains = words[0] in EXPLAINING or not BAD_WORDS.isdisjoint(wanted)
            explained = [re.sub(rb'"explanation":".*"\}', b'"explanation":null}', line) for line in wanted]
            return explains and (is_told_without_note(lines, wanted) or lines == explained) or is_uncounted(words, lines, wanted)
        return (is_served_without(turns, most, lines, wanted) or has_no_room(most, lines) or is_unreported(turns, lines, wanted)
                or is_unstamped(words, lines, wanted) or done_by(lines) == done_by(wanted)
                or tells_of_memory(lines, wanted) and does_no_more(lines, wanted)
                or "--verbose" in words and is_told_without_note(lines, wanted))

    return is_well_run


def is_well_played(answer, right):
    status, output, errors = answer
    if answer == right:
        return True
    is_whole = output == b"" or output.endswith(b"\nend\n") or output == b"end\n"
    return status == 1 and errors == OUT_OF_MEMORY["bacgw"] + b"\n" and is_whole and right[1].startswith(output)


def told_of(status, errors):
    why = "no end after 120 seconds" if status == -signal.SIGALRM else errors[-300:].decode(errors="replace")
    return f"status {status}: {why}"


def refuse_each(name, words, given, is_well):
    """How many refused growths were met well, and what was said of the others."""
    answers = runs(words, given)
    _, right = next(answers)
    judged, growth, is_last, passed, faults = {}, 0, False, 0, []
    for growth, (is_refused, answer) in enumerate(answers, 1):
        is_last = not is_refused
        if answer not in judged:
            judged[answer] = is_well(answer, right)
        if is_last and answer != right:
            faults.append(f"{name}: another answer with ample memory: {told_of(answer[0], answer[2])}")
        elif not judged[answer]:
            faults.append(f"{name}, growth {growth}: {told_of(answer[0], answer[2])}")
        elif is_refused:
            passed += 1
    if not is_last:
        faults.append(f"{name}: the runs end at growth {growth}, which was refused")
    return name, passed, faults


def prints_right(words, script):
    with open(script) as given:
        ran = subprocess.run(words, stdin=given, capture_output=True, timeout=120)
    right = script.with_suffix(".out").read_bytes()
    at_fault = script.with_suffix(".err")
    right += at_fault.read_bytes() if at_fault.exists() else b""
    return ran.stdout + ran.stderr == right


def built(crate):
    return crate / "out" / crate.name


def cases_of(text):
    """The cases of a text, each with its name and the text of a run of its own, under its configuration if it has one."""
    without, *groups = text.split("== config ")
    for config, group in [("", without), *((f"== config {group.split('== ')[0]}", group) for group in groups)]:
        for section in group.split("== ")[1:]:
            head, body = section.split("\n", 1)
            kind, _, name = head.partition(" ")
            if kind in PASSED_BY:
                continue
            front = f"{config}== {head}\n"
            if kind == "script":
                yield f"again {name}", f"{config}== again {name}\n{body}"
            if kind in WHOLE:
                yield head, front + body
                continue
            for line in body.splitlines():
                if line and not line.startswith("#"):
                    yield f"{head}: {line[:60]}", front + line + "\n"


cases, left_out = [], []
for crate in vectors:
    for name, given in cases_of((crate / "stdin").read_text()):
        if only in ("", name.split(" ")[0]):
            cases.append((name, [built(crate)], given.encode(), judge_of(given, RUN_BY.get(crate.name, "bacgw"))))
count_of_cases = len(cases)
for script in sorted(folder.glob("*.script") if not only else []):
    config = script.with_suffix(".toml")
    words = [program, "replay", *(["--config", str(config)] if config.exists() else [])]
    if prints_right(words, script):
        cases.append((script.name, words, script.read_bytes(), is_well_played))
        if not script.with_suffix(".err").exists():
            text = config.read_text() if config.exists() else ""
            given = f"== config {script.stem}\n{text}== again {script.stem}\n{script.read_text()}"
            cases.append((f"again {script.stem}", [built(top / "crates" / "gw_gateway_vectors")], given.encode(), is_well_answered))
    else:
        left_out.append(script.name)

counts, faults = collections.Counter(), [f"{name}: not what stands in its .out" for name in left_out if is_examples]
with ThreadPoolExecutor(int(os.environ.get("JOBS", os.cpu_count()))) as pool:
    for name, well, ill in pool.map(lambda case: refuse_each(*case), cases):
        counts[kind_of(name)] += well
        faults += ill
passed = counts.total()

for fault in faults:
    print(fault)
if left_out and not is_examples:
    print(f"left out, since they want what isn't built: {' '.join(left_out)}")
done = f"{count_of_cases} cases and {len(cases) - count_of_cases} scripts, {passed:,} refused growths"
if not faults and is_examples and not only:
    page = top / "docs" / "GATE.md"
    line = re.compile(r"(?m)^It (last ran|has not run) green .*$")
    commit = subprocess.run(["git", "-C", top, "rev-parse", "--short", "HEAD"], capture_output=True, text=True, check=True).stdout.strip()
    page.write_text(line.sub(f"It last ran green on {datetime.date.today()}, at {commit}: {done}.", page.read_text()))
print(", ".join(f"{kind} {count:,}" for kind, count in counts.most_common()))
print(done)
print(f"{passed} passed, {len(faults)} failed")
sys.exit(1 if faults or not passed else 0)
PYTHON
