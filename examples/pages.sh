#!/usr/bin/env bash
# Checks what the pages name: each target of a link and each section that one leads to, each crate and path in
# backticks, each item `gw_X::..::NAME`, each name in backticks in docs/spec/ and docs/DEFINITIONS.md, which must be in
# the code of some crate, each definition that docs/DEFINITIONS.md quotes, which must be in the file beside it with that
# type, by keys.sh the keys of the man page, by pics.sh the tables of docs/PICS.md, and each case that docs/BTL.md names.
# It wants python3 and no built program. The last line says how many agreed.
set -euo pipefail
exec python3 - "$(cd "$(dirname "$0")/.." && pwd)" <<'END'
import glob, os, re, subprocess, sys

TOP = sys.argv[1]
os.chdir(TOP)
PAGES = subprocess.run(["git", "ls-files", "-co", "--exclude-standard", "*.md"], capture_output=True, text=True).stdout.split()
PAGES = [page for page in PAGES if os.path.exists(page)]
CRATES = {line.split(":")[0] for line in open("crates.txt") if ":" in line and not line.startswith("#")}
FOLDERS = ("src", "specs", "proofs", "must-fail", "slips")          # of a crate
ROOTS = ("crates", "docs", "examples", "bench", "man", "dist", ".ci")  # of the repository
BUILT = re.compile(r"/out(/|$)|^out/")                               # what a build leaves is no file of the repository
agreed, failed = 0, 0


def say(holds, page, what):
    global agreed, failed
    if holds:
        agreed += 1
    else:
        failed += 1
        print(f"{page}: {what}")


def without_blocks(text):
    return re.sub(r"^```.*?^```$", "", text, flags=re.M | re.S)


def slug(heading):
    text = re.sub(r"\[([^\]]*)\]\([^)]*\)", r"\1", heading)
    return re.sub(r"[^\w\- ]", "", text.lower()).strip().replace(" ", "-")


def anchors(page):
    return {slug(found) for found in re.findall(r"^#+ (.*)$", without_blocks(open(page).read()), flags=re.M)}


def check_links(page, text):
    for target in re.findall(r"\]\(([^)\s]+)\)", text):
        if re.match(r"https?:|mailto:", target):
            continue
        path, _, anchor = target.partition("#")
        full = os.path.normpath(os.path.join(os.path.dirname(page), path)) if path else page
        say(os.path.exists(full), page, f"no file at the link {target}")
        if anchor and os.path.exists(full):
            say(anchor in anchors(full), page, f"no section at the link {target}")


def is_there(path, page, crate):
    """Whether a path in backticks is there: from the top, beside the page, or in the crate that is spoken of."""
    bases = ["", os.path.dirname(page), f"crates/{crate or '*'}"]
    return any(glob.glob(os.path.join(base, path)) for base in bases)


def crate_of(page):
    found = re.match(r"crates/(\w+)/", page)
    return found.group(1) if found else None


def check_names(page, text):
    for line in text.split("\n"):
        crate = crate_of(page)
        for name in re.findall(r"`([^`\n]+)`", line):
            if re.fullmatch(r"(bacgw|gw_\w+)", name):
                crate = name
                say(name in CRATES, page, f"no crate {name}")
            elif re.fullmatch(r"gw_\w+(::\w+)+", name):
                check_item(page, name)
                crate = name.split("::")[0] if os.path.isdir(f"crates/{name.replace('::', '/src/', 1)}") else crate
            elif re.fullmatch(r"[\w.*-]+(/[\w.*-]+)+/?", name) and not BUILT.search(name):
                check_path(page, name, crate)
                crate = named_crate(name) or crate
            elif re.fullmatch(r"\w+\.(antt|rt)", name):
                there = glob.glob(f"crates/{crate or '*'}/**/{name}", recursive=True)
                say(there, page, f"no file {name} in {crate}")


def named_crate(name):
    found = re.match(r"crates/(\w+)/", name)
    return found.group(1) if found else None


def check_path(page, name, crate):
    first = name.split("/")[0]
    if first in ROOTS or first in FOLDERS:
        say(is_there(name, page, crate), page, f"no file {name}" + (f" in {crate}" if first in FOLDERS else ""))


def check_item(page, name):
    crate, item = name.split("::")[0], name.split("::")[-1]
    files = glob.glob(f"crates/{crate}/src/**/*.rt", recursive=True) + glob.glob(f"crates/{crate}/specs/**/*.antt", recursive=True)
    there = any(re.search(rf"\b{re.escape(item)}\b", open(file).read()) for file in files)
    say(there, page, f"no {item} in {crate}")


def code_words():
    """Each word in the sources, definitions and proofs of the crates, without their comments."""
    words = set()
    for file in [file for folder in FOLDERS[:3] for file in glob.glob(f"crates/*/{folder}/**/*.[ar]*t", recursive=True)]:
        mark = "--" if file.endswith(".antt") else "//"
        words.update(re.findall(r"\w+", re.sub(rf"(^|\s){mark}.*$", "", open(file).read(), flags=re.M)))
    return words


def check_words(page, text, words):
    """A name in backticks, as `link_answer`, `RuleList::hides`, a key `stations?` or the front `encode_..` of names."""
    for name in re.findall(r"`([^`\n]+)`", text):
        if re.fullmatch(r"[A-Za-z]\w+(::\w+)*\??", name):
            say(set(re.findall(r"\w+", name)) <= words, page, f"no name {name} in crates/")
        elif re.fullmatch(r"\w+\.\.", name):
            say(any(word.startswith(name[:-2]) for word in words), page, f"no name {name} in crates/")


def plain(signature):
    """A type without the names of its parameters, its implicit ones and its spaces."""
    signature = re.sub(r"\{[^{}]*\}(\s*→)?", "", signature)
    named = re.compile(r"\(\s*([\w ]+?)\s*:\s*((?:[^()]|\([^()]*\))*)\)")
    signature = named.sub(lambda found: " → ".join([found.group(2)] * len(found.group(1).split())), signature)
    return re.sub(r" ?([^\w ]) ?", r"\1", re.sub(r"\s+", " ", signature).strip())


def signatures(file):
    """The types of the definitions of a file by their names, as written and with what is renamed by its own name."""
    text = re.sub(r"--.*$", "", open(file).read(), flags=re.M)
    renamed = text
    for original, other in re.findall(r"\b(\w+) as (\w+)\b", text):
        renamed = re.sub(rf"\b{other}\b", original, renamed)
    form = r"^(?:(?:abbrev|unfoldable|pub|data|record) )+([\w-]+)([^:=]*?(?:[({][^=]*?[)}])*)\s*:\s(.*(?:\n[ \t]+.*)*)"
    found = {}
    for name, parameters, type_ in re.findall(form, text, flags=re.M) + re.findall(form, renamed, flags=re.M):
        groups = re.findall(r"\((?:[^()]|\([^()]*\))*\)", parameters)
        whole = " → ".join(groups + [re.split(r"\bwhere\b", type_)[0]])
        found.setdefault(name, []).append(plain(whole))
    return found


def check_definitions():
    page = "docs/DEFINITIONS.md"
    text = open(page).read()
    for section in re.split(r"^##+ .*$", text, flags=re.M):
        beside = files_in(re.sub(r"```.*?```", "", section, flags=re.S))
        for block in re.findall(r"^```antt\n(.*?)^```$", section, flags=re.M | re.S):
            check_block(page, block, beside)


def files_in(text):
    """The files that a text names in backticks, a bare name being in the folder of the one before it."""
    files, folder = [], ""
    for named, name in re.findall(r"`(crates/\w+/specs/(?:internal/)?)?(\w+\.antt)?`", text):
        folder = named or folder
        if name:
            files.append(folder + name)
    return files


def check_block(page, block, beside):
    here, folder = beside, os.path.dirname(beside[0]) + "/" if beside else ""
    for line in block.split("\n"):
        code, _, comment = line.partition("--")
        named = re.match(r"\s*(crates/[\w/]+/)?(\w+\.antt)", comment)
        if named:
            folder = named.group(1) or folder
            here = [folder + named.group(2)]
        found = re.match(r"(?:pub (?:record|data) )?((?:\w+(?:-\w+)* )+) *: (.+?)(?: where)?\s*$", code)
        for name in found.group(1).split() if found else []:
            check_definition(page, name, plain(found.group(2)), here)


def check_definition(page, name, quoted, files):
    missing = [file for file in files if not os.path.exists(file)]
    if missing or not files:
        return say(False, page, f"no file {missing} of {name}")
    types = [type_ for file in files for type_ in signatures(file).get(name, [])]
    where = ", ".join(files)
    if not types:
        return say(False, page, f"no {name} in {where}")
    say(quoted in types, page, f"{name} in {where} is {types[0]} and not {quoted}")


def check_cases():
    """The sections of cases that the tables of docs/BTL.md name in italics."""
    page = "docs/BTL.md"
    lines = open("crates/gw_gateway_vectors/stdin").read().split("\n")
    for name in re.findall(r"(?<!\*)\*([^*\n]+)\*(?!\*)", open(page).read()):
        say(f"== {name}" in lines or f"== script {name}" in lines, page, f"no case {name} in gw_gateway_vectors")


WORDS = code_words()
for page in PAGES:
    text = without_blocks(open(page).read())
    check_links(page, text)
    check_names(page, text)
    if page.startswith("docs/spec/") or page == "docs/DEFINITIONS.md":
        check_words(page, text, WORDS)
check_definitions()
check_cases()
keys = subprocess.run(["examples/keys.sh"], capture_output=True, text=True)
say(keys.returncode == 0, "man/bacgw.1", "\n" + keys.stdout + keys.stderr)
pics = subprocess.run(["examples/pics.sh", "--check"], capture_output=True, text=True)
say(pics.returncode == 0, "docs/PICS.md", "\n" + pics.stdout + pics.stderr)
print(f"{agreed} agreed, {failed} failed")
sys.exit(failed > 0)
END
