#!/usr/bin/env python3
"""Draws docs/layers.svg: the crates in the groups in which docs/ARCHITECTURE.md lists them, each with the crates of crates.txt that it
uses. A crate that another one of them uses is left out. With --check it only says whether the picture is up to date."""
import html
import re
import sys
from pathlib import Path

DOCS = Path(__file__).resolve().parent
TESTS = "Tests"
WIDTH, WHOLE, LINE, GAP = 1100, 796, 15, 8

# What the crates are about whose names don't say it.
NOTES = {
    "gw_script": "texts, line by line",
    "gw_codecs": "tags, APDUs, services, names",
    "gw_log_words": "words and times of a log",
    "gw_tables": "peers, routes, slots",
    "gw_core": "one event in, effects out",
    "gw_text_laws": "texts without later keys",
    "gw_core_laws": "what holds of every gateway",
    "gw_decisions": "how often rules decide",
    "gw_state_text": "a saved state as a text",
    "gw_state_words": "what of it is kept",
    "gw_state_laws": "that nothing is lost",
    "gw_turns": "a gateway over a wire",
    "gw_watchers": "a trial, an audit, counts",
    "gw_notices": "what is read of a run",
    "gw_command_line": "what bacgw's words ask for",
    "gw_ending": "how a program ends",
    "gw_ask_sets": "which asks there are",
    "gw_policy_text": "read from TOML, its faults",
    "gw_policy_review": "what a policy comes to",
    "gw_policy_drafts": "rules and texts to begin with",
    "gw_json": "lines for programs",
    "gw_report": "a site on a page",
    "gw_verdicts": "which rules decide",
    "gw_cases": "how tests are written",
    "gw_gateway_vectors": "the tests of a gateway",
    "gw_tool_line": "what bacgwctl's words ask for",
    "gw_program_cases": "what two of them share",
    "gw_program_vectors": "the tests of bacgw",
    "gw_tool_vectors": "the tests of bacgwctl",
}


def dependencies():
    """The crates that each crate uses, by crates.txt."""
    lines = (DOCS.parent / "crates.txt").read_text().splitlines()
    pairs = [line.partition(":") for line in lines if line and not line.startswith("#")]
    names = {name for name, _, _ in pairs}
    return {name: [other for other in uses.split() if other in names] for name, _, uses in pairs}


def below(crate, uses):
    """Every crate that a crate reaches."""
    found = set()
    for other in uses[crate]:
        found |= {other} | below(other, uses)
    return found


def direct(crate, uses):
    """What a crate uses and nothing else that it uses does."""
    hidden = set().union(*(below(other, uses) for other in uses[crate]), set())
    return [other for other in uses[crate] if other not in hidden]


def rows():
    """The rows of the page's list, from the ground up."""
    found = []
    for line in (DOCS / "ARCHITECTURE.md").read_text().splitlines():
        if row := re.fullmatch(r"- \*\*(.+)\*\*", line):
            found.append((row[1], []))
        elif crate := re.match(r"    - \[`(\w+)`\]\(\.\./crates/", line):
            found[-1][1].append(crate[1])
    return [row for row in found if row[1]]


def wrapped(words, width):
    """The words joined by commas, in lines of at most so many letters."""
    lines = [""]
    for place, word in enumerate(words):
        word += "," if place < len(words) - 1 else ""
        if lines[-1] and len(lines[-1]) + 1 + len(word) > width:
            lines.append("")
        lines[-1] = f"{lines[-1]} {word}".strip()
    return lines


def columns_of(crates):
    """How many boxes are side by side: at most six, as many as their names leave room for, and no line much shorter than another."""
    longest = max(len(crate) for crate in crates)
    most = min(5, (WHOLE + GAP) // (9 * longest + GAP))
    lines = -(-len(crates) // most)
    return -(-len(crates) // lines)


def text_of(crate, uses, letters):
    short = [other.removeprefix("gw_") for other in direct(crate, uses)]
    return wrapped(short or ["the kit alone"], letters)


class Picture:
    def __init__(self, uses):
        self.uses, self.parts, self.said = uses, [], []

    def box(self, crate, x, y, width, height, colours):
        fill, stroke = colours
        self.parts.append(f'<rect x="{x}" y="{y}" width="{width}" height="{height}" rx="5" fill="{fill}" stroke="{stroke}"/>')
        middle = x + width / 2
        self.line(middle, y + 20, crate, ' font-weight="bold"')
        lines = text_of(crate, self.uses, width // 7)
        for place, line in enumerate(lines):
            self.line(middle, y + 37 + LINE * place, line, ' fill="#52606d" font-size="12"')
        if crate in NOTES:
            self.line(middle, y + 37 + LINE * len(lines), NOTES[crate], ' font-size="12"')
        self.said.append(f"{crate} uses {' '.join(lines)}")

    def line(self, x, y, text, style):
        self.parts.append(f'<text x="{x:g}" y="{y}" text-anchor="middle"{style}>{html.escape(text)}</text>')

    def height(self, crate, width):
        return 30 + LINE * (len(text_of(crate, self.uses, width // 7)) + (crate in NOTES))

    def row(self, title, crates, y, fill):
        """Draws a row, and answers where the next one begins."""
        columns = columns_of(crates)
        width = min(250, (WHOLE - GAP * (columns - 1)) // columns)
        lines = [crates[at : at + columns] for at in range(0, len(crates), columns)]
        heights = [max(self.height(crate, width) for crate in line) for line in lines]
        whole = 30 + sum(heights) + GAP * len(lines) + 4
        self.parts.append(f'<rect x="20" y="{y}" width="830" height="{whole}" rx="8" fill="{fill}" stroke="#cbd2d9"/>')
        self.parts.append(f'<text x="34" y="{y + 20}" fill="#52606d" font-size="12">{title}</text>')
        at = y + 30
        for line, height in zip(lines, heights):
            left = 435 - (len(line) * (width + GAP) - GAP) // 2 if len(lines) == 1 else 435 - (columns * (width + GAP) - GAP) // 2
            for place, crate in enumerate(line):
                self.box(crate, left + place * (width + GAP), at, width, height, ("#eaf7ee", "#5aa772"))
            at += height + GAP
        return y + whole + 12


def drawn():
    uses, found = dependencies(), rows()
    picture = Picture(uses)
    missing = sorted(set(uses) ^ {crate for _, crates in found for crate in crates})
    if missing:
        sys.exit(f"docs/ARCHITECTURE.md and crates.txt differ: {', '.join(missing)}")
    y = 20
    for title, crates in reversed([row for row in found if row[0] != TESTS]):
        picture.said.append(title)
        y = picture.row(title, crates, y, "#f5f7fa")
    picture.said.append(TESTS)
    at = 20
    for crate in reversed(dict(found)[TESTS]):
        height = picture.height(crate, 210)
        picture.box(crate, 870, at, 210, height, ("#eef6ff", "#7aa7d9"))
        at += height + 9
    for place, line in enumerate(["Below its name each crate has the", "crates that it uses, without gw_, but", "for those that these use themselves."]):
        picture.parts.append(f'<text x="870" y="{at + 20 + 17 * place}" fill="#52606d" font-size="12">{line}</text>')
    y += 8
    said = html.escape("; ".join(picture.said))
    head = (
        f'<svg xmlns="http://www.w3.org/2000/svg" viewBox="0 0 {WIDTH} {y}" width="{WIDTH}" height="{y}" role="img" '
        "aria-labelledby=\"title description\" font-family=\"Helvetica, Arial, 'DejaVu Sans', sans-serif\" font-size=\"14\" "
        'fill="#1f2933">\n  <title id="title">The crates in their layers</title>\n'
        f'  <desc id="description">{said}.</desc>\n'
        f'  <rect x="0.5" y="0.5" width="{WIDTH - 1}" height="{y - 1}" rx="10" fill="#ffffff" stroke="#cbd2d9"/>\n'
    )
    return head + "".join(f"  {part}\n" for part in picture.parts) + "</svg>\n"


def main():
    picture, text = DOCS / "layers.svg", drawn()
    if sys.argv[1:] != ["--check"]:
        picture.write_text(text)
    elif picture.read_text() != text:
        sys.exit("docs/layers.svg isn't what docs/layers.py draws")


main()
