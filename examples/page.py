"""page.py FILE: what a reader of HTML finds in a page of `bacgwctl report`: whether it is well formed, its elements and attributes,
and its texts, a line each."""

import html.parser
import sys

VOID = {"meta"}


class Reader(html.parser.HTMLParser):
    def __init__(self):
        super().__init__(convert_charrefs=True)
        self.open, self.kinds, self.lines, self.flaws = [], set(), [], []

    def handle_starttag(self, tag, attributes):
        self.kinds |= {tag} | {f"{tag} {key}" for key, _ in attributes}
        if tag not in VOID:
            self.open.append(tag)

    def handle_endtag(self, tag):
        if not self.open or self.open.pop() != tag:
            self.flaws.append(tag)

    handle_startendtag = lambda self, tag, attributes: (self.handle_starttag(tag, attributes), self.open.pop())

    def handle_data(self, data):
        if data.strip() and self.open[-1] not in ("style", "script"):
            self.lines.append(f"{self.open[-1]}: {' '.join(data.split())}")


reader = Reader()
reader.feed(open(sys.argv[1], encoding="utf-8").read())
reader.close()
print("well formed" if not reader.open and not reader.flaws else f"flaws: {reader.open} {reader.flaws}")
print("elements:", ", ".join(sorted(reader.kinds)))
print("\n".join(reader.lines))
