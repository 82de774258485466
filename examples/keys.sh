#!/usr/bin/env bash
# Makes the section CONFIGURATION KEYS of man/bacgw.1 from the tables by which the program reads a configuration
# (crates/gw_policy_text/src/keys/tables.rt, with value.rt and items.rt beside it), the bounds of a rule's fields
# (crates/gw_rules/src/field.rt, operation.rt) and what is read where a key is missing (crates/gw_policy_text/src), and
# compares it with the page; with --print it prints it. It wants python3 and no built program. The last line says whether
# they agree.
set -euo pipefail
exec python3 - "$(cd "$(dirname "$0")/.." && pwd)" "${1:-}" <<'END'
import difflib, glob, os, re, sys

os.chdir(sys.argv[1])
PAGE, SECTION = "man/bacgw.1", ".SH CONFIGURATION KEYS"
KEYS_IN, RULES_IN = "crates/gw_policy_text/src/keys", "crates/gw_rules/src"
TABLES, VALUES, ITEMS = (open(f"{KEYS_IN}/{name}.rt").read() for name in ("tables", "value", "items"))
FIELDS, OPERATION = (open(f"{RULES_IN}/{name}.rt").read() for name in ("field", "operation"))
READING = "".join(open(file).read() for file in sorted(glob.glob("crates/gw_policy_text/src/*.rt")))
LIMITS = {}
for file in [file for folder in ("crates/gw_configuration/src", KEYS_IN, RULES_IN) for file in glob.glob(f"{folder}/*.rt")] + ["crates/gw_addr/src/lib.rt"]:
    for name, value, shift in re.findall(r"const (MAX_\w+): \w+ = ([\d_]+)(?: << (\d+))?;", open(file).read()):
        LIMITS[name] = str(int(value) << int(shift or 0))
TEXTS = dict(re.findall(r'const (\w+): &str = "(\w+)";', TABLES))
SHAPES = dict(re.findall(r"const (\w+): (?:Shape|Scalar) = (.*?);", TABLES, re.S))
# The naming of the rules of each format, of a rule that goes both ways, and of an assertion.
ONE, TWO, THREE = (f"Naming::Rule(Format::{name})" for name in ("One", "Two", "Three"))
BOTH, ASSERTION = "Naming::BothWays", "Naming::Assertion"


def body(function, source):
    """The parameters of a function, and what it does."""
    found = re.search(rf"^( *)(?:pub(?:\(crate\))? )?fn {function}(?:<[^>]*>)?\((.*?)\) -> .*?\n\1\{{\n(.*?)\n\1\}}\n", source, re.S | re.M)
    return re.findall(r"(?:^|, )(\w+)", found[2].replace("\n", " ")), found[3]


def arms(block):
    """The patterns of a match and what each gives."""
    inner = re.search(r"^( *)(?:let .*? = )?match [^\n]*? \{\n(.*?\n)\1\}", block, re.S | re.M)
    deep = inner[1] + "    "
    each = [re.fullmatch(r"\s*(.*?)\s+=>\s+(.*)", arm, re.S) for arm in re.split(rf",?\n(?={deep}[\w(])", inner[2].strip().rstrip(","))]
    return [(re.sub(r"\s+", " ", arm[1]), flat(arm[2])) for arm in each]


def flat(code):
    """Code in one line, without the spaces and commas inside of braces."""
    code = re.sub(r"\s+", " ", code)
    code = re.sub(r"\s?\.(?=\w)", ".", code)
    return re.sub(r",?\s*([(){}])\s*", r"\1", code)


def fits(pattern, values):
    """What a pattern names of the values that fit it, or None."""
    parts = pattern[1:-1].split(", ") if pattern.startswith("(") else [pattern]
    if parts == ["_"]:
        return {}
    assert len(parts) == len(values), pattern
    named = {}
    for part, value in zip(parts, values):
        forms = (re.sub(r"\b([a-z]\w*)\b", r"(?P<\1>.*)", re.sub(r"\b_(?!\w)", ".*", re.escape(form))) for form in part.split(" | "))
        found = next(filter(None, (re.fullmatch(form, value) for form in forms)), None)
        if not found:
            return None
        named |= found.groupdict()
    return named


def put(code, named):
    """Code with the values in the place of their names."""
    return re.sub(r"(?<![\w.:\"])([a-z]\w*)\b(?![(:\"])", lambda found: named.get(found[1], found[1]), code)


def given(function, *values, source=TABLES):
    """What a function that matches its arguments, or looks at one, gives for these."""
    names, code = body(function, source)
    named = dict(zip(names, values, strict=True))
    one = re.fullmatch(r"\s*matches!\(\((.*?)\)\((.*)\)\)", re.sub(r"\), ?\(", ")(", flat(code)))
    if one:
        return str(fits(f"({one[2]})", [named[name] for name in one[1].split(", ")]) is not None).lower()
    one = re.fullmatch(r"\s*if (\w+)\{(.*)\}else\{(.*)\}", flat(code).replace(" else", "else"))
    if one:
        return worth(put(one[2] if named[one[1]] == "true" else one[3], named), source)
    subject = re.search(r"match (.*?) \{\n", code)[1]
    subjects = subject[1:-1].split(", ") if subject.startswith("(") else [subject]
    values = [worth(put(each, named), source) for each in subjects]
    for pattern, result in arms(code):
        found = fits(pattern, values)
        if found is not None:
            return worth(put(result, named | found), source)
    raise KeyError(function, values)


def worth(code, source=TABLES):
    """Code with the functions replaced by what they give; the bounds of a field are a number within them."""
    code = re.sub(r"within\(FieldName::(\w+)\.bounds\(Format::(\w+)\)\)", lambda found: "Scalar::Number{{low: {}, high: {}}}".format(*limits(*found.groups())), code)
    called = re.search(r"\b(\w+_(?:for|of|by))\(((?:[^()]|\([^()]*\))*)\)", code)
    if not called or called[1] == "tables":
        return code
    arguments = [worth(each, source) for each in called[2].split(", ")]
    return worth(code[: called.start()] + given(called[1], *arguments, source=source) + code[called.end() :], source)


# What a rule may name for a field: a number within its bounds, which may end later in format 3, or what the words of a field say.
KEYS = {pattern: name.strip('"') for pattern, name in arms(body("key", FIELDS)[1])}
NAMED = {"Services": "a service", "ObjectTypes": "a type", "Properties": "a property"}
NAMES = {pattern: name.strip('"') for pattern, name in arms(body("name", OPERATION)[1])}
OPERATIONS = {f"Operation::{name}": int(number) for name, number in re.findall(r"^    (\w+) = (\d+),$", OPERATION, re.M)}
assert list(NAMES) == list(OPERATIONS)


def limits(field, format):
    """The least and the greatest number of a field in a format."""
    bounds = re.search(r"match self \{\n.*?\n        \}", body("bounds", FIELDS)[1], re.S)[0]
    found = next(result for pattern, result in arms("        " + bounds) if fits(pattern, [f"FieldName::{field}"]) is not None)
    low, high = found[1:-1].split(", ")
    called = re.fullmatch(r"(\w+)\(format\)", high)
    high = given(called[1], f"Format::{format}", source=FIELDS) if called else re.sub(r" as u64$", "", high)
    high = re.sub(r"^(Operation::\w+)\.number\(\)$", lambda found: str(OPERATIONS[found[1]]), high)
    return [str(int(number(end), 0)) for end in (low, high)]


def nameable(naming):
    """The operations that can be named there, and what can be named in the place of one."""
    cases = next((fits(pattern, [naming]), result) for pattern, result in arms(body("is_nameable", VALUES)[1]) if fits(pattern, [naming]) is not None)
    result = put(cases[1], cases[0])
    within = re.fullmatch(r"FieldName::Operation\.bounds\(Format::(\w+)\)\.holds\(operation\.number\(\)\)", result)
    these = re.fullmatch(r"matches!\(operation, (.*)\)", result)
    if within:
        low, high = map(int, limits("Operation", within[1]))
        found = [each for each, number in OPERATIONS.items() if low <= number <= high]
    elif these:
        found = these[1].split(" | ")
    else:
        assert result == "true", result
        found = list(OPERATIONS)
    other = re.fullmatch(r"(\w+)\(text\)|None", given("any_of", naming, "text", source=VALUES))[1]
    return [literal(name) for name in [NAMES[each] for each in found] + (texts_of(other) if other else [])]


def texts_of(function):
    """The texts with which a function compares its own."""
    return re.findall(r'text == "([\w-]+)"', body(function, VALUES)[1])


def literal(text):
    return text.replace("-", r"\-")


def number(text):
    return LIMITS.get(text, text).replace("_", "")


# What a text or a boolean that may be missing is then; what is only asked for being true is false.
DEFAULTS = {}
ASKED = [("false", key) for key in re.findall(r'is_true_at\("(\w+)", table\)', TABLES)]
for default, key in re.findall(r'(?:optional_text|optional_boolean|flag_at)\((?:alloc, |format, )?("\w*"|!?\w+), "(\w+)", \w+\)', READING) + ASKED:
    assert DEFAULTS.setdefault(key, default) == default, key
# The default that another key decides, in words.
DECIDED = {"!is_allowed": "true where the verdict is denied, and false where it is allowed"}
TYPES = re.findall(r"(\d+) ([A-Z][\w -]+?)(?:,|\")", re.search(r"const TYPES: &str =(.*?);", open("crates/gw_policy_text/src/faults/reason.rt").read(), re.S)[1])
# The types in the order of their tables.
OBJECTS = dict(zip(("binary", "multi_state", "character_string", "integer", "positive_integer"), TYPES, strict=True))


def plain(shape):
    """A shape without spaces, with the names of constants replaced by what they are."""
    for _ in range(3):
        shape = re.sub(r"\b([A-Z]+(?:_[A-Z]+)*)\b", lambda found: SHAPES.get(found[1], LIMITS.get(found[1], found[1])), shape)
    return re.sub(r"(\d) as u64|(?<=\d)_(?=\d)", r"\1", flat(shape))


def bounds(low, high):
    return low if low == high else f"{low} to {high}"


def any_of(choices):
    """One or another of these."""
    comma = "," if any(", " in choice for choice in choices) and len(choices) > 1 else ""
    return " or ".join(filter(None, [", ".join(choices[:-1]) + (comma if len(choices) > 1 else ""), choices[-1]]))


def name_of(most):
    return literal(f"a text of 1 to {LIMITS[most]} of a to z, 0 to 9 and -, and not default")


def choices(of, counted=""):
    """What a single value may be, one after another; `counted` is what is counted where a number has no bound."""
    number = re.fullmatch(r"Scalar::Number\{low: (\d+), high(?:: (\d+))?\}", of)
    if number:
        return [bounds(number[1], number[2] or f"the number of {counted}")]
    text = re.fullmatch(r"Scalar::Text\{least: (\d+)\}", of)
    if text:
        return ["a text of " + bounds(text[1], LIMITS["MAX_TEXT"]) + " octets"]
    operation = re.fullmatch(r"Scalar::Operation\((.*)\)", of)
    if operation:
        return nameable(operation[1])
    named = re.fullmatch(r"Scalar::Named\((Names::(\w+))\)", of)
    if named:
        field = given("field_of", named[1], source=ITEMS).split("::")[1]
        return [bounds(*limits(field, "Three")), f"the name of {NAMED[named[2]]}"]
    address = "an address and its UDP port, as 10.0.1.255:47808"
    stations = [address, "an address, as 10.0.1.255", "a subnet, as 10.0.1.0/24"]
    return {
        "Scalar::Signed": [r"\-2147483648 to 2147483647"],
        "Scalar::ObjectType": [", ".join(f"{number} ({name})" for number, name in TYPES)],
        "Scalar::RuleName": [name_of("MAX_NAME")],
        "Scalar::ShortName": [name_of("MAX_SHORT_NAME")],
        "Scalar::Boolean": ["true", "false"],
        "Scalar::True": ["true"],
        "Scalar::False": ["false"],
        "Scalar::Verdict": texts_of("verdict_named"),
        "Scalar::Address": [address],
        "Scalar::Stations": stations,
        "Scalar::AnyStations": stations + ["mac: and 1 to 5 or 7 pairs of hexadecimal digits, as mac:07"],
        "Scalar::Manager": ["an address and its UDP port, as 10.0.1.3:47808, other than the port's own and its broadcast address, at a port without peers"],
        "Scalar::Mask": ["a mask, as 255.255.255.0"],
        "Scalar::Subnet": ["a subnet, as 10.0.1.0/24"],
        "Scalar::Item": ["a text", "a whole number", "a list of two"],
        "Scalar::Table": ["a table"],
    }[of]


def changed(old, new):
    """How what a value may be differs from what it else may be."""
    if new[: len(old)] == old:
        return "also " + any_of(new[len(old) :])
    if set(new) < set(old):
        return "only " + any_of(new)
    last = r"(?<= to )\d+"
    if [re.sub(last, "", each) for each in old] == [re.sub(last, "", each) for each in new]:
        return "up to " + re.search(last, new[0])[0]
    return any_of(new)


def scalar_in(shape):
    found = re.fullmatch(r"Shape::(One|Ranges|Items)\((.*)\)", shape)
    return found and found[2]


def words(shape, counted):
    listed = re.fullmatch(r"Shape::List\{of: (.*), least: (\d+), most: (\d+)\}", shape)
    if listed:
        return "a list of " + bounds(listed[2], listed[3]) + ", each " + any_of(choices(listed[1], counted))
    tables = re.fullmatch(r"tables\((\d+), (\d+)\)", shape)
    if tables:
        # More tables than a text has room for are as many as it has.
        return "tables" if int(tables[2]) > 65536 else bounds(*tables.groups()) + " tables"
    return ("" if shape.startswith("Shape::One(") else "items, each ") + any_of(choices(scalar_in(shape), counted))


def default(key, shape):
    if re.match(r"Shape::(Ranges|Items)\(", shape):
        return "any"
    if re.fullmatch(r"Shape::One\(Scalar::(Boolean|True|False|Text.*)\)", shape):
        return DECIDED.get(DEFAULTS[key], DEFAULTS[key].strip('"') or "empty")
    return "none"


def fields_of(function, *values):
    """The keys of the fields of a function in their order, each with whether it is required and its shape."""
    names, code = body(function, TABLES)
    named = dict(zip(names, values))
    listed = re.search(r"^    \[\n(.*?\n)    \]", code, re.S | re.M)[1]
    each = re.split(r",\n(?=        \w)", listed.strip().rstrip(","))
    return [field(worth(put(flat(code).strip(), named))) for code in each]


def field(code):
    """A field from the code that makes it: its key, whether it is required, and its shape."""
    items = re.fullmatch(r"ranges\((.*), (FieldName::\w+)\)", code)
    if items:
        made = body("ranges", TABLES)[1]
        assert "let of = scalar_for(naming, field);" in made and "Field::new(field.key(), is_due(naming, field), shape)" in made
        shape = next(result for pattern, result in arms(made) if fits(pattern, [given("format_by", items[1])]) is not None)
        return KEYS[items[2]], given("is_due", *items.groups()) == "true", plain(put(shape, {"of": given("scalar_for", *items.groups())}))
    need, key, shape = re.fullmatch(r'Field::(needs|may)\("?(\w+)"?, (.*)\)', code).groups()
    return TEXTS.get(key, key), need == "needs", plain(shape)


def said(field, counted=""):
    """The words of a field, by which it can be left out or not."""
    key, required, shape = field
    return words(shape, counted) + ("" if required else f"; else {default(key, shape)}")


def fields(table):
    """The keys of a table in their order, those of format 3 too, each with its words."""
    counted = {"route": "ports", "multi_state": "states"}.get(table, "")
    common = fields_of(f"{table}_fields")
    longer = re.search(rf"fn (long_{table}_fields)\(", TABLES)
    keys = fields_of(longer[1]) if longer else common
    assert keys[: len(common)] == common, table
    return [(field[0], said(field, counted) + ("" if field in common else ". Format 3 alone")) for field in keys]


def rule_fields():
    """The keys of a rule: in format 3 more of them, which hang on what the rule says of itself."""
    count = int(re.search(r"const COMMON_RULE_FIELDS: usize = (\d+);", TABLES)[1])
    short, same, long, both, allowing = (
        fields_of("rule_fields", *values) for values in ((ONE, "false"), (TWO, "false"), (THREE, "false"), (BOTH, "false"), (THREE, "true"))
    )
    keys = []
    for place, (key, required, shape) in enumerate(long):
        first, second = (short[place], same[place]) if place < count else (long[place], long[place])
        old, new = choices(scalar_in(first[2])), choices(scalar_in(shape))
        # Formats 1 and 2 have the same words, and what the section says of items first holds of them.
        assert first[:2] == second[:2] == (key, required) and words(first[2], "") == words(second[2], ""), key
        assert shape.startswith("Shape::One(") or shape.startswith("Shape::Items(") and (place >= count or first[2].startswith("Shape::Ranges(")), key
        text = words(first[2], "")
        if new != old:
            text += "; in format 3 " + changed(old, new)
        for other, where in ((both, "both_ways"), (allowing, "allow")):
            name, due, own = other[place]
            assert name == key
            these = choices(scalar_in(own))
            narrower = [changed(new, these) + f" where {where} is true"] if these != new else []
            if due != required:
                narrower += ["and then required"] if narrower else [f"required where {where} is true"]
            text += f" ({', '.join(narrower)})" if narrower else ""
        keys += [(key, text + ("" if required else f"; else {default(key, shape)}") + ("" if place < count else ". Format 3 alone"))]
    return keys


def entries(title, keys):
    lines = [f".SS {title}"]
    for key, said in keys:
        lines += [".TP", f".B {key}", said[0].upper() + said[1:] + "."]
    return lines


def section():
    lines = [
        SECTION,
        "The configuration is a text in TOML with these tables.",
        r"A key with \(lqelse\(rq after what it may be can be left out;",
        "all others are required, and an unknown key is a fault.",
        f"Items are a list of 1 to {LIMITS['MAX_RANGES']}, each one value or a list of two, low and high,",
        "of operations one name;",
        f"in format 3 a list of 1 to {LIMITS['MAX_ITEMS']}, each also @ and the name of a set.",
    ]
    lines += entries("The text", fields("top"))
    for table, title in (("device", "[device]"), ("port", "[[port]]"), ("peer", "[[port.peer]]"), ("route", "[[route]]")):
        lines += entries(title, fields(table))
    objects = {kind: fields(kind) for kind in OBJECTS}
    shared = [field for field in objects["binary"] if all(field in keys for keys in objects.values())]
    lines += entries("[[object]]", shared)
    for kind, (number, name) in OBJECTS.items():
        lines += entries(f"[[object]] of type {number}, {name}", [field for field in objects[kind] if field not in shared])
    lines += entries("[[set]], in format 3 alone", fields("set")) + entries("[[rule]]", rule_fields())
    return lines + entries("[[assert]], in format 3 alone", fields("assertion"))


wanted = section()
if sys.argv[2] == "--print":
    print("\n".join(wanted))
    sys.exit()
page = open(PAGE).read().split("\n")
start = page.index(SECTION) if SECTION in page else len(page)
end = next((line for line in range(start + 1, len(page)) if page[line].startswith(".SH ")), len(page))
differing = list(difflib.unified_diff(page[start:end], wanted, PAGE, "the tables", lineterm=""))
print("\n".join(differing) if differing else f"{PAGE}: the keys are those of the tables")
sys.exit(bool(differing))
END
