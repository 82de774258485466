#!/usr/bin/env bash
# Makes the tables of docs/PICS.md from the sources, and writes them between its two comments; with --check it only compares.
# It wants python3 and no built program. The last line says whether they agree.
#
# From the sources: services, messages of the network layer, functions of BACnet/IP, objects and their properties, answers to faults,
# limits. By hand on the page, since no table of the sources says it: profiles, BIBBs, segmentation, character sets, the values of
# properties, what is left out; and here the occasions of Reject and Abort.
set -euo pipefail
exec python3 - "$(cd "$(dirname "$0")/.." && pwd)" "${1:-}" <<'END'
import difflib, os, re, sys

os.chdir(sys.argv[1])
PAGE, BEGIN, END = "docs/PICS.md", "<!-- begin: examples/pics.sh -->\n", "<!-- end: examples/pics.sh -->\n"
LIMITS = """
Ports: gw_addr lib MAX_PORTS
Entries of a port's broadcast distribution table, its own included: gw_tables bdt_fdt/bdt MAX_ENTRIES
Registered foreign devices of a port: gw_tables bdt_fdt/fdt MAX_REGISTRATIONS
Seconds of grace of a registration: gw_tables bdt_fdt/fdt GRACE
Networks with a route, configured and learned: gw_tables routes/routes MAX_ROUTES
Subnets of a port's stations: gw_configuration stations MAX_STATIONS
Value objects: gw_configuration parts MAX_OBJECTS
States of a Multi-state Value: gw_configuration object MAX_STATES
Highest instance of an object: gw_configuration instance MAX_INSTANCE
Octets of a text: gw_configuration text MAX_TEXT
Properties that a ReadPropertyMultiple names: gw_codecs services/multi MAX_REFERENCES
Octets of an APDU: gw_objects table MAX_APDU
Octets of an NPDU: gw_frames npdu/writing MAX_LEN
Octets of a datagram: gw_frames bvll/writing MAX_LEN
Rules: gw_rules rule_list MAX_RULES
Ranges of a rule's field: gw_rules rule MAX_LONG_RANGES
Ranges of a field, in all rules: gw_rules rule_list MAX_RANGES_IN_ALL
Octets of a configuration: gw_policy_text read MAX_OCTETS
"""

def source(crate, *files):
    return "".join(open(f"crates/{crate}/src/{file}.rt").read() for file in files)

def body(text, name):
    return re.search(rf"\bfn {name}\b.*?\n(    )?\}}\n", text, re.S)[0]

def table(title, head, rows):
    return "\n".join([f"### {title}\n", *(f"| {' | '.join(row)} |" for row in [head, ["---"] * len(head), *rows])]) + "\n"

def names(of):
    rows = re.search(rf"const {of}: .*?\n\];", source("gw_codecs", "names/tables"), re.S)[0]
    return {int(number): name for number, name in re.findall(r'\((\d+), "(.*?)"\)', rows)}

def services():
    dispatch, device, rows, bits = source("gw_device", "dispatch"), source("gw_device", "who_is", "who_has"), [], set()
    for name, choice in re.findall(r"pub const (\w+): u8 = (\d+);", source("gw_codecs", "services/choice")):
        confirmed, unconfirmed = (f"{name} =>" in body(dispatch, kind) for kind in ("confirmed", "unconfirmed"))
        sent = f"encode_{name.lower()}(" in device
        rows.append([SERVICES[int(choice) + (0 if confirmed else 256)], choice, "yes" * sent, "yes" * (confirmed or unconfirmed)])
        bits |= {int(choice)} if confirmed else {int(choice) + 26} if unconfirmed else set()
    octets = re.findall(r"0x(\w\w)", re.search(r"const SERVICES: .*", source("gw_objects", "writing"))[0])
    shown = "".join(f"{int(octet, 16):08b}" for octet in octets)
    if bits != {place for place, bit in enumerate(shown) if bit == "1"}:
        sys.exit("Protocol_Services_Supported has other services than crates/gw_device/src/dispatch.rt executes")
    return table("Services", ["Service", "Choice", "Initiates", "Executes"], rows)

def exchanged(title, first, base, pairs, sent, heard):
    rows = [[SERVICES[base + int(octet, 16)], octet, "yes" * (name in sent), "yes" * (name in heard)] for name, octet in pairs]
    return table(title, [first, "Octet", "Initiates", "Executes"], rows)

def messages():
    pairs = re.findall(r"MessageKind::(\w+) => 0x(\w\w)", source("gw_frames", "npdu/kind"))
    sent = re.findall(r"(?:message_of\(|add_message\(|let kind = )MessageKind::(\w+)", source("gw_relay", "manage", "route"))
    heard = re.findall(r"is_kind\(&npdu.payload, MessageKind::(\w+)", source("gw_relay", "manage"))
    return exchanged("Messages of the network layer", "Message", 512, pairs, sent, heard)

def functions():
    pairs, receive = re.findall(r"Function::(\w+) => 0x(\w\w)", source("gw_frames", "bvll/function")), source("gw_core", "receive")
    sent = re.findall(r"(?:Function::|&Bvll::|let message = Bvll::)(\w+)", source("gw_relay", "octets", "outgoing", "cast"))
    heard = re.findall(r"Bvll::(\w+)", body(receive, "manages") + body(receive, "payload_of"))
    return exchanged("Functions of BACnet/IP", "Function", 768, pairs, sent, heard)

def objects():
    text, types, properties = source("gw_objects", "property"), names("OBJECT_TYPES"), names("PROPERTIES")
    numbers = {name: int(value) for name, value in re.findall(r"^    (\w+) = (\d+),", text, re.M)}
    writable = re.findall(r"Property::(\w+)", body(source("gw_objects", "write"), "is_writable"))
    lists = re.findall(r"const (\w+): \[Property; \d+\] = \[(.*?)\];", text, re.S)
    lists = {name: re.findall(r"Property::(\w+),", listed) for name, listed in lists}
    kinds = re.findall(r"ObjectType::(\w+) => part\(&(\w+), (\d+), set\)", text)
    kinds = [(kind, lists[name], int(required)) for kind, name, required in kinds]

    def access(name, listed, required):
        return "" if name not in listed else ("R" if listed.index(name) < required else "O") + " W" * (name in writable)

    every = sorted({name for _, listed, _ in kinds for name in listed}, key=numbers.get)
    head = ["Property", *(f"{numbers[kind]} {types[numbers[kind]]}" for kind, _, _ in kinds)]
    rows = [[f"{numbers[name]} {properties[numbers[name]]}", *(access(name, *kind[1:]) for kind in kinds)] for name in every]
    return table("Objects and properties", head, rows)

def answers():
    pattern = r"/// ([^\n]*)\.\n(?:pub\(crate\) )?const \w+: ServiceError = ServiceError \{\s*class: (\w+),\s*code: (\d+),"
    rows = [[f"Error {kind} {code}", when] for when, kind, code in re.findall(pattern, source("gw_device", "error"))]
    reasons = re.findall(r"/// (\d+ [\w-]+)\.\n    pub const \w+: (Reject|Abort)Reason", source("gw_codecs", "apdu/reason"))
    why = {"Reject": "A fault of the request's body", "Abort": "A segment of a request, or an answer that is too long"}
    rows += [[f"{kind} {reason}", "Another service" if "service" in reason else why[kind]] for reason, kind in reasons]
    return table("Answers to what can't be done", ["Answer", "If"], rows)

def limits():
    rows = []
    for what, crate, file, name in re.findall(r"(.*): (\w+) ([\w/]+) (\w+)\n", LIMITS):
        value, shift = re.search(rf"\bconst {name}: \w+ = ([\d_]+)(?: << (\d+))?;", source(crate, file)).groups()
        home = "::".join([crate, *file.split("/")[:-1]])
        rows.append([what, f"{int(value) << int(shift or 0):,}", f"`{home}::{name}`"])
    return table("Limits", ["What", "Most", "Constant"], rows)

SERVICES = names("SERVICES")
made = "\n" + "\n".join([services(), messages(), functions(), objects(), answers(), limits()]) + "\n"
before, held, after = re.fullmatch(f"(.*{BEGIN})(.*)({END}.*)", open(PAGE).read(), re.S).groups()
if sys.argv[2] != "--check":
    open(PAGE, "w").write(before + made + after)
elif held != made:
    print("\n".join(difflib.unified_diff(held.split("\n"), made.split("\n"), PAGE, "the sources", lineterm="")))
    sys.exit(f"{PAGE} isn't what the sources say: run examples/pics.sh")
print(f"{PAGE} agrees with the sources")
END
