#!/usr/bin/env bash
# Does what docs/ten-minutes.md says, in a new folder and with the programs of a package, and says how long each command took.
#
#     sudo examples/ten-minutes.sh [PACKAGE.tar.gz]      # what dist/release.sh left in dist/out by default
#     sudo BIN=FOLDER examples/ten-minutes.sh            # with the programs in a folder
#     sudo ROOT=FOLDER examples/ten-minutes.sh           # in this root, with the programs that are installed there (dist/clean.sh does so)
#
# What the page prints below a command must be what the command prints. The commands are those of the page, in their order, in a network
# namespace that has the gateway's addresses; `bacgw run` serves until the next command has ended. It wants root, ip and python3. Nothing
# is on the path but the package's programs and the system's. The last line says how many agreed, and how long all of them took.
set -euo pipefail
here=$(cd "$(dirname "$0")" && pwd)
[ "$(id -u)" = 0 ] || { echo "this wants root: it makes a network namespace" >&2; exit 1; }
work=$(mktemp -d)
space=ten-minutes-$$
clean_up() {
    ip netns del "$space" 2> /dev/null || true
    rm -rf "$work" "${site:-$work}"
}
trap clean_up EXIT

if [ -z "${BIN:-}${ROOT:-}" ]; then
    package=${1:-$(echo "$here"/../dist/out/bacgw-*.tar.gz)}
    [ -f "$package" ] || { echo "no package: $package" >&2; exit 1; }
    mkdir "$work/package"
    tar -C "$work/package" -xzf "$package"
    "$work"/package/*/install.sh --root "$work/root" > /dev/null
    BIN=$work/root/usr/local/bin
fi
ip netns add "$space"
for port in 1 2; do
    ip -n "$space" link add "port$port" type bridge
    ip -n "$space" addr add "10.$port.0.2/24" broadcast + dev "port$port"
    ip -n "$space" link set "port$port" up
done
if [ -n "${ROOT:-}" ]; then
    site=$(mktemp -d "$ROOT/tmp/site-XXXXXX")
    path=$PATH
else
    site=$work/site
    path=$(cd "$BIN" && pwd):/usr/bin:/bin
    mkdir "$site"
fi
cd "$site"
ip netns exec "$space" env -i PATH="$path" HOME="$work" python3 - "$here/../docs/ten-minutes.md" "${ROOT:-}" <<'PYTHON'
import os, re, signal, subprocess, sys, time

agreed = failed = 0
total = 0.0
root = sys.argv[2]
inside = ["chroot", root, "/usr/bin/env", "-i", "-C", "/tmp/" + os.path.basename(os.getcwd()), "PATH=/usr/bin:/bin"] if root else []


def words(command):
    return [*inside, "/bin/sh", "-c", command]


def took(command, seconds):
    global total
    total += seconds
    print(f"{seconds:6.2f} s  {command}")


def run(command, wanted):
    """Runs one command, and compares what it prints with the page, if that has it; else it must go well."""
    global agreed, failed
    start = time.monotonic()
    call = subprocess.run(words(command), capture_output=True, text=True)
    took(command, time.monotonic() - start)
    right = call.stdout == wanted if wanted else call.returncode == 0 and not call.stderr
    agreed, failed = agreed + right, failed + (not right)
    if not right:
        print(f"not as expected: status {call.returncode}\n{call.stdout}{call.stderr}")


def serve(command):
    """Begins a run of the gateway: it has begun when it says so."""
    global agreed
    start = time.monotonic()
    gateway = subprocess.Popen(words(command + " --verbose"), stderr=subprocess.PIPE, text=True, start_new_session=True)
    for line in gateway.stderr:
        if "serving" in line:
            break
    took(command, time.monotonic() - start)
    agreed += 1
    return gateway


def stop(gateway):
    if gateway:
        os.killpg(gateway.pid, signal.SIGTERM)
        gateway.wait()


page = open(sys.argv[1]).read()
gateway = None
for kind, block in re.findall(r"^```(sh|text)\n(.*?)^```$", page, re.M | re.S):
    if kind == "text":
        command, wanted = block.split("\n", 1)
        if not command.startswith("$ "):
            continue
        if "new.toml" in command:
            # The edit that the page describes in words.
            text = open("site.toml").read().replace("priority = [[8, 16]]", "priority = [[5, 16]]", 1)
            open("new.toml", "w").write(text)
        run(command[2:], wanted)
        continue
    for command in block.splitlines():
        if command.startswith("bacgw run"):
            stop(gateway)
            gateway = serve(command)
        else:
            run(command, None)
stop(gateway)
read = len(re.findall(r"\w[\w'-]*", re.sub(r"^```.*?^```$", "", page, flags=re.M | re.S)))
print(f"{agreed} agreed, {failed} did not; {total:.1f} s, and {read} words to read")
sys.exit(1 if failed else 0)
PYTHON
