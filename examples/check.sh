#!/usr/bin/env bash
# Runs the built `bacgw` on each script beside this one, `bacgwctl` on what they give, and both on faulty calls, and compares what they
# print, what they tell on standard error, and their exit status. It wants both programs built, as `./bacgw prove` leaves them, and python3
# for a client. The last line says how many agreed.
set -uo pipefail

here=$(cd "$(dirname "$0")" && pwd)
program=$here/../crates/bacgw/out/bacgw
tool=$here/../crates/bacgwctl/out/bacgwctl
work=$(mktemp -d)
trap 'rm -rf "$work"' EXIT
passed=0
failed=0

for file in "$program" "$tool"; do
    [ -x "$file" ] || { echo "build ${file##*/} first: ./bacgw prove" >&2; exit 1; }
done

# agrees WHAT STATUS OUT ERR: the last run ended so
agrees() {
    if [ "$status" = "$2" ] && cmp -s "$work/out" "$3" && cmp -s "$work/err" "$4"; then
        passed=$((passed + 1))
    else
        failed=$((failed + 1))
        echo "not as expected: $1 (status $status)"
    fi
}

# tells WHAT STATUS LINE: the last run wrote this line on standard error
tells() {
    printf '%s\n' "$3" > "$work/line"
    # `run --verbose` may warn of this machine: its routing is none of this test's business.
    sed -i '/^bacgw: net\.ipv4\.ip_forward /d' "$work/err"
    if [ "$status" = "$2" ] && cmp -s "$work/err" "$work/line"; then
        passed=$((passed + 1))
    else
        failed=$((failed + 1))
        echo "not as expected: $1 (status $status)"
    fi
}

# same WHAT TEXT WANTED: the two are the same
same() {
    if [ "$2" = "$3" ]; then
        passed=$((passed + 1))
    else
        failed=$((failed + 1))
        echo "not as expected: $1"
    fi
}

for script in "$here"/*.script "$here"/format2/*.script "$here"/sites/*.script; do
    name=${script%.script}
    words=(replay)
    [ -e "$name.toml" ] && words+=(--config "$name.toml")
    "$program" "${words[@]}" < "$script" > "$work/out" 2> "$work/err"
    status=$?
    if [ -e "$name.err" ]; then
        agrees "$script" 2 "$name.out" "$name.err"
    else
        agrees "$script" 0 "$name.out" /dev/null
    fi
done

# The capture of the demo site: its event lines are those that are stored, where tshark is there, and play as they did.
"$program" replay --config "$here/site/site.toml" < "$here/capture/site.script" > "$work/out" 2> "$work/err"
status=$?
agrees "$here/capture/site.script" 0 "$here/capture/site.out" /dev/null
if command -v tshark > /dev/null; then
    "$here/capture/events.sh" "$here/site/site.toml" "$here/capture/site.pcap" > "$work/out" 2> /dev/null
    status=$?
    : > "$work/err"
    agrees "$here/capture/site.pcap" 0 "$here/capture/site.script" /dev/null
    # The same configuration in other words, and one without a port.
    sed "s/\"/'/g; s/^\[\[port\]\]/  [[ port ]]/; s/^address/   address/; s/^broadcast = /\tbroadcast=/" "$here/site/site.toml" > "$work/odd.toml"
    "$here/capture/events.sh" "$work/odd.toml" "$here/capture/site.pcap" > "$work/out" 2> /dev/null
    status=$?
    agrees 'a capture under a configuration in other words' 0 "$here/capture/site.script" /dev/null
    echo 'format = 1' > "$work/portless.toml"
    "$here/capture/events.sh" "$work/portless.toml" "$here/capture/site.pcap" > "$work/out" 2> "$work/err"
    status=$?
    echo "$work/portless.toml: no port" > "$work/told"
    agrees 'a capture under a configuration without a port' 1 /dev/null "$work/told"
fi

# refusals NAME: the asks of the refusals of this name, each with its rule; and what the rules say of the lines of their log, of the
# middle words of these, and of a line that is none
refusals() {
    "$program" replay --config "$1.toml" --explain < "$1.script" > "$work/out" 2> "$work/err"
    status=$?
    agrees "a replay that explains: $1" 0 "$1.explained.out" /dev/null
    sed -n 's/^deny //p' "$1.out" > "$work/denials"
    "$tool" why --config "$1.toml" < "$work/denials" > "$work/out" 2> "$work/err"
    status=$?
    agrees "the rules of a log: $1" 0 "$1.why.out" /dev/null
    cut -d' ' -f3-10,12- "$work/denials" | "$tool" why --config "$1.toml" > "$work/out" 2> "$work/err"
    status=$?
    agrees "the rules of the middle words of a log: $1" 0 "$1.why.out" /dev/null
    { head -2 "$work/denials"; echo 'no line of a log'; } | "$tool" why --strict --config "$1.toml" > "$work/out" 2> "$work/err"
    status=$?
    head -2 "$1.why.out" > "$work/line"
    echo 'bacgwctl: line 3' > "$work/told"
    agrees "a line that is no ask: $1" 2 "$work/line" "$work/told"

    # The same log in words, with a line that is none among its lines.
    sed '2a no line of a log' "$work/denials" > "$work/lines"
    "$tool" log < "$work/lines" > "$work/out" 2> "$work/err"
    status=$?
    agrees "a log in words: $1" 0 "$1.log.out" /dev/null
    "$tool" log "$work/lines" < /dev/null > "$work/out" 2> "$work/err"
    status=$?
    agrees "a log of a file in words: $1" 0 "$1.log.out" /dev/null

    # The same with something in front of each line, which stays there.
    sed 's/^/Nov 27 08:00:00 gate bacgw[12]: /' "$work/lines" | "$tool" log > "$work/stamped" 2> "$work/err"
    status=$?
    sed 's/^Nov 27 08:00:00 gate bacgw\[12\]: //' "$work/stamped" > "$work/out"
    agrees "a log in words after a prefix: $1" 0 "$1.log.out" /dev/null

    # And with the moments, for a run that began at eight.
    "$tool" log "$work/lines" --start 2026-11-25T08:00:00+01:00 < /dev/null > "$work/out" 2> "$work/err"
    status=$?
    agrees "a log in words with its moments: $1" 0 "$1.since.out" /dev/null
}
refusals "$here/refusals"
refusals "$here/format2/refusals"

# by PROGRAM: the words below are given to this program, and its refusal is a line
by() {
    called=$1
    echo "${called##*/}: bad command line" > "$work/refusal"
}

# flawed LINE WORDS: a replay that explains says what is wrong with the third line
flawed() {
    printf 'tick\ntick\n%b' "$1" > "$work/flawed.script"
    "$program" replay --explain < "$work/flawed.script" > "$work/out" 2> "$work/err"
    status=$?
    tells "a line that is no event: $2" 2 "bacgw: line 3: $2"
}
flawed 'tick\r\n' 'it ends with a carriage return'
flawed "$(printf '%04100d' 0)" 'it has more than 4096 octets'
flawed '3 192.168.1.5:47808 -\n' 'there is no such port'
flawed '1 192.168.1.5 -\n' 'after its port there is no address and a space'
flawed '1 192.168.1.5:47808 81F' 'its octets have an odd number of digits'
flawed '1 192.168.1.5:47808 8x' 'its octets are no pairs of digits'
flawed 'tack' 'it is neither tick nor a port, an address and octets'

# refused WORDS...: the words are refused, and the line says what is wrong with them
refused() {
    "$called" "$@" < /dev/null > "$work/out" 2> "$work/told"
    status=$?
    [ "$(tail -1 "$work/told")" = "For more information, try '--help'." ] || status="$status, no more than the line"
    head -1 "$work/told" > "$work/err"
    agrees "words: ${called##*/} $*" 2 /dev/null "$work/refusal"
}

# A log as JSON objects, which jq reads back: nothing in it ends a string or a line.
command -v jq > /dev/null || { echo 'this wants jq: apt-get install jq' >&2; exit 1; }
printf '1 0 1 1:C0A80105BAC0 read dst=100 svc=12 obj=5,2 prop=85 prio=- rule=hide\n"} \\ \0 \033[31m\n\377\n' > "$work/hostile"
"$tool" log --json < "$work/hostile" > "$work/piped"
"$tool" log --json "$work/hostile" > "$work/out" 2> "$work/err"
status=$?
same 'a log of a file as objects' "$(cat "$work/out")" "$(cat "$work/piped")"
same 'a hostile log as objects' "$status $(jq -c '[.rule, .line, .octets]' "$work/out" | tr '\n' ' ')" \
    '0 ["hide",null,null] [null,"\"} \\ \u0000 \u001b[31m",null] [null,null,"FF"] '
# What is in front of a line's own fields stays, and a note is a line as it is.
printf '2026-11-27T08:00:00Z # bacgw began\n2026-11-27T08:00:17Z %s\n\377 %s\n' "$(head -1 "$work/hostile")" "$(head -1 "$work/hostile")" > "$work/stamped"
"$tool" log --json < "$work/stamped" > "$work/out" 2> "$work/err"
status=$?
same 'a stamped log as objects' "$status $(jq -c '[.rule, .front, .front_octets, .line]' "$work/out" | tr '\n' ' ')" \
    '0 [null,null,null,"2026-11-27T08:00:00Z # bacgw began"] ["hide","2026-11-27T08:00:17Z ",null,null] ["hide",null,"FF20",null] '
head -c 10000000 /dev/zero > "$work/long"
"$tool" log --json < "$work/long" > "$work/out" 2> "$work/err"
status=$?
tells 'a line of 10 MB' 2 'bacgwctl: line 1'
head -1 "$work/hostile" | "$tool" why --config "$here/routed.toml" --json > "$work/out" 2> "$work/err"
status=$?
same 'an answer as an object' "$status $(jq -c '[.allow, .rule, .source]' "$work/out")" '0 [false,"no-doors","192.168.1.5:47808"]'

# A page of a configuration and a log: nothing of a note, a name or a line ends an element or turns the direction of writing, and
# what is counted is what is there.
sed 's/^name = "door"$/name = "<b>door\\u202E<\/b>"/; s/^name = "hide-door"$/&\nnote = "<script>alert(\x27\&\x27)<\/script>"/' "$here/refusals.toml" \
    > "$work/marked.toml"
{
    sed -n 's/^deny //p' "$here/refusals.out"
    sed -n 's/^deny /2026-11-27T08:15:00Z /p' "$here/refusals.out"
    sed -n 's/^deny \(1 .*\) rule=[^ ]*/Nov 27 08:00:00 site bacgw[9]: \1 rule=<i>\&/p' "$here/refusals.out"
    cat "$work/hostile"
} > "$work/marked.log"
cat "$work/marked.log" "$work/long" > "$work/marked.and.long.log"
"$tool" report --config "$work/marked.toml" --log "$work/marked.and.long.log" > "$work/out" 2> "$work/err"
status=$?
same 'a page of hostile texts' "$status $(python3 "$here/page.py" "$work/out")" "$(cat "$here/page.out")"
"$tool" report --config "$here/sites/tenant.toml" > "$work/out" 2> "$work/err"
status=$?
same 'the rules of a page, and their tables' "$status $(python3 "$here/page.py" "$work/out" | sed -n 's/^td: \(tenant-reads.*\)$/\1/p' | tr '\n' '|')" \
    '0 tenant-reads|tenant-reads-way (table 1, line 55)|tenant-reads-back (table 1, line 55)|'
"$tool" report --config "$work/marked.toml" --log "$work/nowhere" > "$work/out" 2> "$work/err"
status=$?
echo "bacgwctl: cannot read log $work/nowhere: no such file" > "$work/line"
agrees 'a page of a log that is not there' 1 /dev/null "$work/line"

# refused_alone WORDS...: the words are refused by the line alone
refused_alone() {
    "$called" "$@" < /dev/null > "$work/out" 2> "$work/err"
    status=$?
    agrees "words: ${called##*/} $*" 2 /dev/null "$work/refusal"
}
# refused_why LINE WORDS...: the words are refused, and the line below says why
refused_why() {
    "$called" "${@:2}" < /dev/null > "$work/out" 2> "$work/err"
    status=$?
    echo "$1" | cat "$work/refusal" - > "$work/refusal.why"
    agrees "words: ${called##*/} ${*:2}" 2 /dev/null "$work/refusal.why"
}
# none WORDS..: the last of the words is out of range, and the line says so
none() {
    refused "$@"
    same "a number out of range: $*" "$(sed -n 2p "$work/told")" \
        "error: invalid value '${*: -1}' for '${*: -2:1} <$value>': ${*: -1} is not in 1..=$most"
}
# elsewhere COMMAND WORDS...: bacgw refuses the words, and says that this is a command of bacgwctl
elsewhere() {
    refused "${@:2}"
    same "where the command is: $1" "$(sed -n 2p "$work/told")" "$1 is a command of bacgwctl now"
}
by "$program"
refused
same 'the usage behind no words' "$(grep Usage "$work/told")" 'Usage: bacgw <COMMAND>'
refused run
same 'the usage behind a command that lacks its file' "$(grep Usage "$work/told")" 'Usage: bacgw run --config <FILE>'
refused replay replay
refused replay run
refused check
refused check site.toml
refused check --config
refused check --config a --config a
refused check --lint
value=N most=9223372036854775807
none run --config a --turns 0
none run --config a --turns 9223372036854775808
value=SECONDS most=4294967295
none run --config a --stats 0
none run --config a --stats 4294967296
refused_why '--trial and --trial-log go together' run --config a --trial b
refused_why '--trial and --trial-log go together' run --config a --trial-log c
refused_why '--stamp needs --log' run --config a --stamp
refused run --config a --audit
refused run --config a --explain
refused replay --config
refused replay --config a --config a
refused --config file replay
refused replay -v
refused replay ''
refused rnu
refused help --help
refused check --version
refused -- replay
refused_alone $'\xff'

# What bacgw had and bacgwctl has now.
elsewhere compare compare --config site.toml --with new.toml
same 'the usage behind a command of bacgwctl' "$(grep Usage "$work/told")" 'Usage: bacgw <COMMAND>'
for command in why report log state suggest reload objects; do
    elsewhere "$command" "$command"
done
elsewhere explain check --config site.toml --explain
elsewhere lint check --config site.toml --lint
elsewhere migrate check --migrate --config site.toml
elsewhere 'check --json' check --config site.toml --json
# And what it never had, which bacgwctl has.
refused explain --config site.toml

by "$tool"
refused
same 'the usage of bacgwctl behind no words' "$(grep Usage "$work/told")" 'Usage: bacgwctl <COMMAND>'
refused check
refused check --config a --explain
refused explain
refused lint --config a --json
refused migrate --config a --lint
refused run --config a
refused replay
refused why
refused why --config a --explain
refused log site.log other.log
refused log --start
moment='--start takes a moment, as 2026-11-25T08:00:00+01:00'
refused_why "$moment" log --start 2026-11-25T08:00:00
refused_why "$moment" log --start 2026-11-25T08:00:60Z
refused_why "$moment" log --start now
value=N most=9223372036854775807
none compare --config a --with b --most 0
none reload --config a --reload b --was c --most 0
refused stop
refused stop --config a --reload b
refused status
refused rules
refused report --log a
refused help --help
refused why --version
refused_alone $'\xff'

# helped WORDS...: the words are answered by a help
helped() {
    "$called" "$@" < /dev/null > "$work/out" 2> "$work/err"
    status=$?
    grep -q "^Usage: ${called##*/} " "$work/out" || status=none
    agrees "words: ${called##*/} $*" 0 "$work/out" /dev/null
}
for called in "$program" "$tool"; do
    "$called" --version < /dev/null > "$work/out" 2> "$work/err"
    status=$?
    sed -n "s/^pub const VERSION: &str = \"\(.*\)\";/${called##*/} \1/p" "$here/../crates/gw_command_line/src/options/builders.rt" > "$work/line"
    agrees "the version of ${called##*/}" 0 "$work/line" /dev/null
    helped --help
    helped -h
    helped help
    helped help check
done
by "$program"
helped replay --help
helped run --help
by "$tool"
helped explain --help
helped lint --help
helped migrate --help
helped why --help
helped log --help
helped compare --help
helped state --help
helped suggest --help
helped reload --help
helped stop --help
helped status --help
helped rules --help
helped report --help
helped objects --help

checked() {
    "$program" check --config "$1" < /dev/null > "$work/out" 2> "$work/err"
    status=$?
}

# accepts FILE LINE [WARNING]: `check` of both programs says this of a file, and that of `bacgwctl` this below it
accepts() {
    checked "$here/$1"
    printf '%s\n' "$2" > "$work/line"
    agrees "$1" 0 "$work/line" /dev/null
    [ -z "${3:-}" ] || printf '%s\n' "$3" >> "$work/line"
    "$tool" check --config "$here/$1" < /dev/null > "$work/out" 2> "$work/err"
    status=$?
    agrees "bacgwctl check: $1" 0 "$work/line" /dev/null
}
accepts two_subnets.toml 'ok 2 ports 1 objects 4 rules 5 asserts'
accepts workstation.toml 'ok 1 ports 1 objects 7 rules 7 asserts'
accepts neighbours.toml 'ok 2 ports 0 objects 3 rules 2 asserts'
accepts plant_room.toml 'ok 1 ports 4 objects 3 rules 4 asserts'
accepts routed.toml 'ok 2 ports 0 objects 9 rules 9 asserts'
accepts recipes.toml 'ok 2 ports 2 objects 0 rules' 'warning: there is no rule, so every ask is denied'
accepts format2/two_subnets.toml 'ok 2 ports 1 objects 6 rules'
accepts format2/workstation.toml 'ok 1 ports 1 objects 7 rules'
accepts format2/plant_room.toml 'ok 1 ports 4 objects 3 rules'
accepts format2/routed.toml 'ok 2 ports 0 objects 11 rules'

# faulty TEXT NAME: `check` tells this fault of a text, and `replay` tells it before the script
faulty() {
    printf '%b' "$1" > "$work/faulty.toml"
    checked "$work/faulty.toml"
    tells "a configuration: $2" 2 "bacgw: configuration: $2"
    "$program" replay --config "$work/faulty.toml" < "$here/bad_line.script" > "$work/out" 2> "$work/err"
    status=$?
    tells "a replay under a configuration: $2" 2 "$work/faulty.toml: $("$program" check --config "$work/faulty.toml" 2> /dev/null)
bacgw: configuration: $2"
}
faulty '' Missing
faulty 'format = ' NotToml
faulty '\xff' NotToml
faulty 'colour = 1' UnknownKey
faulty 'format = 1\nport = []\n[device]\n' Range

# ran STATUS LINE WORDS..: `run` tells this line and ends with this status
ran() {
    "$program" run "${@:3}" < /dev/null > "$work/out" 2> "$work/err"
    status=$?
    tells "a run: ${*:3}" "$1" "$2"
}
printf 'format = ' > "$work/faulty.toml"
sed 's/10\.1\.0/203.0.113/; s/10\.2\.0/198.51.100/' "$here/two_subnets.toml" > "$work/elsewhere.toml"
ran 1 "bacgw: cannot read configuration $work/nowhere.toml: no such file" --config "$work/nowhere.toml" --log "$work/nowhere/log"
ran 2 "$work/faulty.toml: the text: is no TOML document, line 1, column 10: invalid value, expected a string, number, boolean, date-time, array or inline table
bacgw: configuration: NotToml" --config "$work/faulty.toml" --log "$work/nowhere/log"
ran 1 'bacgw: socket failed on port 1' --config "$work/elsewhere.toml" --log "$work/log"
ran 1 'port 1: own 203.0.113.2:47808: no address of this machine
bacgw: socket failed on port 1' --config "$work/elsewhere.toml" --log "$work/log" --verbose
sed 's/10\.1\.0/127.1.0/; s/10\.2\.0/127.2.0/' "$here/two_subnets.toml" > "$work/loopback.toml"
ran 1 "bacgw: log failed: $work/nowhere/log" --config "$work/loopback.toml" --log "$work/nowhere/log"
ran 1 'bacgw: socket failed on port 1' --config "$work/elsewhere.toml" --log "$work/nowhere/log"
echo 'a line of before' > "$work/log"
ran 0 "bacgw: serving port 1 at 127.1.0.2:47808, broadcast 127.1.0.255:47808; port 2 at 127.2.0.2:47808, broadcast \
127.2.0.255:47808; device 1234 on network 100 with 1 objects; 4 rules; log to $work/log" --config "$work/loopback.toml" --log "$work/log" \
    --turns 2 --verbose

same 'what stood in the log before a run' "$(cat "$work/log"; echo .)" 'a line of before
.'

# A log that is made is its owner's alone, and a symbolic link is not followed.
"$program" run --config "$work/loopback.toml" --log "$work/made.log" --turns 1 < /dev/null 2> /dev/null
same 'the status of a run that makes its log' "$?" 0
"$program" run --config "$work/loopback.toml" --log "$work/stamped.log" --stamp --turns 1 < /dev/null 2> /dev/null
same 'a log with stamps begins and ends with a note' "$(sed -E 's/^[0-9]{4}(-[0-9]{2}){2}T[0-9]{2}(:[0-9]{2}){2}Z /TIME /' "$work/stamped.log")" \
    "TIME # $("$program" --version | cut -d, -f1) began
TIME # $("$program" --version | cut -d, -f1) ended"
same 'who may read a log that was made' "$(stat -c %a "$work/made.log")" 600
ln -s "$work/made.log" "$work/link.log"
ran 1 "bacgw: log failed: $work/link.log" --config "$work/loopback.toml" --log "$work/link.log" --turns 1

# What is recorded beside the log is a regular file, since a reader that stalls would hold up all; a log that waits for one says so.
mkfifo "$work/pipe"
ran 1 "bacgw: audit failed: $work/pipe" --config "$work/loopback.toml" --audit "$work/pipe" --turns 1
ran 1 "bacgw: trial: log failed: $work/pipe" --config "$work/loopback.toml" --trial "$work/loopback.toml" --trial-log "$work/pipe" --turns 1
timeout 2 "$program" run --config "$work/loopback.toml" --log "$work/pipe" --turns 1 < /dev/null > "$work/out" 2> "$work/err"
same 'a log that waits for its reader' "$(cat "$work/err")" 'bacgw: the log waits for its reader'

# If standard error is closed, what is written there doesn't land in the log.
"$program" run --config "$work/loopback.toml" --log "$work/log" --turns 1 --verbose < /dev/null 2>&-
same 'the status where standard error is closed' "$?" 0
"$program" run --config "$work/loopback.toml" --log "$work/log" --turns 1 --verbose <&- >&- 2>&-
same 'the status where all standard streams are closed' "$?" 0
"$program" run --config "$work/elsewhere.toml" --log "$work/log" --verbose < /dev/null 2>&-
same 'the status of a fault where standard error is closed' "$?" 1
same 'the log where standard error is closed' "$(cat "$work/log"; echo .)" 'a line of before
.'

# Two ports on the loopback device, with a fan and a door, which nobody may read.
hiding() {
    sed "$1" "$here/base.toml"
    printf '[[rule]]\nname = "hide"\nallow = false\noperation = ["read"]\nobject_type = [5]\ninstance = [2]\n'
    printf '[[rule]]\nname = "all"\nallow = true\n'
}
hiding 's/192\.168\.1\./127.3.0./; s/192\.168\.2\./127.4.0./' > "$work/served.toml"
printf 'a line that was cut' > "$work/log"
python3 "$here/loopback.py" serve "$program" "$work/served.toml" "$work/log" > "$work/out" 2> "$work/err"
status=$?
tells 'a client is served' 0 "bacgw: serving port 1 at 127.3.0.10:47808, broadcast 127.3.0.255:47808; port 2 at 127.4.0.10:47808, \
broadcast 127.4.0.255:47808; device 1234 on network 100 with 2 objects; 2 rules; log to $work/log"
same 'the fan is read by each socket, the door is denied, a pause takes no processor, and SIGTERM ends it' "$(cat "$work/out")" \
    '127.3.0.10 810A001801080064010130070C0C0140000119553E91013F
127.3.0.10 810A001101080064010150080C9102911B
idle without a datagram
127.4.0.10 810A001801080064010130090C0C0140000119553E91013F
127.4.0.10 810A0018010800640101300A0C0C0140000119553E91013F
127.3.0.10 810A0018010800640101300B0C0C0140000119553E91013F
127.3.0.10 810A0011010800640101500C0C9102911B
status -15'
# The second denial comes six seconds after the first, which comes in the first seconds of the run.
same 'the log has the denials with their ticks behind a line that was cut' \
    "$(sed -E 's/^1 [0-9] /1 . /; s/^2 ([5-9]|1[0-9]) /2 . /' "$work/log")" \
    'a line that was cut
1 . 1 1:7F030005BAC0 read dst=100 svc=12 obj=5,2 prop=85 prio=- rule=hide
2 . 1 1:7F030005BAC0 read dst=100 svc=12 obj=5,2 prop=85 prio=- rule=hide'

# A gateway that is asked to stop keeps its state, answers, and ends well. What is no request stays, and is told of once.
rm -f "$work/stopped.state" "$work/request" "$work/request.answer"
printf 'stop\n' > "$work/request"
timeout 9 "$program" run --config "$work/served.toml" --state "$work/stopped.state" --reload "$work/request" < /dev/null > "$work/out" 2> "$work/err"
same 'a gateway stops' "$? $(cat "$work/request.answer")" '0 stopped'
same 'a request to stop is taken away' "$(ls "$work/request" 2> /dev/null)" ''
same 'the state of a gateway that stopped' "$(sed -n 's/^counts [0-9]* \([0-9]*\) .*/\1/p' "$work/stopped.state")" 1
rm -f "$work/stopped.state" "$work/request.answer"
timeout 20 "$program" run --config "$work/served.toml" --state "$work/stopped.state" --reload "$work/request" < /dev/null > "$work/out" 2> "$work/err" &
server=$!
sleep 1
"$tool" status --reload "$work/request" < /dev/null > "$work/told" 2>&1
same 'bacgwctl status' "$? $(sed -n 's/^\(stats seconds=\).*/\1/p' "$work/told")" '0 stats seconds='
asking=()
for number in 1 2 3; do
    { "$tool" status --reload "$work/request" < /dev/null > "$work/told.$number" 2>&1 || true; } &
    asking+=($!)
done
wait "${asking[@]}"
same 'three requests at once' "$(cut -c-14 "$work"/told.[123] | grep -c '^stats seconds=') $(ls "$work"/request* 2> /dev/null)" '3 '
"$tool" stop --reload "$work/request" < /dev/null > "$work/told" 2>&1
same 'bacgwctl stop' "$? $(cat "$work/told")" '0 stopped'
wait "$server"
same 'the gateway that it stopped' "$? $(ls "$work/request" "$work/request.answer" 2> /dev/null)" '0 '
"$tool" stop --reload "$work/request" < /dev/null > "$work/told" 2>&1
same 'bacgwctl stop where none runs' "$? $(cat "$work/told") $(ls "$work/request" 2> /dev/null)" '1 bacgwctl: no answer '
printf 'halt\n' > "$work/request"
timeout 5 "$program" run --config "$work/served.toml" --reload "$work/request" < /dev/null > "$work/out" 2> "$work/err"
same 'what is no request stays, and is told of once' "$(cat "$work/request" "$work/err")" \
    "halt
bacgw: request isn't taken: it is none, or can't be read or taken away"
rm -f "$work/request"

# A log that is copied and cut while it is served goes on at its front. One that is renamed or removed goes on in a new file.
: > "$work/log"
python3 "$here/loopback.py" rotate "$program" "$work/served.toml" "$work/log" > "$work/out" 2>&1
same 'the copy of a log' "$(sed 's/^1 [0-9]* /1 . /' "$work/log.1")" \
    '1 . 1 1:7F030005BAC0 read dst=100 svc=12 obj=5,2 prop=85 prio=- rule=hide'
same 'a log that was cut to nothing' "$(sed 's/^2 [0-9]* /2 . /' "$work/log.2")" \
    '2 . 1 1:7F030005BAC0 read dst=100 svc=12 obj=5,2 prop=85 prio=- rule=hide'
same 'a log that was renamed, and one that was removed' "$(grep -o '^[0-9]* .*rule=hide' "$work/out" | sed 's/^\([34]\) [0-9]* /\1 . /')" \
    '3 . 1 1:7F030005BAC0 read dst=100 svc=12 obj=5,2 prop=85 prio=- rule=hide
4 . 1 1:7F030005BAC0 read dst=100 svc=12 obj=5,2 prop=85 prio=- rule=hide'
same 'the mode of a new log' "$(stat -c %a "$work/log")" 600

# A log with stamps has a note of a reload, and a new file of it begins with one. Its denials are those of the run all the same.
times='s/^[0-9]{4}(-[0-9]{2}){2}T[0-9]{2}(:[0-9]{2}){2}Z /TIME /; s/^TIME ([12]) [0-9]* /TIME \1 . /; s/(# reload: )[0-9]+ rules \(0 new.*kept$/\1SAME/'
python3 "$here/loopback.py" noted "$program" "$tool" "$work/served.toml" "$work/noted.log" "$work/noted.request" > "$work/out" 2>&1
same 'a log with stamps has a note of a reload' "$(sed -E "$times" "$work/noted.log.1")" \
    "TIME # $("$program" --version | cut -d, -f1) began
TIME 1 . 1 1:7F030005BAC0 read dst=100 svc=12 obj=5,2 prop=85 prio=- rule=hide
TIME # reload: SAME"
same 'a new file of a log with stamps begins with a note' "$(sed -E "$times" "$work/noted.log")" \
    'TIME # log began anew
TIME 2 . 1 1:7F030005BAC0 read dst=100 svc=12 obj=5,2 prop=85 prio=- rule=hide'

# A send of fewer octets than it was given is a failure. The system makes none of a datagram, so a library that is loaded before the
# program does, and the counts tell of it.
if command -v cc > /dev/null; then
    cc -std=c11 -O2 -fPIC -shared -o "$work/short_send.so" "$here/../bench/short_send.c"
    for number in 0 1; do
        SHORT_SEND=$number python3 "$here/loopback.py" short "$program" "$work/served.toml" "$work/short_send.so" > "$work/out" 2>&1
        failing=
        [ "$number" = 0 ] || failing=$'\nport 1: sends fail'
        same "the failed sends where $number are short" "$(cat "$work/out")" \
            "127.3.0.10 810A0018010800640101300D0C0C0140000119553E91013F
send_failures=$number
stats port=1 datagrams=1 dropped=0 sends=$((1 - number)) send_failures=$number$failing"
    done
fi

# A socket that may not broadcast can't send to the one address of the loopback device that is a broadcast address to the system.
sed 's/127\.4\.0\.255/127.255.255.255/' "$work/served.toml" > "$work/broadcast.toml"
python3 "$here/loopback.py" broadcast "$program" "$work/broadcast.toml" > "$work/out" 2>&1
same 'broadcasts are sent' "$(cat "$work/out")" 'sends=2 send_failures=0'

# A fan that is off is read by a real socket, as in the script of a read.
sed '0,/^default = 1$/s//default = 0/' "$work/served.toml" > "$work/first.toml"
python3 "$here/loopback.py" first "$program" "$work/first.toml" 810A0016012400640101FF0005070C0C014000011955 > "$work/out" 2>&1
same 'the first worked read by a real socket' "$(cat "$work/out")" 810A001801080064010130070C0C0140000119553E91003F

python3 "$here/loopback.py" burst "$program" "$work/served.toml" > "$work/out" 2>&1
same 'reads that come at once' "$(cat "$work/out")" '16 answers within a second
16 answers within a second'

# A gateway that is killed once a write is acknowledged has it after the next start, and numbers its denials on.
rm -f "$work/log" "$work/state"
python3 "$here/loopback.py" kept "$program" "$work/served.toml" "$work/log" "$work/state" > "$work/out" 2>&1
same 'acknowledged writes outlive a kill' "$(cat "$work/out")" \
    '127.3.0.10 810A001801080064010130140C0C0140000119553E91013F
127.3.0.10 810A001101080064010150150C9102911B
810A000D01080064010120160F
127.3.0.10 810A001801080064010130170C0C0140000119553E91003F
127.3.0.10 810A001101080064010150180C9102911B
810A000D01080064010120190F
127.3.0.10 810A0018010800640101301A0C0C0140000119553E91013F
127.3.0.10 810A0011010800640101501B0C9102911B
810A000D010800640101201C0F'
same 'the denials are numbered on' "$(cut -d' ' -f1 "$work/log" | xargs)" '1 2 3'
same 'the mode of a state' "$(stat -c %a "$work/state")" 600
"$tool" state --config "$work/served.toml" --state "$work/state" > "$work/out" 2> "$work/err"
status=$?
same 'a state in words' "$status $(sed -E 's/after [0-9]+ ticks?/after some ticks/' "$work/out")" \
    '0 state: after some ticks and at most 1002 denials
port 1, network 1, 127.3.0.10:47808: peers as configured, 0 foreign devices taken over
port 2, network 2, 127.4.0.10:47808: peers as configured, 0 foreign devices taken over
object 5,1 binary-value, priority 8: inactive: taken over'
rm "$work/log"
python3 "$here/loopback.py" kept "$program" "$work/served.toml" "$work/log" "$work/state" > /dev/null 2>&1
same 'the denials go on from the state if the log is lost' "$(cut -d' ' -f1 "$work/log" | xargs)" '1003 1004 1005'
sed 's/^instance = 1$/instance = 9/' "$work/served.toml" > "$work/other.toml"
same 'a state under another configuration' \
    "$("$program" run --config "$work/other.toml" --state "$work/state" --turns 1 2>&1 > /dev/null)" \
    'state: object 5,1 binary-value: not configured: 1 slot dropped'

# A state that can't be read, is none or can't be written ends the start, and the file stays.
printf 'bacgw state 1\ncounts 0 0 0\nport 1 nowhere\nend\n' > "$work/bad"
ran 2 'bacgw: state: line 3: no line that may be here' --config "$work/served.toml" --state "$work/bad" --turns 1
same 'a faulty state stays' "$(sed -n 3p "$work/bad")" 'port 1 nowhere'
mkdir "$work/folder"
ran 1 "bacgw: cannot read state $work/folder: is a directory" --config "$work/served.toml" --state "$work/folder" --turns 1
ran 1 "bacgw: cannot read state /dev/null: it can't be read" --config "$work/served.toml" --state /dev/null --turns 1
# unkept NAME REASON: `state` can't read the file of this name, and the line names it
unkept() {
    "$tool" state --config "$work/served.toml" --state "$work/$1" > "$work/out" 2> "$work/err"
    status=$?
    tells "a state that can't be read: $1" 1 "bacgwctl: cannot read state $work/$1: $2"
}
unkept folder 'is a directory'
unkept unmade 'no such file'
ran 1 "bacgw: state isn't kept: refused by the system: $work/nowhere/state" --config "$work/served.toml" --state "$work/nowhere/state" --turns 1
ln -s "$work/state" "$work/link"
ran 1 "bacgw: state isn't kept: not permitted: $work/link" --config "$work/served.toml" --state "$work/link" --turns 1

# Metrics are written at the first tick; a collector reads them, and their place must be there.
timeout 3 "$program" run --config "$work/served.toml" --metrics "$work/bacgw.prom" --turns 200 < /dev/null > "$work/out" 2> "$work/err"
same 'the ticks of metrics' "$(sed -n 's/^bacgw_ticks_total //p' "$work/bacgw.prom")" 1
same 'the ports of metrics' "$(grep -c '^bacgw_foreign_devices{' "$work/bacgw.prom")" 2
same 'the sends by port of metrics' "$(sed -n 's/^bacgw_port_sends_total//p' "$work/bacgw.prom" | xargs)" '{port=1} 0 {port=2} 0'
same 'the families of metrics' "$(grep -c '^# TYPE ' "$work/bacgw.prom")" 25
same 'the version in metrics' "$(sed -n 's/^bacgw_build_info//p' "$work/bacgw.prom")" '{version="0.1.0"} 1'
same 'the checksum of a configuration' "$(sed -n 's/^bacgw_configuration_info//p' "$work/bacgw.prom")" \
    "{sha256=\"$(sha256sum < "$work/served.toml" | cut -d' ' -f1)\"} 1"
same 'the age of a configuration' "$(sed -n 's/^bacgw_configuration_age_seconds //p' "$work/bacgw.prom")" 1
same 'the mode of metrics' "$(stat -c %a "$work/bacgw.prom")" 644
(umask 077; timeout 3 "$program" run --config "$work/served.toml" --metrics "$work/masked.prom" --turns 3 < /dev/null > "$work/out" 2> "$work/err")
same 'their mode under another mask' "$(stat -c %a "$work/masked.prom")" 644
if command -v promtool > /dev/null; then
    promtool check metrics < "$work/bacgw.prom" > "$work/out" 2>&1
    same 'promtool reads the metrics' "$?" 0
fi
ran 1 "bacgw: metrics failed: refused by the system: $work/nowhere/prom" --config "$work/served.toml" --metrics "$work/nowhere/prom" --turns 1

# A gateway takes over the configuration that it is asked to read, and refuses a faulty one.
cp "$work/served.toml" "$work/changed.toml"
sed '/^name = "hide"$/,$d' "$work/served.toml" | sed '$d' > "$work/new.toml"
printf '[[rule]]\nname = "all"\nallow = true\n' >> "$work/new.toml"
python3 "$here/loopback.py" reload "$program" "$tool" "$work/changed.toml" "$work/new.toml" "$work/request" > "$work/out" 2>&1
same 'a rule is changed while a gateway runs' "$(cat "$work/out")" \
    '1 0 1 1:7F030005BAC0 read dst=100 svc=12 obj=5,2 prop=85 prio=- rule=hide
127.3.0.10 810A0011010800640101501E0C9102911B
reload: 1 rules (0 new, 1 gone, 0 moved), 2 objects; 0 foreign devices, 0 routes kept
status 0
127.3.0.10 810A0018010800640101301F0C0C0140000219553E91003F
'"$work/changed.toml: $("$program" check --config "$work/changed.toml" 2> /dev/null)"'
bacgwctl: configuration: NotToml
status 2
reload refused: configuration: NotToml: '"$("$program" check --config "$work/changed.toml" 2> /dev/null)"'
127.3.0.10 810A001801080064010130200C0C0140000219553E91003F'

# What is no request stays where it is, and a request that names another text is refused.
python3 "$here/loopback.py" requests "$program" "$work/new.toml" "$work/asked" > "$work/out" 2>&1
same 'requests, and what is none' "$(cat "$work/out")" \
    "a text stays
two lines stays
a link stays
a folder stays
reload refused: cannot read configuration: it isn't the text that was checked
reload: 1 rules
reload: 1 rules"

# A policy on trial and an audit have logs of their own, which go on from run to run; the log is what it is without them.
sed 's/^format = 1$/format = 3/; $s/$/\naudit = true/' "$work/served.toml" > "$work/audited.toml"
sed 's/^name = "hide"$/name = "keep"/; s/^instance = \[2\]$/instance = [1]/' "$work/audited.toml" > "$work/trial.toml"
rm -f "$work/log"
python3 "$here/loopback.py" watched "$program" "$work/audited.toml" "$work/trial.toml" "$work/log" > "$work/out" 2>&1
same 'the answers beside a trial and an audit' "$(cat "$work/out")" \
    '127.3.0.10 810A001801080064010130280C0C0140000119553E91013F
127.3.0.10 810A001101080064010150290C9102911B
status -15
127.3.0.10 810A0018010800640101302A0C0C0140000119553E91013F
127.3.0.10 810A0011010800640101502B0C9102911B
status -15'
asked='1:7F030005BAC0 read dst=100 svc=12 obj=5'
sent='sender=7F030005BAC0 station=-'
same 'the log beside a trial and an audit' "$(sed -E 's/ [0-9]+ 1 1:/ . 1 1:/' "$work/log")" \
    "1 . 1 $asked,2 prop=85 prio=- rule=hide $sent
1 . 1 $asked,2 prop=85 prio=- rule=hide $sent"
same 'the log of a trial' "$(sed -E 's/ [0-9]+ 1 1:/ . 1 1:/' "$work/log.trial")" \
    "allow all -> deny 1 . 1 $asked,1 prop=85 prio=- rule=keep $sent
deny hide -> allow 2 . 1 $asked,2 prop=85 prio=- rule=all $sent
allow all -> deny 3 . 1 $asked,1 prop=85 prio=- rule=keep $sent
deny hide -> allow 4 . 1 $asked,2 prop=85 prio=- rule=all $sent"
same 'an audit' "$(sed -E 's/ [0-9]+ 1 1:/ . 1 1:/' "$work/log.audit")" \
    "allow 1 . 1 $asked,1 prop=85 prio=- rule=all $sent
allow 2 . 1 $asked,1 prop=85 prio=- rule=all $sent"
# So do the numbers of files with stamps, though the last line is a note once a second gateway began.
rm -f "$work/state" "$work/stamped"
python3 "$here/loopback.py" watched "$program" "$work/audited.toml" "$work/trial.toml" "$work/stamped" --stamp --state "$work/state" > "$work/out" 2>&1
for name in stamped stamped.trial stamped.audit; do
    numbers='1 2'
    [ "$name" != stamped.trial ] || numbers='1 2 3 4'
    same "the numbers of $name" "$(sed -En 's/^[^ ]+ (.* )?([0-9]+) [0-9]+ 1 1:.*/\2/p' "$work/$name" | xargs)" "$numbers"
    same "the notes of $name" "$(grep -c ' # bacgw .* began$' "$work/$name")" 2
done
same 'the modes of both' "$(stat -c %a "$work/log.trial" "$work/log.audit" | xargs)" '600 600'
sed 's/127\.4\.0\.255/127.4.0.254/' "$work/audited.toml" > "$work/other_ports.toml"
# untried STATUS REASON FILE: the rules of this file can't be on trial, and nothing is opened
untried() {
    ran "$1" "bacgw: trial: $2" --config "$work/audited.toml" --audit "$work/unmade" \
        --trial "$3" --trial-log "$work/unmade.trial" --turns 1
}
untried 1 "cannot read configuration $work/nowhere.toml: no such file" "$work/nowhere.toml"
untried 1 "cannot read configuration $work/folder: is a directory" "$work/folder"
ran 2 "$work/faulty.toml: $("$program" check --config "$work/faulty.toml" 2> /dev/null)
bacgw: trial: configuration: NotToml" --config "$work/audited.toml" --audit "$work/unmade" \
    --trial "$work/faulty.toml" --trial-log "$work/unmade.trial" --turns 1
untried 2 "it isn't of the configuration's format" "$work/served.toml"
untried 2 "its ports aren't the configuration's" "$work/other_ports.toml"
same 'no log of a trial that is none' "$(ls "$work/unmade" "$work/unmade.trial" 2> /dev/null)" ''
ran 1 "bacgw: trial: log failed: $work/folder" --config "$work/audited.toml" --audit "$work/unmade" --trial "$work/trial.toml" \
    --trial-log "$work/folder" --turns 1
ran 1 "bacgw: audit failed: $work/folder" --config "$work/audited.toml" --audit "$work/folder" --turns 1
ran 0 'bacgw: audit = true writes nothing without --audit' --config "$work/audited.toml" --turns 1

# taken ADDRESS PORT SOCKET: while another socket has this address, `run` says which port and which socket can't be opened
taken() {
    python3 "$here/loopback.py" taken "$program" "$work/served.toml" "$1" > "$work/out" 2> "$work/err"
    status=$?
    tells "a socket stands at $1" 0 "port $2: $3 $1:47808: another socket has the address
bacgw: socket failed on port $2"
    same "the status where a socket stands at $1" "$(cat "$work/out")" 'status 1'
}
taken 127.3.0.10 1 own
taken 127.3.0.255 1 broadcast
taken 127.4.0.10 2 own
taken 127.4.0.255 2 broadcast
printf '[[port]]\nnetwork = 3\naddress = "127.5.0.10:47808"\nbroadcast = "127.5.0.255:47808"\n' >> "$work/served.toml"
taken 127.5.0.10 3 own
taken 127.5.0.255 3 broadcast

# Each socket of eight ports is heard that was empty a moment ago, and in a flood at another one.
for number in 4 5 6 7 8; do
    printf '[[port]]\nnetwork = %s\naddress = "127.%s.0.10:47808"\nbroadcast = "127.%s.0.255:47808"\n' "$number" $((number + 2)) $((number + 2))
done >> "$work/served.toml"
python3 "$here/loopback.py" ports "$program" "$work/served.toml" 8 > "$work/out" 2>&1
same 'each socket of eight ports is heard' "$(cat "$work/out")" '48 of 48 reads are answered
48 of 48 in a flood at 127.3.0.10
48 of 48 in a flood at 127.4.0.255'

# A configuration of many octets is read whole: its last rule comes after them.
for octets in 4000 900000; do
    { cat "$here/format2/two_subnets.toml"; head -c "$octets" /dev/zero | tr '\0' '#'; printf '\n[[rule]]\nname = "last"\nallow = true\n'; } > "$work/long.toml"
    checked "$work/long.toml"
    echo 'ok 2 ports 1 objects 7 rules' > "$work/line"
    agrees "a configuration behind $octets octets" 0 "$work/line" /dev/null
done
# The most rules in the most octets, one rule more, and one octet more.
for rules in 512 513; do
    { cat "$here/base.toml"; for ((number = 1; number <= rules; number++)); do printf '[[rule]]\nname = "n%d"\nallow = true\n' "$number"; done; printf '#'; } > "$work/rules.toml"
    head -c $((1048576 - $(wc -c < "$work/rules.toml"))) /dev/zero | tr '\0' '#' >> "$work/rules.toml"
    checked "$work/rules.toml"
    if [ "$rules" = 512 ]; then
        echo 'ok 2 ports 2 objects 512 rules' > "$work/line"
        agrees '512 rules in 1,048,576 octets' 0 "$work/line" /dev/null
        printf '#' >> "$work/rules.toml"
        checked "$work/rules.toml"
        tells '512 rules in an octet more' 2 'bacgw: configuration: TooMany'
    else
        tells '513 rules' 2 'bacgw: configuration: TooMany'
    fi
done
checked "$work"
tells 'a folder in the place of a configuration' 1 "bacgw: cannot read configuration $work: is a directory"

# What the policy hides follows the first line, if that is asked for.
hiding '' > "$work/hiding.toml"
"$tool" explain --config "$work/hiding.toml" < /dev/null > "$work/out" 2> "$work/err"
status=$?
printf 'ok 2 ports 2 objects 2 rules\nobject 2 (5,2) "door" is hidden from network %s\n' 1 > "$work/line"
echo 'object 2 (5,2) "door" is hidden from network 2' >> "$work/line"
agrees 'what is hidden' 0 "$work/line" /dev/null
checked "$work/hiding.toml"
echo 'ok 2 ports 2 objects 2 rules' > "$work/line"
agrees 'a check that explains nothing' 0 "$work/line" /dev/null

# What is odd about the rules is shown by a lint, and what can't be meant or is lacking by a check.
"$tool" lint --config "$here/lint.toml" < /dev/null > "$work/out" 2> "$work/err"
status=$?
agrees 'a lint' 0 "$here/lint.out" /dev/null
for command in explain check; do
    "$tool" $command --config "$here/warnings.toml" < /dev/null > "$work/out" 2> "$work/err"
    status=$?
    agrees "what cannot be meant: $command" 0 "$here/warnings.out" /dev/null
done
"$tool" check --config "$here/oversights.toml" < /dev/null > "$work/out" 2> "$work/err"
status=$?
agrees 'what is surely lacking' 0 "$here/oversights.out" /dev/null

# unsuspected FILE [NOTES]: a lint finds nothing in a configuration, or this, and nothing in it can't be meant. Two notes don't count: what
# formats 1 and 2 can't keep out of a network, and that a policy passes no broadcast on
unsuspected() {
    { "$program" check --config "$1" && printf '%s' "${2:+$2
}"; } < /dev/null > "$work/plain" 2> /dev/null
    "$tool" lint --config "$1" < /dev/null 2> "$work/err" > "$work/noted"
    status=$?
    sed '/: look at source_network: without source, /d; /^note: look at cast: /d; /: audit: run --audit writes what it allows$/d' \
        "$work/noted" > "$work/out"
    agrees "the lint of $1" 0 "$work/plain" /dev/null
    same "the warnings of $1" "$("$tool" explain --config "$1" | grep '^warning: ')" ''
}
for file in "$here"/*.toml "$here"/format2/*.toml "$here"/sites/*.toml "$here/site/site.toml" "$here/../dist/site.toml"; do
    case ${file##*/} in
        base.toml | recipes.toml) # they have no rules
            same "the warnings of $file" "$("$tool" explain --config "$file" | grep '^warning: ')" \
                'warning: there is no rule, so every ask is denied' ;;
        lint.toml | oversights.toml | warnings.toml | wrong_texts.toml) ;;
        *) unsuspected "$file" ;;
    esac
done

# The configuration to begin with is the site of two subnets.
"$tool" init --port 10.1.0.2/24 --port 10.2.0.2/24 --operator 10.1.0.10 < /dev/null > "$work/out" 2> "$work/err"
status=$?
agrees 'a configuration to begin with' 0 "$here/sites/two_subnets.toml" /dev/null

# judges PROGRAM COMMAND NAME: the command tells this fault of a text, and says where it is
judges() {
    "$1" "$2" --config "$work/faulty.toml" < /dev/null > "$work/out" 2> "$work/err"
    status=$?
    printf '%s: configuration: %s\n' "${1##*/}" "$3" > "$work/told"
    agrees "${1##*/} $2 of a fault: $(cat "$work/line")" 2 "$work/line" "$work/told"
}

# explained TEXT NAME LINE: `check` of both programs and `explain` tell the fault, and say where it is
explained() {
    printf '%b' "$1" > "$work/faulty.toml"
    printf '%s\n' "$3" > "$work/line"
    judges "$program" check "$2"
    judges "$tool" check "$2"
    judges "$tool" explain "$2"
}
explained '' Missing 'format: is missing; it must be 1 to 3'
explained 'format = 1\nformat = ' NotToml 'the text: is no TOML document, line 2, column 10: invalid value, expected a string, number, boolean, date-time, array or inline table'
explained '\xff' NotToml "the text: is no TOML document, since it isn't UTF-8"
explained 'colour = 1' UnknownKey 'colour: is no key of this table; known keys here: format, device, port, route, object, rule'
explained 'format = 1\nport = []\n[device]\n' Range 'port: a list of 0 must have 1 to 8'

# The recipes of the cookbook, and what each policy lets through and refuses.
"$here/attempts.sh" "$program" "$work/recipes" > "$work/out" 2>&1
status=$?
sed '$d' "$work/out"
read -r agreed _ differing _ < <(tail -1 "$work/out")
passed=$((passed + agreed))
failed=$((failed + differing))
same 'the status of the attempts' "$status" "$((differing > 0))"
for file in "$work"/recipes/* "$here"/format2/recipes/*; do
    case ${file##*/} in
        # how not to hide the door of another device, a network that is learned, and a rule that means every service of one device
        *', otherwise')
            unsuspected "$file" 'note: rule 2 all: look at object_type: without one, requests pass that name no object
note: rule 2 all: look at its fields: without any, it allows tables, registrations, routes, enter and claim too' ;;
        *_not.toml)
            unsuspected "$file" 'note: rule 2 all: look at object_type: without one, requests pass that name no object
note: rule 2 all: look at its fields: without any, it allows tables, registrations and routes too' ;;
        '14. '*) unsuspected "$file" "note: rule 2 read-all: look at source_network: 400 is of no port, no route and not the device's" ;;
        # of two rules of both ways that have the same answers, and of one that routes and has its own way, nothing is said
        '16. '*) unsuspected "$file" 'note: rule 1 maintenance: look at object_type: without one, requests pass that name no object' ;;
        *) unsuspected "$file" ;;
    esac
done

# Each attack, under a policy of format 3, which stops it, and under one of format 2, which doesn't.
"$here/attacks.sh" "$program" > "$work/out" 2>&1
status=$?
sed '$d' "$work/out"
read -r agreed _ differing _ < <(tail -1 "$work/out")
passed=$((passed + agreed))
failed=$((failed + differing))
same 'the status of the attacks' "$status" "$((differing > 0))"

checked /dev/zero
tells "a file without an end" 2 'bacgw: configuration: TooMany'
# unread FILE REASON: this file can't be read, and the line names it
unread() {
    checked "$1"
    tells "a file that can't be read: $1" 1 "bacgw: cannot read configuration ${3-$1}: $2"
}
unread "$work" 'is a directory'
unread "$work/none.toml" 'no such file'
unread "$work/line/none.toml" "it can't be read"
unread '' 'no such file'
unread $'none\n\e[31mbacgw: out of memory\x7f' 'no such file' 'none??[31mbacgw: out of memory?'
"$tool" compare --config "$here/two_subnets.toml" --with "$work/none.toml" > "$work/out" 2> "$work/err"
status=$?
tells "a second file that can't be read" 2 "bacgwctl: cannot read configuration $work/none.toml: no such file"
for options in '' --json; do
    # shellcheck disable=SC2086 # No option is no word.
    "$tool" log $options "$work/none.log" > "$work/out" 2> "$work/err"
    status=$?
    tells "a log that can't be read $options" 1 "bacgwctl: cannot read log $work/none.log: no such file"
done

"$program" replay < "$here" > /dev/null 2> "$work/err"
status=$?
tells "a folder to read" 1 'bacgw: read failed'
"$program" replay < "$here/read.script" > /dev/full 2> "$work/err"
status=$?
tells "a full device to write to" 1 'bacgw: write failed'
"$program" check --config "$here/workstation.toml" > /dev/full 2> "$work/err"
status=$?
tells "check on a full device" 1 'bacgw: write failed'
"$tool" explain --config "$here/workstation.toml" > /dev/full 2> "$work/err"
status=$?
tells "an explanation on a full device" 1 'bacgwctl: write failed'
"$program" --help > /dev/full 2> "$work/err"
status=$?
tells "help on a full device" 1 'bacgw: write failed'
"$program" replay < "$here/bad_line.script" > /dev/full 2> "$work/err"
status=$?
tells "a bad line, and a flush that fails behind it" 2 'bacgw: line 3'

echo "$passed passed, $failed failed"
[ "$failed" = 0 ]
