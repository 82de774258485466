#!/usr/bin/env bash
# Tries a release: unpacks it, installs it to a scratch folder twice, and lets the installed programs answer a read and explain a
# configuration; then the same with the Debian package, where there is one.
#
#     dist/try.sh [FOLDER]      # what dist/release.sh left in dist/out by default
set -euo pipefail

from=$(cd "${1:-$(dirname "$0")/out}" && pwd)
work=$(mktemp -d)
trap 'rm -rf "$work"' EXIT

event='1 192.168.1.5:47808 810A0016012400640101FF0005070C0C014000011955'
printf '%s\nend\n' 'send 1 192.168.1.5:47808 810A001801080064010130070C0C0140000119553E91003F' > "$work/wanted"

# answers FOLDER SITE: the programs there say their versions and accept their configuration; one answers a read, the other one explains
answers() {
    "$1/bacgw" --version
    "$1/bacgwctl" --version
    "$1/bacgw" check --config "$2"
    "$1/bacgwctl" explain --config "$2" > "$work/explained"
    [ "$(head -1 "$work/explained")" = "$("$1/bacgw" check --config "$2")" ]
    echo "the configuration is explained"
    echo "$event" | "$1/bacgw" replay | cmp - "$work/wanted"
    echo "a read is answered"
}

(cd "$from" && sha256sum --quiet -c ./*.tar.gz.sha256)
mkdir "$work/unpacked"
tar -C "$work/unpacked" -xzf "$from"/bacgw-*.tar.gz
pack=$(echo "$work"/unpacked/*)
cat "$pack/RELEASE"
root=$work/root
"$pack/install.sh" --root "$root" > /dev/null
answers "$root/usr/local/bin" "$root/etc/bacgw/site.toml"
echo '# mine' >> "$root/etc/bacgw/site.toml"
"$pack/install.sh" --root "$root" > /dev/null
[ "$(tail -1 "$root/etc/bacgw/site.toml")" = '# mine' ]
# A unit or a file for logrotate that was edited stays too, and the new one is beside it; one that wasn't is replaced by a newer one.
edited=("$root/etc/systemd/system/bacgw.service" "$root/etc/logrotate.d/bacgw")
for file in "${edited[@]}"; do echo '# mine' >> "$file"; done
echo '# newer' >> "$pack/bacgw.journald"
"$pack/install.sh" --root "$root" > /dev/null
for file in "${edited[@]}"; do [ "$(tail -1 "$file")" = '# mine' ] && [ -f "$file.new" ]; done
[ "$(tail -1 "$root/usr/local/lib/systemd/journald@bacgw.conf.d/size.conf")" = '# newer' ]
grep -q '^ExecStart=/usr/bin/env --ignore-signal=HUP,USR1,USR2,PIPE,XFSZ /usr/local/bin/bacgw ' "$root/etc/systemd/system/bacgw.service"
grep -q '^ExecReload=/usr/local/bin/bacgwctl ' "$root/etc/systemd/system/bacgw.service"
for name in bacgw bacgwctl; do
    [ -f "$root/usr/local/share/man/man1/$name.1" ] && [ -f "$root/usr/local/share/bash-completion/completions/$name" ]
done
[ -f "$root/etc/logrotate.d/bacgw" ]
grep -q '^ExecStart=/usr/bin/env --ignore-signal=HUP,USR1,USR2,PIPE,XFSZ /usr/local/bin/bacgw ' "$root/usr/local/share/doc/bacgw/bacgw.metrics.conf"
echo "installed again: the configuration, and what was edited, stays as it is"

# The settings of the kernel and of the journal are where the system reads them, below whatever prefix the programs are.
"$pack/install.sh" --prefix /opt/bacgw --root "$work/other" > /dev/null
for file in sysctl.d/60-bacgw.conf systemd/journald@bacgw.conf.d/size.conf; do
    [ -f "$root/usr/local/lib/$file" ] && [ -f "$work/other/etc/$file" ]
done
grep -q '^ExecStart=/usr/bin/env --ignore-signal=HUP,USR1,USR2,PIPE,XFSZ /opt/bacgw/bin/bacgw ' "$work/other/etc/systemd/system/bacgw.service"
echo "installed below another prefix"

for package in "$from"/*.deb; do
    [ -e "$package" ] || continue
    dpkg-deb --extract "$package" "$work/debian"
    answers "$work/debian/usr/bin" "$work/debian/etc/bacgw/site.toml"
    grep -q '^ExecStart=/usr/bin/env --ignore-signal=HUP,USR1,USR2,PIPE,XFSZ /usr/bin/bacgw ' "$work/debian/usr/lib/systemd/system/bacgw.service"
    grep -q '^ExecReload=/usr/bin/bacgwctl ' "$work/debian/usr/lib/systemd/system/bacgw.service"
    grep -q '^ExecStart=/usr/bin/env --ignore-signal=HUP,USR1,USR2,PIPE,XFSZ /usr/bin/bacgw ' "$work/debian/usr/share/doc/bacgw/bacgw.metrics.conf"
    [ -f "$work/debian/usr/lib/sysctl.d/60-bacgw.conf" ]
done
