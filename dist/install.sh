#!/usr/bin/env bash
# Installs the gateway: both programs, their manual pages and completions for shells, the unit for systemd with its drop-in, another drop-in
# for metrics (in share/doc/bacgw), the size of its journal, the settings of the kernel, the firewall, the file for logrotate and a
# configuration to begin with.
#
#     dist/install.sh [--prefix DIR] [--root DIR]      # DIR is /usr/local, and the root / by default
#
# What the operator writes (the configuration, the drop-in, the firewall) stays as it is if it is there. Any other file outside of the
# programs' own that was edited stays too, and the new one is put beside it, as FILE.new: share/bacgw/installed below the prefix has the
# checksums of what was installed. Nothing is loaded or started.
#
# It takes the programs beside it, as in a release, or else those that `./bacgw prove` built. --root installs below a
# folder, as for a package.
set -euo pipefail

here=$(cd "$(dirname "$0")" && pwd)
prefix=/usr/local
root=
while [ $# -gt 0 ]; do
    case $1 in
        --prefix) prefix=${2:?"--prefix wants a folder"}; shift 2 ;;
        --prefix=*) prefix=${1#*=}; shift ;;
        --root) root=${2:?"--root wants a folder"}; shift 2 ;;
        --root=*) root=${1#*=}; shift ;;
        *) echo "usage: install.sh [--prefix DIR] [--root DIR]" >&2; exit 2 ;;
    esac
done

# found NAME...: the first of these files that is there
found() {
    local file
    for file in "$@"; do
        [ ! -f "$file" ] || { echo "$file"; return; }
    done
    echo "there is none of these: $*" >&2
    exit 1
}

# Neither is installed without the other. (The wrapper at the top of the repository has the programs' names too, but is a script.)
programs=()
pages=()
for name in bacgw bacgwctl; do
    programs+=("$(found "$here/bin/$name" "$here/../crates/$name/out/$name")")
    pages+=("$(found "$here/$name.1" "$here/../man/$name.1")")
done
install -d "$root$prefix/bin" "$root$prefix/share/man/man1"
install -m 755 -t "$root$prefix/bin" "${programs[@]}"
install -m 644 -t "$root$prefix/share/man/man1" "${pages[@]}"
for name in bacgw bacgwctl; do
    install -D -m 644 "$here/completions/$name.bash" "$root$prefix/share/bash-completion/completions/$name"
    install -D -m 644 "$here/completions/_$name" "$root$prefix/share/zsh/site-functions/_$name"
    install -D -m 644 "$here/completions/$name.fish" "$root$prefix/share/fish/vendor_completions.d/$name.fish"
done

record=$root$prefix/share/bacgw/installed
mkdir -p "$(dirname "$record")"
touch "$record"

sum() { sha256sum < "$1" | cut -d' ' -f1; }

# place FILE AT: installs FILE, unless what is there was edited since it was installed
place() {
    local now
    now=$(sum "$1")
    if [ -e "$root$2" ] && [ "$(sum "$root$2")" != "$now" ] && ! grep -qxF "$(sum "$root$2") $2" "$record"; then
        install -m 644 "$1" "$root$2.new"
        echo "$root$2 was edited and stays as it is; the new one is $2.new"
        return
    fi
    install -D -m 644 "$1" "$root$2"
    { grep -vF " $2" "$record" || true; echo "$now $2"; } > "$record.new"
    mv "$record.new" "$record"
}

# leave FILE AT: installs FILE where nothing is
leave() {
    if [ -e "$root$2" ]; then
        echo "$root$2 is there and stays as it is"
    else
        install -D -m 644 "$1" "$root$2"
    fi
}

units=/etc/systemd/system
[ "$prefix" != /usr ] || units=/usr/lib/systemd/system
unit=$(mktemp)
metrics=$(mktemp)
trap 'rm -f "$unit" "$metrics"' EXIT
sed "s|/usr/local/bin/bacgw|$prefix/bin/bacgw|g" "$here/bacgw.service" > "$unit"
sed "s|/usr/local/bin/bacgw|$prefix/bin/bacgw|g" "$here/bacgw.metrics.conf" > "$metrics"
place "$unit" "$units/bacgw.service"
place "$metrics" "$prefix/share/doc/bacgw/bacgw.metrics.conf"
# The system reads these below /etc, /usr and /usr/local alone.
settings=$prefix/lib
journal=$prefix/lib/systemd
case $prefix in
    /usr | /usr/local) ;;
    *) settings=/etc journal=/etc/systemd ;;
esac
place "$here/bacgw.journald" "$journal/journald@bacgw.conf.d/size.conf"
place "$here/bacgw.sysctl" "$settings/sysctl.d/60-bacgw.conf"
place "$here/bacgw.logrotate" /etc/logrotate.d/bacgw
leave "$here/bacgw.site.conf" /etc/systemd/system/bacgw.service.d/site.conf
leave "$here/bacgw.nft" /etc/bacgw/bacgw.nft
leave "$here/site.toml" /etc/bacgw/site.toml
cat <<TEXT
installed: $root$prefix/bin/bacgw and $root$prefix/bin/bacgwctl
next: write $root/etc/bacgw/site.toml, and the same subnets in $root/etc/systemd/system/bacgw.service.d/site.conf; and then
  bacgwctl explain --config /etc/bacgw/site.toml
  sysctl --system && nft -f /etc/bacgw/bacgw.nft
  systemctl daemon-reload && systemctl enable --now bacgw
TEXT
