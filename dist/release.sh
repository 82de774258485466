#!/usr/bin/env bash
# Packs the built programs for machines without the kit: bacgw-VERSION-x86_64.tar.gz, with its sha256 beside it, and a Debian package.
#
#     dist/release.sh [--gate FILE] [FOLDER]      # into the folder dist/out by default
#
# It wants both programs built, as `./bacgw prove` leaves them, with the stamps that they are the proved programs of these sources, and of
# a commit, with nothing changed since. FILE is what `rt ci` printed for that commit: its last line goes into the release, and a gate that
# failed makes none. Without it the release says that no gate is named. One commit and its programs make the same packs, octet for octet.
# For the Debian package it wants dpkg-deb, and leaves it out where that isn't there; its maintainer is DEBFULLNAME and DEBEMAIL, or else
# the author of the commit.
set -euo pipefail

here=$(cd "$(dirname "$0")" && pwd)
top=$(dirname "$here")
programs=(bacgw bacgwctl)
gate='not named'
to=$here/out
while [ $# -gt 0 ]; do
    case $1 in
        --gate)
            gate=$(grep -E '^(rt: )?[0-9]+ passed, [0-9]+ failed' "${2:?"--gate wants a file"}" | tail -1 || true)
            [[ $gate =~ ' 0 failed' ]] || { echo "no gate that passed: $2" >&2; exit 1; }
            shift 2 ;;
        -*) echo "usage: release.sh [--gate FILE] [FOLDER]" >&2; exit 2 ;;
        *) to=$1; shift ;;
    esac
done

# built NAME: where the program of this name is
built() { echo "$top/crates/$1/out/$1"; }

for program in "${programs[@]}"; do
    [ -x "$(built "$program")" ] || { echo "build $program first: ./bacgw prove" >&2; exit 1; }
    "$top/dist/stamp.sh" check "$program" || { echo "this is not the proved $program of these sources: ./bacgw prove" >&2; exit 1; }
done
[ -z "$(git -C "$top" status --porcelain)" ] || { echo "what is not committed can't be released" >&2; exit 1; }
told=$("$(built bacgw)" --version)
version=$(sed -n 's/^bacgw \([0-9.]*\),.*/\1/p' <<< "$told")
[ -n "$version" ] || { echo "no version: $told" >&2; exit 1; }
also=$("$(built bacgwctl)" --version)
[ "$also" = "bacgwctl ${told#bacgw }" ] || { echo "two versions: $told; $also" >&2; exit 1; }
name=bacgw-$version-x86_64

# The time of each file is that of the commit, and who may read it doesn't depend on the caller.
export SOURCE_DATE_EPOCH LC_ALL=C TZ=UTC
SOURCE_DATE_EPOCH=$(git -C "$top" log -1 --format=%ct)
umask 022

work=$(mktemp -d)
trap 'rm -rf "$work"' EXIT
pack=$work/$name
mkdir -p "$pack/bin" "$to"
for program in "${programs[@]}"; do install -m 755 "$(built "$program")" "$pack/bin"; done
install -m 755 "$here/install.sh" "$pack"
install -m 644 "$top"/man/*.1 "$here"/bacgw.* "$here/site.toml" "$pack"
install -D -m 644 -t "$pack/completions" "$here"/completions/*
{
    echo "program: $told"
    echo "program: $also"
    echo "commit: $(git -C "$top" rev-parse HEAD)"
    echo "gate: $gate"
    for program in "${programs[@]}"; do echo "sha256 of bin/$program: $(sha256sum < "$(built "$program")" | cut -d' ' -f1)"; done
} > "$pack/RELEASE"
tar -C "$work" --format=gnu --sort=name --mtime="@$SOURCE_DATE_EPOCH" --owner=0 --group=0 --numeric-owner -cf - "$name" |
    gzip -9n > "$to/$name.tar.gz"
(cd "$to" && sha256sum "$name.tar.gz" > "$name.tar.gz.sha256")
echo "$to/$name.tar.gz"

command -v dpkg-deb > /dev/null || { echo "no Debian package: dpkg-deb isn't there" >&2; exit 0; }
room=$work/debian
maintainer=$(git -C "$top" log -1 --format='%an <%ae>')
[ -z "${DEBEMAIL:-}" ] || maintainer="${DEBFULLNAME:-Tozsibel} <$DEBEMAIL>"
"$pack/install.sh" --prefix /usr --root "$room" > /dev/null
# dpkg keeps what was edited itself.
rm -r "$room/usr/share/bacgw"
papers=$room/usr/share/doc/bacgw
install -D -m 644 "$pack/RELEASE" "$papers/RELEASE"
gzip -9n "$room"/usr/share/man/man1/*.1
gzip -9n < "$top/CHANGELOG.md" > "$papers/NEWS.md.gz"
cat <<TEXT | gzip -9n > "$papers/changelog.gz"
bacgw ($version) unstable; urgency=medium

  * What a user sees is in NEWS.md.gz. The commit:
    $(git -C "$top" rev-parse HEAD)

 -- $maintainer  $(date -R -d "@$SOURCE_DATE_EPOCH")
TEXT
cat > "$papers/copyright" <<TEXT
Format: https://www.debian.org/doc/packaging-manuals/copyright-format/1.0/
Upstream-Name: Tozsibel
Source: commit $(git -C "$top" rev-parse HEAD)

Files: *
Copyright: $(date -d "@$SOURCE_DATE_EPOCH" +%Y), the owner of Tozsibel
License: none
 The owner has given no licence yet: whoever got this package may use it as the owner allowed.
TEXT
# The programs are packed as they were proved and built, and so not stripped.
mkdir -p "$room/usr/share/lintian/overrides"
printf 'bacgw: unstripped-binary-or-object [usr/bin/%s]\n' "${programs[@]}" > "$room/usr/share/lintian/overrides/bacgw"

control=$room/DEBIAN
mkdir -p "$control"
cat > "$control/control" <<TEXT
Package: bacgw
Version: $version
Architecture: amd64
Maintainer: $maintainer
Installed-Size: $(du -sk --apparent-size --exclude=DEBIAN "$room" | cut -f1)
Depends: libc6 (>= 2.34)
Suggests: nftables
Section: net
Priority: optional
Description: BACnet/IP gateway under a policy
 Router, broadcast manager and device under one list of rules, every function
 of which is proved.
TEXT
(cd "$room" && find etc -type f -printf '/%p\n' | sort) > "$control/conffiles"
(cd "$room" && find usr etc -type f -print0 | sort -z | xargs -0 md5sum) > "$control/md5sums"
cat > "$control/postinst" <<'TEXT'
#!/bin/sh
# A gateway that ran goes on as the new program, unless no subnet is allowed, where the new unit would mute it. The first time nothing is
# started: the operator names the site first.
set -e
if [ "$1" = configure ] && [ -d /run/systemd/system ]; then
    if [ -n "$2" ] && ! grep -qs '^IPAddressAllow=.' /etc/systemd/system/bacgw.service.d/*.conf; then
        echo "bacgw: a gateway that runs goes on as it is: allow the site's subnets in /etc/systemd/system/bacgw.service.d/site.conf,"
        echo 'then: systemctl daemon-reload && systemctl restart bacgw'
    else
        systemctl daemon-reload || true
        [ -z "$2" ] || systemctl try-restart bacgw.service || true
    fi
fi
if [ "$1" = configure ] && [ -z "$2" ]; then
    echo 'bacgw: write /etc/bacgw/site.toml and /etc/systemd/system/bacgw.service.d/site.conf, then: systemctl enable --now bacgw'
fi
TEXT
cat > "$control/prerm" <<'TEXT'
#!/bin/sh
set -e
if [ "$1" = remove ] && [ -d /run/systemd/system ]; then
    systemctl disable --now bacgw.service || true
fi
TEXT
cat > "$control/postrm" <<'TEXT'
#!/bin/sh
set -e
if [ "$1" != upgrade ] && [ -d /run/systemd/system ]; then
    systemctl daemon-reload || true
fi
TEXT
chmod 755 "$control/postinst" "$control/prerm" "$control/postrm"
find "$room" -exec touch -h -d "@$SOURCE_DATE_EPOCH" {} +
dpkg-deb -Zgzip -z9 --root-owner-group --build "$room" "$to/bacgw_${version}_amd64.deb" > /dev/null
echo "$to/bacgw_${version}_amd64.deb"
