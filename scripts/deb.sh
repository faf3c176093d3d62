#!/usr/bin/env bash
# Builds a Debian package of what `make install` puts in place, beside the repository's files.
# deb.sh VERSION
set -eu
cd "$(dirname "$(readlink -f "$0")")/.."
version=$1
work=$(mktemp -d)
trap 'rm -rf "$work"' EXIT
chmod 755 "$work"
make -s install DESTDIR="$work" PREFIX=/usr
mkdir "$work/DEBIAN"
cat > "$work/DEBIAN/control" <<END
Package: dired
Version: $version
Architecture: amd64
Maintainer: dired maintainers <maintainers@users.noreply.wendrovig.example>
Section: utils
Priority: optional
Depends: libc6
Installed-Size: $(du -sk "$work" | cut -f1)
Description: edit a directory tree as a listing, whole or not at all
 Dired and Wdired of Emacs for the command line: names, modes and targets of
 links are edited in a listing, and carried out whole or not at all, whenever
 the machine is stopped.
END
dpkg-deb --root-owner-group --build "$work" "dired_${version}_amd64.deb"
