#!/bin/sh
# Makes a Debian package and an archive of the built program, with their checksums. usage: make_packages.sh OUT
#
#   OUT/mfu_VERSION_ARCH.deb          for dpkg -i
#   OUT/mfu-VERSION-MACHINE.tar.gz    to unpack under /usr/local
#   OUT/SHA256SUMS
#
# The program needs only the C library, of the version of this system or a newer one: build on the oldest system. All files get the time of the
# commit, so the same commit and the same program give the same bytes.
set -eu
out=${1:?OUT}
top=$(dirname "$(dirname "$(readlink -f "$0")")")
mkdir -p "$out"
out=$(cd "$out" && pwd)
work=$(mktemp -d)
trap 'rm -rf "$work"' EXIT
umask 022
chmod 755 "$work"
make -s -C "$top" install DESTDIR="$work/tree" PREFIX=/usr/local >/dev/null
make -s -C "$top" install DESTDIR="$work/deb" PREFIX=/usr >/dev/null
version=$("$work/deb/usr/bin/mfu" --version | cut -d ' ' -f 2)
SOURCE_DATE_EPOCH=$(git -C "$top" log -1 --format=%ct)
export SOURCE_DATE_EPOCH
gzip -n9 "$work"/deb/usr/share/man/man1/*.1
find "$work" -exec touch -h -d "@$SOURCE_DATE_EPOCH" {} +
tar -C "$work/tree/usr/local" --sort=name --owner=0 --group=0 --numeric-owner -cf - . | gzip -n9 >"$out/mfu-$version-$(uname -m).tar.gz"
if command -v dpkg-deb >/dev/null 2>&1; then
    libc=$(dpkg-query -W -f '${Version}' libc6 | cut -d - -f 1)
    mkdir "$work/deb/DEBIAN"
    cat >"$work/deb/DEBIAN/control" <<END
Package: mfu
Version: $version
Architecture: $(dpkg --print-architecture)
Maintainer: $(git -C "$top" log -1 --format='%an <%ae>')
Depends: libc6 (>= $libc)
Suggests: perl, python3
Section: utils
Priority: optional
Description: list, search, compare, copy, synchronize and delete directory trees
 Parallel tools in the manner of mpiFileUtils (dwalk, dfind, dcmp, dcp, dsync,
 ddup, drm). A prover has checked that each function keeps its contract.
END
    find "$work/deb/DEBIAN" "$work/deb" -maxdepth 1 -exec touch -h -d "@$SOURCE_DATE_EPOCH" {} +
    dpkg-deb -Zgzip --root-owner-group --build "$work/deb" "$out/mfu_${version}_$(dpkg --print-architecture).deb" >/dev/null
else
    echo "make_packages.sh: dpkg-deb is not there, so no Debian package was made" >&2
fi
(cd "$out" && rm -f SHA256SUMS && sha256sum mfu* >SHA256SUMS)
