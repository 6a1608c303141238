#!/bin/sh
# Installs a Debian package of make_packages.sh in a fresh root, runs each tool there once, and removes the package. Needs root and debootstrap.
# usage: try_package.sh DEB ROOT [SUITE]
#
# ROOT is made with debootstrap if it does not exist, from SUITE (default bookworm); the files that the tools make there are deleted again. The exit status is 0 if
# all went well.
set -eu
deb=${1:?DEB} root=${2:?ROOT} suite=${3:-bookworm}
[ -d "$root" ] || debootstrap --variant=minbase "$suite" "$root" >/dev/null
cp "$deb" "$root/tmp/mfu.deb"
cat >"$root/tmp/try_mfu.sh" <<'END'
set -eu
export PATH=/usr/sbin:/usr/bin:/sbin:/bin LC_ALL=C.UTF-8
cd /
dpkg -i /tmp/mfu.deb
sh /usr/share/mfu/example_tree.sh /tmp/site
is() { [ "$2" = "$3" ] || { echo "$1 printed: $2"; exit 1; }; }
is version "$(mfu --version)" "mfu $(dpkg-query -W -f '${Version}' mfu)"
is dwalk "$(mfu dwalk --output /tmp/site.list /tmp/site | tail -n 1)" 'items 12 dirs 4 files 7 links 1 others 0 bytes 2623863 failed 0'
is dfind "$(mfu dfind --input /tmp/site.list --type d | wc -l)" 5
is dcp "$(mfu dcp --hosts 4 /tmp/site/logs /tmp/site.copy)" 'copied 4 items 4 bytes 3820 failed 0'
is dcmp "$(mfu dcmp /tmp/site/logs /tmp/site.copy | tail -n 1)" \
    'rows 4 only_src 0 only_dest 0 common 4 differ_type 0 differ_size 0 differ_content 0 failed 0'
is dsync "$(mfu dsync --delete --hosts 4 /tmp/site/notes /tmp/site.copy)" 'synced 2 removed 3 kept 1 failed 0'
is ddup "$(mfu ddup --hosts 4 /tmp/site/notes /tmp/site.copy | tail -n 1)" 'groups 2 files 4 extra_bytes 43 failed 0'
is drm "$(mfu drm /tmp/site.copy | tail -n 1)" 'removed 3 of 3 failed 0'
is dtest "$(mfu dtest 1000)" 'items 1000 dirs 125 files 875 links 0 others 0 bytes 43838 failed 0'
for tool in dwalk dfind dcmp dcp dsync ddup drm dtest; do
    mfu help $tool >/dev/null
    [ -f /usr/share/man/man1/mfu-$tool.1.gz ]
done
mfu drm /tmp/site /tmp/site.list >/dev/null
dpkg -r mfu
[ ! -e /usr/bin/mfu ] && [ ! -e /usr/share/mfu ]
END
status=0
chroot "$root" sh /tmp/try_mfu.sh || status=$?
rm -f "$root/tmp/mfu.deb" "$root/tmp/try_mfu.sh"
[ "$status" -eq 0 ] && echo 'the package was installed, each tool ran, and the package was removed'
exit "$status"
