# SPDX-License-Identifier: MIT OR Apache-2.0
# Part of ./bsc: makes the packages of Debian bsc and bsc-front of the proved program and of the front, by dpkg-deb alone. What
# packaging/NAME has are the package's control and the scripts that dpkg runs. Two packages of the same sources have the same octets.

# make_packages [FOLDER]: both packages in this folder, by default the caller's; prints their paths
make_packages() {
  local folder=${1-.} version name
  [ $# -le 1 ] && [ -d "$folder" ] || fail "usage: ./bsc package [FOLDER], where FOLDER is there"
  command -v dpkg-deb >/dev/null || fail "no dpkg-deb to make a package with; './bsc install PREFIX' copies the same without one"
  needs_proved
  room=$(mktemp -d)
  trap 'rm -rf "$room"' EXIT
  umask 022
  SOURCE_DATE_EPOCH=$(git -C "$top" log -1 --format=%ct 2>/dev/null || stat -c %Y "$top/CHANGELOG.md")
  export SOURCE_DATE_EPOCH
  version=$(package_version)
  install_relay "$room/bsc" /usr
  install -D -m 644 "$top/examples/two-cells.toml" "$room/bsc/etc/bsc.toml"
  install_front "$room/bsc-front" /usr
  install -D -m 644 "$top/examples/front.toml" "$room/bsc-front/etc/bsc-front.toml"
  for name in bsc bsc-front; do
    finish_package "$name" "$version"
    build_package "$name" "$version" "$folder"
  done
}

# The program's version; before it is released, with the time of the sources, so that the release is newer than all before it.
package_version() {
  local version
  version=$("$program" --version | cut -d ' ' -f 2)
  if grep -q "^## $version, not released yet" "$top/CHANGELOG.md"; then
    version=$version~$(date -u -d "@$SOURCE_DATE_EPOCH" +%Y%m%d%H%M%S)
  fi
  echo "$version"
}

# The libraries that the program wants, by the versions of the C library's symbols that it names.
libraries() {
  local newest
  newest=$(grep -ao 'GLIBC_[0-9][0-9.]*' "$program" | sort -uV | tail -n 1)
  echo "libc6${newest:+ (>= ${newest#GLIBC_})}$(! grep -aq 'libgcc_s\.so\.1' "$program" || echo ', libgcc-s1')"
}

# finish_package NAME VERSION: what Debian wants in each package: packed man pages, copyright, changes, sums, control and scripts
finish_package() {
  local root=$room/$1 architecture file
  architecture=$(package_architecture "$1")
  find "$root/usr/share/man" -type f -exec gzip -9n {} +
  install -d -m 755 "$root/DEBIAN" "$root/usr/share/doc/$1"
  install -m 644 "$top/packaging/copyright" "$root/usr/share/doc/$1/copyright"
  gzip -9n <"$top/CHANGELOG.md" | install -m 644 /dev/stdin "$root/usr/share/doc/$1/changelog.gz"
  (cd "$root" && find etc -type f | sed 's|^|/|') >"$root/DEBIAN/conffiles"
  (cd "$root" && find usr -type f -print0 | LC_ALL=C sort -z | xargs -0 md5sum) >"$root/DEBIAN/md5sums"
  for file in "$top/packaging/$1"/*; do
    [ "${file##*/}" = control ] || install -m 755 "$file" "$root/DEBIAN/"
  done
  sed "s|@VERSION@|$2|; s|@ARCHITECTURE@|$architecture|; s|@LIBRARIES@|$(libraries)|; s|@SIZE@|$(du -sk "$root" | cut -f 1)|" \
    "$top/packaging/$1/control" >"$root/DEBIAN/control"
}

package_architecture() { if [ "$1" = bsc ]; then dpkg --print-architecture; else echo all; fi; }

# build_package NAME VERSION FOLDER: packs it, and prints its path
build_package() {
  local path
  path=$3/$1_$2_$(package_architecture "$1").deb
  dpkg-deb --root-owner-group -Zxz --build "$room/$1" "$path" >/dev/null || fail "no package could be made at $path"
  echo "$path"
}
