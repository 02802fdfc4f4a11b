#!/usr/bin/env bash
# Packs what users take home without the toolchain: dist/warg-VERSION-x86_64-linux.tar.gz, and its sum beside it. The version is
# that of CHANGELOG.md's first heading. The same files give the same bytes, whenever and by whomever they are packed. It tries
# what is in it last. With --as-proved it takes the programs that the gate has just proved, and proves the library over those
# below it.
set -euo pipefail
cd "$(dirname "$0")/.."
version="$(sed -n '/^## /{s/^## \([^,]*\).*/\1/p;q}' CHANGELOG.md)"
name="warg-$version-x86_64-linux"
programs=(warg_check_cli warg_verdict warg_tlog)
work="$(mktemp -d)"
trap 'rm -rf "$work"' EXIT
tree="$work/$name"

built=out
if [ "${1:-}" != --as-proved ]; then
    python3 scripts/prove_all.py ${CPU:+--cpu "$CPU"} "${programs[@]}" warg_ffi
    built=out/proved
fi
ffi/build.sh "$@"

umask 022
MODULES="$tree/python" ffi/install.sh "$tree" > "$work/said"
mv "$tree/share/warg/go" "$tree/go"
rm -r "$tree/share"
install -d "$tree/bin" "$tree/examples/go"
for crate in "${programs[@]}"; do
    program="${crate%_cli}"
    install -m 755 "crates/$crate/$built/$crate" "$tree/bin/$program"
    said="$("$tree/bin/$program" --version)"
    [ "$said" = "$program $version" ] || { echo "$program --version says $said, and CHANGELOG.md $version"; exit 1; }
done
install -m 644 ffi/examples/check.* "$tree/examples"
install -m 644 ffi/examples/go/go.mod ffi/examples/go/main.go "$tree/examples/go"
ffi/lines.sh "$tree/examples"
install -m 644 LICENSE docs/warg.proto "$tree"
install -m 644 docs/ARCHIVE.md "$tree/README.md"
echo "$version" > "$tree/VERSION"
(cd "$tree" && find . -type f ! -name SHA256SUMS -printf '%P\0' | LC_ALL=C sort -z | xargs -0 sha256sum > "$work/sums" && mv "$work/sums" SHA256SUMS)

mkdir -p dist
tar --format=ustar --sort=name --owner=0 --group=0 --numeric-owner --mtime="@${SOURCE_DATE_EPOCH:-0}" -C "$work" -c "$name" |
    gzip -9n > "dist/$name.tar.gz"
(cd dist && sha256sum "$name.tar.gz" > "$name.tar.gz.sha256" && cat "$name.tar.gz.sha256")
scripts/try_dist.sh "dist/$name.tar.gz"
