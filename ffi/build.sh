#!/usr/bin/env bash
# Proves the static library, and leaves it for C at ffi/libwarg.a and ffi/libwarg.so, and beside the modules for Python and
# Go. Nothing but the calls of ffi/warg.h can be seen in either. With --as-proved it stands on the libraries that the gate has
# just proved. CPU=x86-64-v3 builds for newer processors.
set -eu
cd "$(dirname "$0")/.."
kit="$(dirname "$(rt doc)")"
work="$(mktemp -d)"
trap 'rm -rf "$work"' EXIT

over=
[ "${1:-}" != --as-proved ] || over=--over-gate
python3 scripts/prove_all.py ${CPU:+--cpu "$CPU"} $over warg_ffi
library=crates/warg_ffi/out/proved/libwarg_ffi.a
parts=("$library" "$kit/c/liblibc_c.a")
sed -n 's/^u\{0,1\}int32_t \(warg_[a-z_]*\)(.*/\1/p' ffi/warg.h > "$work/calls"
{ echo '{ global:'; sed 's/$/;/' "$work/calls"; echo 'local: *; };'; } > "$work/version"

ld -r --whole-archive "${parts[@]}" -o "$work/warg.o"
objcopy --keep-global-symbols="$work/calls" "$work/warg.o"
rm -f ffi/libwarg.a
ar rcsD ffi/libwarg.a "$work/warg.o"
cc -shared -o ffi/libwarg.so -Wl,-soname,libwarg.so.0 -Wl,--whole-archive "${parts[@]}" -Wl,--no-whole-archive \
    -Wl,-z,defs -Wl,--version-script="$work/version"
cp ffi/libwarg.so ffi/python/
cp ffi/libwarg.a ffi/warg.h ffi/go/
echo "ffi/libwarg.a and ffi/libwarg.so have $(wc -l < "$work/calls") calls"
