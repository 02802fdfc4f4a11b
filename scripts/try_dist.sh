#!/usr/bin/env bash
# Tries an archive of make dist as a new user does, in a folder of its own, without this repository and its environment: the
# sums, the programs, and the example of each language that is there. try_dist.sh ARCHIVE.
set -euo pipefail
archive="$(realpath "$1")"
room="$(mktemp -d "${TMPDIR:-/tmp}/a new user.XXXXXX")"
trap 'chmod -R u+w "$room"; rm -rf "$room"' EXIT
tar -xzf "$archive" -C "$room"
cd "$room"/*/
bare=(env -i "PATH=/usr/local/bin:/usr/bin:/bin" "HOME=$room" GOFLAGS=-mod=mod GOPROXY=off)

# Runs an example under a name, and compares.
try() {
    local name="$1"; shift
    "${bare[@]}" "$@" < examples/lines | cmp - examples/answers
    echo "the archive's example in $name: $(wc -l < examples/lines) check lines answered right"
}

"${bare[@]}" sha256sum --quiet -c SHA256SUMS
commands='push 6f6e65\npush 74776f\nlog\nbundle 2 2\n'
said="$(printf "$commands" | "${bare[@]}" bin/warg_check)"
root="$(sed -n 's/^log 2 //p' <<< "$said")"
said="$(tail -n 1 <<< "$said" | "${bare[@]}" bin/warg_verdict entry - --hex --length 2 --root "$root" --index 1 --value text:two)"
[ "$said" = true ]
"${bare[@]}" bin/warg_tlog init log example.com/log
printf '6f6e65\n74776f\n' | "${bare[@]}" bin/warg_tlog append log
path="$("${bare[@]}" bin/warg_tlog prove log 1)"
said="$(printf 'inclusion 1 2 %s\n74776f\n%s\n' "$(sed -n 3p log/checkpoint)" "$path" | "${bare[@]}" bin/warg_tlog verify)"
[ "$said" = true ]
rm -r log
echo "the archive's programs agree: a proof and a path of entry 1 are true"

if "${bare[@]}" sh -c 'command -v cc' > /dev/null; then
    "${bare[@]}" cc -I include examples/check.c lib/libwarg.a -o check_c
    try C ./check_c
    "${bare[@]}" PKG_CONFIG_PATH=lib/pkgconfig sh -c 'command -v pkg-config > /dev/null || exit 0
        eval cc "$(pkg-config --cflags warg)" examples/check.c "$(pkg-config --libs warg)" -o check_shared'
    [ ! -e check_shared ] || try "C, by pkg-config" LD_LIBRARY_PATH=lib ./check_shared
fi
if "${bare[@]}" sh -c 'command -v python3' > /dev/null; then
    try Python python3 examples/check.py
fi
if "${bare[@]}" sh -c 'command -v rustc' > /dev/null; then
    "${bare[@]}" rustc --edition 2021 -O examples/check.rs -L native=lib -l static=warg -o check_rs
    try Rust ./check_rs
fi
if "${bare[@]}" sh -c 'command -v go' > /dev/null; then
    (cd examples/go && "${bare[@]}" go build -o ../../check_go .)
    try Go ./check_go
fi
