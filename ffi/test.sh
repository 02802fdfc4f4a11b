#!/usr/bin/env bash
# Runs the four examples on every check line of the vectors, and compares their answers, and then a hostile
# caller. Says which examples were run: one whose compiler or interpreter isn't there is left out.
set -euo pipefail
cd "$(dirname "$0")/.."
work="$(mktemp -d)"
trap 'rm -rf "$work"' EXIT
ffi/lines.sh "$work"

# Runs an example under a name, and compares.
try() {
    local name="$1"; shift
    "$@" < "$work/lines" > "$work/$name.answers"
    cmp "$work/$name.answers" "$work/answers"
    echo "the example in $name: $(wc -l < "$work/lines") check lines answered right"
}

ran=0
if command -v cc > /dev/null; then
    cc -O2 -Wall -Wextra -Werror -I ffi ffi/examples/check.c ffi/libwarg.a -o "$work/check_c"
    try c "$work/check_c"
    ran=$((ran + 1))
fi
if command -v python3 > /dev/null; then
    try py python3 ffi/examples/check.py
    python3 ffi/wrong_uses.py
    ran=$((ran + 1))
fi
if command -v rustc > /dev/null; then
    rustc --edition 2021 -O ffi/examples/check.rs -L native=ffi -l static=warg -o "$work/check_rs"
    try rs "$work/check_rs"
    ran=$((ran + 1))
fi
if command -v go > /dev/null; then
    (cd ffi/examples/go && GOFLAGS=-mod=mod GOPROXY=off GOCACHE="$work/cache" go build -o "$work/check_go" .)
    try go "$work/check_go"
    ran=$((ran + 1))
fi
echo "$ran of 4 examples ran"
[ "$ran" -gt 0 ]

if command -v cc > /dev/null; then
    wrap=-Wl,--wrap=malloc,--wrap=realloc,--wrap=free
    cc -O2 -Wall -Wextra -Werror -I ffi ffi/hostile.c ffi/libwarg.a "$wrap" -o "$work/hostile"
    "$work/hostile" 100000 < "$work/lines"
    if command -v valgrind > /dev/null; then
        valgrind -q --error-exitcode=9 --leak-check=full "$work/hostile" 300 < "$work/lines"
        echo "valgrind reports nothing"
    fi
fi
