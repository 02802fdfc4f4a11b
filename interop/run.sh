#!/usr/bin/env bash
# Compares roots, paths, tiles and checkpoint texts with those of Go's checksum database: of the given programs, warg_vectors,
# warg_check and warg_tlog, or of those that it proves and builds. Where Go or its library isn't there it says so, and that is no failure.
# It installs and fetches nothing, and what it makes of Go's goes into a temporary folder.
set -eu
programs=("$@")
for i in "${!programs[@]}"; do programs[i]="$(realpath "${programs[i]}")"; done
cd "$(dirname "$0")/.."
not_run() { echo "interop: not run, $1 is missing"; exit 0; }
command -v go > /dev/null || not_run go

work="$(mktemp -d)"
trap 'rm -rf "$work"' EXIT
# Debian keeps the sources of Go's libraries in /usr/share/gocode.
settings=(GO111MODULE=off GOPATH=/usr/share/gocode GOFLAGS= GOENV=off GOPROXY=off GOTOOLCHAIN=local)
settings+=(GOCACHE="$work/cache" GOTMPDIR="$work" XDG_CONFIG_HOME="$work")
env "${settings[@]}" go list golang.org/x/mod/sumdb/tlog > /dev/null 2>&1 || not_run golang-golang-x-mod-dev
env "${settings[@]}" go build -o "$work/interop" interop/*.go

if [ $# = 0 ]; then
    names=(warg_vectors warg_check_cli warg_tlog)
    python3 scripts/prove_all.py "${names[@]}"
    for name in "${names[@]}"; do programs+=("crates/$name/out/proved/$name"); done
fi
TMPDIR="$work" "$work/interop" "${programs[@]}"
