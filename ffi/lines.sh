#!/usr/bin/env bash
# Writes the check lines of the vectors and their answers: lines.sh FOLDER makes FOLDER/lines and FOLDER/answers.
set -euo pipefail
vectors="$(dirname "$0")/../crates/warg_vectors"
both="$(paste "$vectors/stdin" "$vectors/stdout" | sed -n 's/^\(each \)\?\(check_[^\t]*\t\)/\2/p')"
cut -f1 <<< "$both" > "$1/lines"
cut -f2 <<< "$both" > "$1/answers"
