#!/bin/sh
# Builds the static library of crates/exports and the package that links it beside the rival, and runs one of its
# programs:
#
#     tools/compare.sh campaign SEED ROUNDS
#     tools/compare.sh speed
set -eu
top=$(cd "$(dirname "$0")/.." && pwd)
program=$1
shift
(cd "$top/crates/exports" && rt lib >&2)
cd "$top/rivals/compare"
exec cargo run --release --quiet --bin "$program" -- "$@"
