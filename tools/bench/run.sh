#!/usr/bin/env bash
# How many instructions the programs take (valgrind), and that 8 MiB of stack suffice: tools/bench/run.sh
set -euo pipefail
cd "$(dirname "$0")/../.."
inputs=target/bench
python3 tools/bench/inputs.py "$inputs"
ulimit -s 8192
for input in "$inputs"/*; do
  program=crates/check_proof/out/check_proof
  case $input in *.weigh) program=crates/weigh/out/weigh ;; esac
  answer=$("$program" <"$input")
  count=$(valgrind --tool=callgrind --callgrind-out-file=/dev/null "$program" <"$input" 2>&1 >/dev/null | sed -n 's/.*Collected : //p')
  printf '%-20s %7d bytes %13s instructions   %s\n' "$(basename "$input")" "$(stat -c %s "$input")" "$count" "$(cut -c1-30 <<<"$answer")"
done
