#!/usr/bin/env bash
# What workers give: workers.sh FMM [N..]
# For texts of wide_points.sh at order 24 and capacity 32: milliseconds of the whole program, the least of five runs in turn, with no number of
# workers and with 1, 2, 4 and 8. All must print the same bytes.
set -eu
fmm=${1:?usage: workers.sh FMM [N..]}
shift
[ $# -gt 0 ] || set -- 2000 20000 65536 131072
folder=$(mktemp -d)
trap 'rm -rf "$folder"' EXIT
printf 'points\tnone\t1\t2\t4\t8\n'
for n in "$@"; do
  "$(dirname "$0")/wide_points.sh" "$n" >"$folder/text"
  "$fmm" solve 24 32 "$folder/text" >"$folder/first"
  declare -A least=()
  for _ in 1 2 3 4 5; do
    for workers in "" 1 2 4 8; do
      start=$(date +%s%N)
      # shellcheck disable=SC2086
      "$fmm" solve 24 32 "$folder/text" $workers >"$folder/report"
      taken=$((($(date +%s%N) - start) / 10000))
      cmp "$folder/first" "$folder/report"
      key=w$workers
      if [ -z "${least[$key]:-}" ] || [ "$taken" -lt "${least[$key]}" ]; then least[$key]=$taken; fi
    done
  done
  printf '%s' "$n"
  for key in w w1 w2 w4 w8; do awk -v t="${least[$key]}" 'BEGIN { printf "\t%.1f", t / 100 }'; done
  printf '\n'
done
