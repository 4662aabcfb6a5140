#!/usr/bin/env bash
# What a solve of version 2 costs: wide_costs.sh FMM [N..]
# For texts of wide_points.sh, each order and capacity: seconds, the least of three runs, megabytes, translations and pairs by point, and the
# widest printed interval.
set -eu
fmm=${1:?usage: wide_costs.sh FMM [N..]}
shift
[ $# -gt 0 ] || set -- 20000 65536 131072
folder=$(mktemp -d)
trap 'rm -rf "$folder"' EXIT
printf '%s\t%s\t%s\t%s\t%s\t%s\t%s\t%s\n' points order cap seconds megabytes translations pairs widest
for n in "$@"; do
  "$(dirname "$0")/wide_points.sh" "$n" >"$folder/text"
  for order in 16 24 32; do
    for cap in 32 64 128; do
      best=
      for _ in 1 2 3; do
        /usr/bin/env time -f '%e %M' -o "$folder/cost" "$fmm" solve "$order" "$cap" "$folder/text" >"$folder/report"
        read -r seconds kilobytes <"$folder/cost"
        if [ -z "$best" ] || awk "BEGIN { exit !($seconds < $best) }"; then best=$seconds; fi
      done
      awk -v n="$n" -v order="$order" -v cap="$cap" -v seconds="$best" -v kilobytes="$kilobytes" '
        $1 == "target" { if ($6 - $5 > widest) widest = $6 - $5; if ($9 - $8 > widest) widest = $9 - $8 }
        $1 == "work" { translations = $3; pairs = $5 }
        END { printf "%d\t%d\t%d\t%s\t%.0f\t%.2f\t%.1f\t%.3g\n", n, order, cap, seconds, kilobytes / 1024, translations / n, pairs / n, widest }
      ' "$folder/report"
    done
  done
done
