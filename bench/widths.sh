#!/usr/bin/env bash
# How narrow the intervals of a solve must be, and how narrow they are: widths.sh FMM FILE ORDER CAP, for a text of either version, or
# widths.sh FMM sample SEED N ORDER CAP, for the points of a sample. With - for FMM nothing is solved, and the bound stands alone.
# In a line: how many points, sources, cells and leaves there are, the side of the smallest cell, the sources' weight, the bound on a
# printed interval, the share of it that is for what is cut off, the widest printed interval, and the bound over it.
# Tree, weight and bound are reckoned here and not by the program; of a sample the program's own summary has to say the same.
set -eu
folder=$(mktemp -d)
trap 'rm -rf "$folder"' EXIT

# The points of a sample, by the same draws as in wide_points.sh, but with the upper 16 bits of each state.
sample_points() {
  awk -v state="$1" -v n="$2" '
    function draw() {
      state = (1664525 * state + 1013904223) % 4294967296
      return int(state / 65536)
    }
    function coordinate(r, scale) {
      return int(r / 4 ^ scale) - 32768
    }
    function component(most, r) {
      return r % (2 * most + 1) - most
    }
    BEGIN {
      print "fmm 1 field"
      for (k = 0; k < n; k++) {
        a = draw(); b = draw(); choice = draw(); r = draw(); s = draw()
        scale = int(choice / 4) % 4
        place = coordinate(a, scale) " " coordinate(b, scale)
        kind = choice % 4
        if (kind < 2) print "charge " place " " component(1000, r)
        else if (kind == 2) print "dipole " place " " component(100, r) " " component(100, s)
        else print "target " place
      }
    }'
}

# Points, sources, cells, leaves, smallest side and weight of a text. From level to level, the points of full cells are counted by cell.
tree_of() {
  awk -v order="$2" -v cap="$3" '
    function size(x) {
      return x < 0 ? -x : x
    }
    NR == 1 { grid = $2 == 2 ? 20 : 16; n = 0; next }
    {
      x[n] = $2 + 2 ^ (grid - 1); y[n] = $3 + 2 ^ (grid - 1); n++
      if ($1 != "target") sources++
      weight += ($1 == "dipole" ? 2 * order : 1) * (size($4) + size($5))
    }
    END {
      for (k = 0; k < n; k++) full[k] = k
      for (left = n; left > 0; level++) {
        side = 2 ^ (grid - level)
        split("", count)
        for (k = 0; k < left; k++) {
          cell = int(x[full[k]] / side) " " int(y[full[k]] / side)
          where[k] = cell
          count[cell]++
        }
        for (cell in count) { cells++; if (count[cell] <= cap || side == 1) leaves++ }
        now = left; left = 0
        for (k = 0; k < now; k++) if (count[where[k]] > cap && side > 1) full[left++] = full[k]
      }
      printf "%d %d %d %d %.0f %.0f\n", n, sources, cells, leaves, side, weight
    }' "$1"
}

# The widest printed interval of a report in counts of 10^-12: of the first parts, and of the second.
widest_of() {
  awk '
    # The counts between two decimals: the ones before the points and those behind, as numbers of few digits.
    function apart(lo, hi,   l, h) {
      split(lo, l, "."); split(hi, h, ".")
      return (h[1] - l[1]) * 1e12 + (hi ~ /^-/ ? -h[2] : h[2]) - (lo ~ /^-/ ? -l[2] : l[2])
    }
    $1 == "target" {
      first = apart($5, $6); if (first > re) re = first
      second = apart($8, $9); if (second > im) im = second
    }
    END { printf "%.15g %.15g\n", re, im }' "$1"
}

# What a summary says of points, sources, cells and leaves, and of the widest interval of each part.
told_by() {
  awk '
    $1 == "points" { points = $2 " " $4 }
    $1 == "tree" { tree = $3 " " $5 }
    $1 == "widest" { widest = sprintf("%.15g %.15g", $3, $5) }
    END { print points, tree, widest }' "$1"
}

refused() {
  cat "$1" >&2
  exit 1
}

case $#-${2:-} in
6-sample)
  fmm=$1 order=$5 cap=$6 text=$folder/text
  sample_points "$3" "$4" >"$text"
  ;;
4-*)
  fmm=$1 text=$2 order=$3 cap=$4
  ;;
*)
  echo "usage: widths.sh FMM FILE ORDER CAP | widths.sh FMM sample SEED N ORDER CAP" >&2
  exit 2
  ;;
esac

counts=$(tree_of "$text" "$order" "$cap")
read -r points sources cells leaves side weight <<<"$counts"
if [ "$points" -eq 0 ]; then
  echo "no points, so no tree and no bound" >&2
  exit 1
fi
re='' im=''
if [ "$fmm" != - ]; then
  "$fmm" solve "$order" "$cap" "$text" >"$folder/report" || refused "$folder/report"
  read -r re im <<<"$(widest_of "$folder/report")"
  if [ $# -eq 6 ]; then
    "$fmm" sample "$3" "$4" "$order" "$cap" >"$folder/summary" || refused "$folder/summary"
    if [ "$(told_by "$folder/summary")" != "$points $sources $cells $leaves $re $im" ]; then
      echo "DIFFERENT: $points $sources $cells $leaves $re $im here, and in the summary:" >&2
      refused "$folder/summary"
    fi
  fi
fi
printf '%s\t' points sources cells leaves side weight bound 'cut off' widest
printf 'bound/widest\n'
awk -v P="$order" -v points="$points" -v n="$sources" -v cells="$cells" -v leaves="$leaves" -v s="$side" -v S="$weight" -v re="$re" -v im="$im" '
  # the tail of two cells: from 2^41 on, P times 17/31, rounded up
  function tail(P,   t) {
    t = 2 ^ 41
    while (P-- > 0) t = int((17 * t + 30) / 31)
    return t
  }
  BEGIN {
    cut = 2 * S * tail(P)
    rounded = 6 * P ^ 2 * S + 30 * P ^ 4 * n + 64 * P ^ 2 + s * (6 * n + 6)
    bound = (cut + rounded) / s / 1e12
    widest = (re > im ? re : im) / 1e12
    over = widest > 0 ? sprintf("%.3g", bound / widest) : "-"
    printf "%d\t%d\t%d\t%d\t%d\t%.0f\t%.4g\t%.2f%%\t%s\t%s\n", points, n, cells, leaves, s, S, bound, 100 * cut / (cut + rounded),
      re == "" ? "-" : sprintf("%.4g", widest), over
  }'
