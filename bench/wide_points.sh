#!/usr/bin/env bash
# Prints a text of version 2 with N points over the whole grid: wide_points.sh N [SEED]
# The places are those of `sample` on 20 bits: at scale 0 anywhere on the grid, and each of three further scales takes a quarter of the side
# before, toward the south-west. Of four points one is a charge, one a pole, one a dipole and one a target.
set -eu
awk -v n="${1:?usage: wide_points.sh N [SEED]}" -v state="${2:-1}" '
  function draw(bits) {
    state = (1664525 * state + 1013904223) % 4294967296
    return int(state / 2 ^ (32 - bits))
  }
  function coordinate(r, scale) {
    return int(r / 4 ^ scale) - 524288
  }
  function component(most, r) {
    return r % (2 * most + 1) - most
  }
  BEGIN {
    print "fmm 2 field"
    for (k = 0; k < n; k++) {
      a = draw(20); b = draw(20); choice = draw(16); r = draw(16); s = draw(16)
      scale = int(choice / 4) % 4
      place = coordinate(a, scale) " " coordinate(b, scale)
      kind = choice % 4
      if (kind == 0) print "charge " place " " component(1000, r)
      else if (kind == 1) print "pole " place " " component(1000, r) " " component(1000, s)
      else if (kind == 2) print "dipole " place " " component(100, r) " " component(100, s)
      else print "target " place
    }
  }'
