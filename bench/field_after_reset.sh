#!/usr/bin/env bash
# Shows that a field can't be used after its arena was reset: field_after_reset.sh
# In a copy of the repository a crate does so; its check has to fail by the borrow check, and pass without the reset.
set -eu
top=$(cd "$(dirname "$0")/.." && pwd)
folder=$(mktemp -d)
trap 'rm -rf "$folder"' EXIT
git -C "$top" archive HEAD | tar -x -C "$folder"
crate=$folder/crates/after_reset
mkdir -p "$crate/src"
echo 'after_reset: limits points field_solve bumpalo' >>"$folder/crates.txt"
cat >"$crate/src/lib.rt" <<'TEXT'
//! A field, and its arena.
#![tactic(auto)]

ghost use Rattle.limits.specs.Limits.{grid_of};
ghost use Rattle.points.specs.Limits.{IsOrderOf, WithinLimits};

use bumpalo::Bump;
use field_solve::solve_alone;
use points::Points;
use std::alloc::Global;

/// How many targets a field has, asked after its arena was reset.
pub fn targets_after_reset(alloc: Global, points: &Points, arena: &mut Bump) -> usize
    requires list { WithinLimits points.now }
    requires order { IsOrderOf (grid_of points.now.version) 8 }
{
    let Ok(field) = solve_alone::<8>(alloc, points, 8, arena) else {
        return 0;
    };
    let _ = arena.reset();
    field.targets()
}
TEXT
if (cd "$crate" && rt check) >"$folder/log" 2>&1; then
  echo "NOT REFUSED: a field was used after its arena was reset"
  exit 1
fi
if ! grep -q 'borrow-e05' "$folder/log"; then
  echo "refused, but not by the borrow check:"
  grep error "$folder/log" || tail -3 "$folder/log"
  exit 1
fi
grep 'borrow-e05' "$folder/log" | head -1
sed -i '/arena.reset/d' "$crate/src/lib.rt"
if ! (cd "$crate" && rt check) >"$folder/log" 2>&1; then
  echo "refused without the reset too:"
  grep error "$folder/log" || tail -3 "$folder/log"
  exit 1
fi
echo "refused with the reset, proved without"
