#!/usr/bin/env bash
# Compares the verdicts of the program with those of other programs: compare_checks.sh FMM FOLDER
# FOLDER has NN.txt and NN.txt.cert, and a file `verdicts` with a line `NN STATUS LINE` for each: the exit status of `check NN.txt`, and the line
# that it prints.
set -u
if [ $# -ne 2 ]; then
  echo "usage: compare_checks.sh FMM FOLDER" >&2
  exit 2
fi
fmm=$1
folder=$2
same=0
failed=0
while read -r number status line; do
  printed=$("$fmm" check "$folder/$number.txt" < /dev/null)
  ended=$?
  if [ "$ended $printed" = "$status $line" ]; then
    same=$((same + 1))
    echo "same $number"
  else
    failed=$((failed + 1))
    echo "DIFFERENT $number: $ended $printed, and not $status $line"
  fi
done < "$folder/verdicts"
echo "$same same, $failed different"
[ $((same + failed)) -gt 0 ] && [ $failed -eq 0 ]
