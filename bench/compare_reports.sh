#!/usr/bin/env bash
# Compares what the program writes with reports, certificates and summaries of other programs: compare_reports.sh FMM FOLDER [NAME..]
# FOLDER has NAME.txt, of either version, with NAME-ORDER-CAP.report and, where there is one, NAME-ORDER-CAP.cert, and
# sample-SEED-N-ORDER-CAP.summary. NAME may have dashes. With names after FOLDER only what belongs to those texts is compared.
# Each text is solved as a copy in a temporary folder, where the certificate is left beside it. Then the other program's certificate is
# put beside the copy and checked: it has to be accepted, with as many targets as the text has.
set -u
if [ $# -lt 2 ]; then
  echo "usage: compare_reports.sh FMM FOLDER [NAME..]" >&2
  exit 2
fi
fmm=$1
folder=$2
shift 2
names=" $* "
same=0
failed=0
work=$(mktemp -d) || exit 2
trap 'rm -rf "$work"' EXIT
count() {
  if [ "$1" = 0 ]; then
    same=$((same + 1))
    echo "same $2"
  else
    failed=$((failed + 1))
    echo "DIFFERENT $2"
  fi
}
compare() {
  cmp -s "$2" "$1"
  count $? "$(basename "$1")"
}
check() {
  cat "$1" > "$2.cert"
  line=$("$fmm" check "$2") && [ "$line" = "accepted targets $(grep -c '^target ' "$2")" ]
  count $? "check of $(basename "$1")"
}
wanted() {
  [ "$names" = "  " ] || [[ "$names" == *" $1 "* ]]
}
shopt -s nullglob
for report in "$folder"/*.report; do
  [[ "$(basename "$report" .report)" =~ ^(.*)-([0-9]+)-([0-9]+)$ ]] || continue
  name=${BASH_REMATCH[1]} order=${BASH_REMATCH[2]} cap=${BASH_REMATCH[3]}
  wanted "$name" || continue
  rm -f "$work"/*
  cat "$folder/$name.txt" > "$work/$name.txt"
  "$fmm" solve "$order" "$cap" "$work/$name.txt" > "$work/report"
  compare "$report" "$work/report"
  cert=${report%.report}.cert
  [ -e "$cert" ] || continue
  compare "$cert" "$work/$name.txt.cert"
  check "$cert" "$work/$name.txt"
done
for summary in "$folder"/sample-*.summary; do
  wanted sample || continue
  IFS=- read -r _ seed count order cap <<<"$(basename "$summary" .summary)"
  "$fmm" sample "$seed" "$count" "$order" "$cap" > "$work/summary"
  compare "$summary" "$work/summary"
done
echo "$same same, $failed different"
[ $((same + failed)) -gt 0 ] && [ $failed -eq 0 ]
