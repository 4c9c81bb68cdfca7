#!/bin/sh
# Solves a problem, keeps the report with its certificate, checks it, alters one number of it, and
# checks it again: the first check says yes, the second one no.
#
# usage: ./check.sh PROGRAM FILE
# PROGRAM is the built program `dcop`, FILE a problem on whose tree DPOP fits. Ends with 0 where both
# checks say what they should; a refusal is printed.
set -u
program=${1:?usage: ./check.sh PROGRAM FILE}
file=${2:?usage: ./check.sh PROGRAM FILE}
folder=$(mktemp -d)
trap 'rm -rf "$folder"' EXIT

"$program" solve --method dpop --certificate yes < "$file" > "$folder/report"
solved=$?
cat "$folder/report"
[ $solved -eq 0 ] || exit 1

echo "-- the report as it was printed:"
cat "$file" "$folder/report" | "$program" check || exit 1

# The last digit of the cost: one less, or 1 where it is 0.
sed '/^cost /{
y/0123456789/1012345678/
}' "$folder/report" > "$folder/all"
awk 'NR == FNR { line[FNR] = $0; next } /^cost / {
    other = line[FNR]
    $0 = substr($0, 1, length($0) - 1) substr(other, length(other))
} { print }' "$folder/all" "$folder/report" > "$folder/altered"

echo "-- with the last digit of its cost altered:"
cat "$file" "$folder/altered" | "$program" check
[ $? -eq 10 ]
