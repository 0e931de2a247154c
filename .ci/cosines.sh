#!/bin/sh
# Compares the cosine table with an outside computation: the C library's cosine in double precision, through awk.
# The table is read twice, from the code and from the definition, and each row m from 3 to LAST has to hold m numbers,
# 2^30 cos(2 pi k / m) rounded to the nearest, and nothing but zeros after them.
# The outside computation errs by less than 0.00001; a value within 0.001 of a half would decide nothing and is a failure.
#
#   .ci/cosines.sh [CODE DEFINITION [LAST]]
#
# Prints a line for each file; the status is 0 when both agree.
set -u
cd "$(dirname "$0")/.." || exit 2
code=${1:-crates/numbers/src/cosines.rt}
definition=${2:-crates/paper/specs/Cosines.antt}
last=${3:-16}
status=0

# Code: the two-fold bracketed list after `= [` of the constant; one line per row, its numbers parted by spaces.
code_rows() {
    sed 's,//.*,,' "$1" | tr '\n' ' ' | awk '
        {
            start = index($0, "const ")
            while (start > 0) {
                rest = substr($0, start)
                # from the equals sign on: the type, as [[i64; 16]; 14], has semicolons of its own
                body = substr(rest, index(rest, "=") + 1)
                stop = index(body, ";")
                if (stop > 0) body = substr(body, 1, stop - 1)
                gsub(/[ \t]/, "", body)
                if (substr(body, 1, 2) == "[[") {
                    gsub(/_/, "", body)
                    count = split(body, rows, "]")
                    for (i = 1; i <= count; i++) {
                        gsub(/[][]/, "", rows[i])
                        gsub(/,/, " ", rows[i])
                        if (rows[i] ~ /[0-9]/) print rows[i]
                    }
                    exit
                }
                $0 = substr(rest, 7)
                start = index($0, "const ")
            }
        }'
}

# Definition: the list of lists after `table =`; `pos n` is n, `negsuc n` is -(n + 1), and `[]` ends a row.
definition_rows() {
    sed 's,--.*,,' "$1" | awk '
        /^table *=/ { inside = 1; sub(/^table *=/, "") }
        inside && /^[^ \t]/ && !/^[(]/ { exit }
        inside {
            gsub(/[()]/, " ")
            for (i = 1; i <= NF; i++) {
                if ($i == "pos") row = row " " $(++i)
                else if ($i == "negsuc") row = row " " sprintf("%.0f", -($(++i) + 1))
                else if ($i == "[]" && row != "") { print row; row = "" }
            }
        }'
}

# Standard input: the rows from m = 3 on.
compare() {
    awk -v last="$last" -v file="$1" '
        BEGIN { pi = atan2(0, -1); scale = 1073741824; nearest_half = 0.5 }
        function wrong(what) { printf "cosines: %s: %s\n", file, what; bad = 1 }
        {
            m = NR + 2
            if (m > last) { wrong("a row after row " last); next }
            if (NF < m) { wrong("row " m " has " NF " numbers"); next }
            for (k = 0; k < NF; k++) {
                if ($(k + 1) !~ /^-?[0-9]+$/) { wrong("row " m ", number " k " is " $(k + 1)); continue }
                if (k >= m) {
                    if ($(k + 1) + 0 != 0) wrong("row " m " has " $(k + 1) " after its numbers")
                    continue
                }
                exact = scale * cos(2 * pi * k / m)
                shifted = exact + 2 * scale
                whole = int(shifted + 0.5)
                to_half = 0.5 - (shifted > whole ? shifted - whole : whole - shifted)
                if (to_half < nearest_half) nearest_half = to_half
                if (to_half < 0.001) wrong("row " m ", number " k " is too near to a half to decide")
                if ($(k + 1) + 0 != whole - 2 * scale)
                    wrong("row " m ", number " k " is " $(k + 1) ", computed " sprintf("%.4f", exact))
                compared++
            }
        }
        END {
            if (NR + 2 < last) wrong("the last row is " (NR + 2) ", not " last)
            if (bad) exit 1
            printf "cosines: %s: %d numbers in rows 3 to %d are 2^30 cos to the nearest (nearest half %.4f away)\n", \
                file, compared, last, nearest_half
        }'
}

for file in "$code" "$definition"; do
    if [ ! -r "$file" ]; then
        echo "cosines: $file: not there"
        status=1
    fi
done
[ $status -eq 0 ] || exit 1
code_rows "$code" | compare "$code" || status=1
definition_rows "$definition" | compare "$definition" || status=1
exit $status
