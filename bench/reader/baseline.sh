#!/usr/bin/env bash
# Builds and runs split.cpp, and compares it with what the Rattle program printed: baseline.sh FILE.
# It prints for each text and each cutting how many million bytes a second both read, and how much
# longer DyndepReader takes. It fails if the two did not read the same bytes or found other paths.
set -euo pipefail
here=$(cd "$(dirname "$0")" && pwd)
work=$(cd "$(dirname "$1")" && pwd)
g++ -O2 -std=c++20 -o "$work/split" "$here/split.cpp"
"$work/split" | tee "$work/split.out"
echo
awk '
    # the columns: reading, statements, bytes, byte sum, paths, path sum, ms ..
    NR == FNR { text[$2] = $3 " " $4 " " $5 " " $6; ms[$2] = $7; next }
    FNR == 1 {
        printf "%-8s %10s %12s %8s %6s\n", \
            "reading", "statements", "Rattle MB/s", "C++ MB/s", "ratio"
        next
    }
    text[$2] != $3 " " $4 " " $5 " " $6 {
        print "not the same text or paths: " $0
        failed = 1
        exit
    }
    {
        rattle = $3 / $7 / 1e3
        printf "%-8s %10d %12.1f %8.1f %6.2f\n", $1, $2, rattle, $3 / ms[$2] / 1e3, $7 / ms[$2]
        compared++
    }
    END { exit failed || !compared }
' "$work/split.out" "$1"
