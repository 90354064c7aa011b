#!/usr/bin/env bash
# Measures `dyncollate one`, the whole program with reading and writing, next to plain C++ that does
# the same and proves nothing: measure.sh [REQUIRED]. The documents are those of document.py, in
# which each rule requires that many modules, or 4. It fails if the two do not write the same bytes.
# bench/common.sh says what is printed.
set -euo pipefail
here=$(cd "$(dirname "$0")" && pwd)
source "$here/../common.sh"
required=${1:-4}

# how many rules a document has, and how often it is read
for size in '1000 100' '10000 40' '60000 20'; do
    read -r rules rounds <<< "$size"
    document=$work/$rules.ddi
    generate one/document.py rules="$rules" required="$required" > "$document"
    clear
    compare one "$rules" "$(stat -c %s "$document")" "$rounds" 0 one "$document" mod .bmi
done | table rules
