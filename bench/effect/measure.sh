#!/usr/bin/env bash
# Measures `dyncollate effect` and `dyncollate order`, the whole program with reading and writing,
# next to plain C++ that does the same and proves nothing: measure.sh [LARGEST]. The edge lists are
# those of listing.py with 1,000, 10,000 and 60,000 edges, as far as they have no more than LARGEST,
# and those of chain.py with 65,536. It fails if the two do not print the same. bench/common.sh says
# what is printed. The labels:
#   effect        the edge list after the effect of its dyndep file
#   order         the order of that list, in which four of five inputs are made by other edges
#   chain, cycle   the order of edges that each need the next; in a cycle the last one needs the
#                  first, and the line that
#                 says so has all of them
set -euo pipefail
here=$(cd "$(dirname "$0")" && pwd)
source "$here/../common.sh"
largest=${1:-60000}

# size_of FILE..: how many bytes the files have together.
size_of() {
    cat "$@" | wc -c
}

measure_size() {
    local edges=$1 rounds=$2
    generate effect/listing.py edges="$edges" d="$work"
    clear
    compare effect "$edges" "$(size_of "$work/listing" "$work/listing.dd")" "$rounds" 0 \
        effect t.dd ../listing ../listing.dd >> "$work/measured.effect"
    mv "$work/program/out" "$work/after"
    clear
    compare order "$edges" "$(size_of "$work/after")" "$rounds" 0 order ../after \
      >> "$work/measured.order"
}

measure_chain() {
    local edges=65536 rounds=$1 status=0 shape
    for shape in chain cycle; do
        generate effect/chain.py edges=$edges cycle=$status > "$work/$shape"
        clear
        compare $shape $edges "$(size_of "$work/$shape")" "$rounds" $status order ../$shape \
            >> "$work/measured.$shape"
        status=1
    done
}

# how many edges a list has, and how often it is read
each_size measure_size '1000 100' '10000 20' '60000 10'
measure_chain 10
report edges effect order chain cycle
