#!/usr/bin/env bash
# Measures what the table of modules takes, by the commands that make one, next to plain C++ that
# does the same with hash tables and proves nothing, and for targets to an expert's program:
# measure.sh [LARGEST]. There are up to 65,536 rules or objects, as far as they are no more than
# LARGEST. It fails if the programs do not write the same. bench/common.sh says what is printed. The
# labels:
#   one            a document whose rules provide a module and require four (one/document.py)
#   alone, linked  `collate` of the same without info files, and with 20 of 500 modules, of which
#                  each rule requires one (linked.py)
#   blocks         objects that need some 17 modules (collate/documents.py);
#                  after it the form of maps
#   layers         objects that need nearly all below them (layers.py); after it the form of maps,
#                  and those of 10,000 objects have 1.4 GB
#   bytes, text    a document whose names collide (collide.cpp), and each rule requires one
#   chain, cycle   each object requires the module of the next; in a cycle the last one that of the
#                  first, and the error names all objects (collate/chain.py)
set -euo pipefail
here=$(cd "$(dirname "$0")" && pwd)
source "$here/../common.sh"
largest=${1:-65536}
documents=$work/documents
mkdir "$documents"

# documents_of SCRIPT NAME=VALUE..: what the script writes, in a new directory for documents.
documents_of() {
    rm -rf "$documents"
    mkdir -p "$documents"/lib{0..9}
    generate "$@" d="$documents"
}

# bytes_of FILE..: how many bytes these documents have together.
bytes_of() {
    (cd "$documents" && cat "$@" | wc -c)
}

# measure_one LABEL RULES ROUNDS FILE: `one` of a scan document.
measure_one() {
    clear
    compare "$1" "$2" "$(bytes_of "$4")" "$3" 0 one "../documents/$4" mod .bmi \
        >> "$work/measured.$1"
}

# measure_target LABEL OBJECTS ROUNDS STATUS TARGET FILE..: `collate` of a target, and the documents
# that it reads.
measure_target() {
    clear obj/core obj/data obj/net obj/view
    compare "$1" "$2" "$(bytes_of "${@:5}")" "$3" "$4" collate "../documents/$5" \
        >> "$work/measured.$1"
}

measure_rules() {
    documents_of table/linked.py
    generate one/document.py rules="$1" required=4 > "$documents/alone.ddi"
    generate one/document.py rules="$1" required=4 libraries=20 > "$documents/linked.ddi"
    measure_one one "$1" "$2" alone.ddi
    measure_target alone "$1" "$2" 0 alone.json alone.ddi
    measure_target linked "$1" "$2" 0 linked.json linked.ddi lib{0..19}.json
}

measure_blocks() {
    local map
    documents_of collate/documents.py objects="$1"
    for map in none gcc; do
        measure_target "blocks.$map" "$1" "$2" 0 "all.$map.json" all.ddi lib{0..9}.json
    done
}

measure_layers() {
    local map
    documents_of table/layers.py objects="$1"
    for map in none gcc; do
        measure_target "layers.$map" "$1" "$2" 0 "layers.$map.json" layers.ddi
    done
}

measure_colliding() {
    local kind
    for kind in bytes text; do
        "$tools/collide" $kind "$1" > "$work/names"
        generate one/document.py rules="$1" required=1 names="$work/names" > "$documents/$kind.ddi"
        measure_one $kind "$1" "$2" $kind.ddi
    done
}

measure_chain() {
    local status=0 shape
    for shape in chain cycle; do
        documents_of collate/chain.py objects="$1" cycle=$status
        measure_target $shape "$1" "$2" $status $shape.json $shape.ddi
        status=1
    done
}

# how many rules or objects there are, and how often they are read
each_size measure_rules '1000 20' '10000 6' '60000 3'
each_size measure_blocks '10000 5' '60000 3'
each_size measure_layers '1000 5' '10000 1'
each_size measure_colliding '16384 3' '65536 1'
each_size measure_chain '10000 5' '65536 3'
report rules one alone linked blocks.none blocks.gcc layers.none layers.gcc bytes text chain cycle
