#!/usr/bin/env bash
# Measures `dyncollate collate`, the whole program with reading and writing, next to plain C++ that
# does the same and proves nothing, to an expert's program, and to cmake if it is there: measure.sh
# [LARGEST]. The targets are those of documents.py with 100, 1,000, 10,000 and 60,000 objects, as
# far as they have no more than LARGEST, and those of chain.py with 20,000. It fails if the programs
# do not write the same files. bench/common.sh says what is printed. The labels:
#   each, all      a scan document for each object, and one of all of them;
#                  after it the form of maps
#   cmake          cmake -E cmake_ninja_dyndep on the documents of each, by itself; what its dyndep
#                  file says must be what the program says, but its maps, for GCC, name only the
#                  modules that an object requires itself
#   chain, cycle   each object requires the module of the next; in a cycle the last one that of the
#                  first, and the error names all objects
set -euo pipefail
here=$(cd "$(dirname "$0")" && pwd)
source "$here/../common.sh"
largest=${1:-60000}
documents=$work/documents
directories=(obj/core obj/data obj/net obj/view)
rm -f "$work/measured."*

# size_of PATTERN: how many bytes the documents have together whose names match.
size_of() {
    find "$documents" -regextype egrep -regex ".*/($1)" -printf '%s\n' |
      awk '{ sum += $1 } END { print sum }'
}

# measure_cmake OBJECTS BYTES ROUNDS: cmake gets the documents that its own generator writes.
measure_cmake() {
    local directory=$work/cmake
    rm -rf "$directory"
    mkdir -p "$directory"
    (cd "$directory" && mkdir -p "${directories[@]}")
    # shellcheck disable=SC2046
    alone cmake.gcc "$1" "$2" "$3" 0 "$directory" "$(command -v cmake)" -E cmake_ninja_dyndep \
        --tdi=../documents/DyndepInfo.json --lang=CXX --modmapfmt=gcc --dd=./t.dd \
        $(seq -f '../documents/%.0f.ddi' 0 $(($1 - 1)))
    cmp <(what_it_says "$directory/t.dd") <(what_it_says "$work/program/t.dd") >&2
}

# measure_form FORM OBJECTS ROUNDS FILES: the target documents of one form, with all forms of maps;
# these files are read.
measure_form() {
    local map bytes
    bytes=$(size_of "$4")
    for map in none clang gcc; do
        clear "${directories[@]}"
        compare "$1.$map" "$2" "$bytes" "$3" 0 collate ../documents/"$1.$map".json \
          >> "$work/measured.$1.$map"
    done
}

# measure_size OBJECTS ROUNDS: targets of that many objects, from both forms of scan documents.
measure_size() {
    local objects=$1 rounds=$2 files='[0-9]+.ddi|each.none.json|lib[0-9].json'
    rm -rf "$documents"
    mkdir -p "$documents"/lib{0..9}
    generate collate/documents.py objects="$objects" d="$documents"
    measure_form each "$objects" "$rounds" "$files"
    if command -v cmake > /dev/null; then
        measure_cmake "$objects" "$(size_of "$files")" "$(((rounds + 3) / 4))" \
          >> "$work/measured.cmake"
    fi
    measure_form all "$objects" "$rounds" 'all.ddi|all.none.json|lib[0-9].json'
}

measure_chain() {
    local objects=20000 rounds=$1 status=0 shape
    for shape in chain cycle; do
        rm -rf "$documents"
        mkdir -p "$documents"
        generate collate/chain.py objects=$objects d="$documents" cycle="$status"
        clear
        compare $shape $objects "$(size_of "$shape.*")" "$rounds" "$status" collate \
          ../documents/$shape.json \
            >> "$work/measured.$shape"
        status=1
    done
}

# how many objects a target has, and how often it is collated
each_size measure_size '100 100' '1000 20' '10000 6' '60000 3'
measure_chain 5
report objects each.none each.clang each.gcc cmake all.none all.clang all.gcc chain cycle
