#!/usr/bin/env bash
# Measures `dyncollate` on targets that link many others, the whole program with reading and
# writing, next to plain C++ that does the same and proves nothing: measure.sh [TARGETS]. The
# projects are those of documents.py with 100 objects per target and 50 to 1,000 targets, as far as
# they are no more than TARGETS. It fails if the programs do not write the same files.
# bench/common.sh says what is printed. The labels:
#   all         `project`, each target links all before it
#   last        `collate` of the last of these targets, from the info files that `project` wrote
#   twenty      `project`, each target links the first 20; with 10,000 targets the program alone
#   gcc         as all, with maps for GCC
#   single      `collate` of all targets, each in a run of its own, one after another; what they
#               write must be what `project` writes
#   cmake       cmake -E cmake_ninja_dyndep, if it is there, in the same way; its dyndep files must
#               say what the program's say
#   single.gcc, cmake.gcc  the same with maps for GCC; those of CMake have only the modules that an
#                          object requires directly
set -euo pipefail
here=$(cd "$(dirname "$0")" && pwd)
source "$here/../common.sh"
largest=${1:-1000}
documents=$work/documents
rm -f "$work/measured."*

# lay_out TARGETS LINKS NAME=VALUE..: writes the documents, and prints how many bytes they have.
lay_out() {
    rm -rf "$documents"
    mkdir -p "$documents"
    generate closure/documents.py targets="$1" each=100 links="$2" d="$documents" "${@:3}"
    clear obj/core obj/data obj/net obj/view
    find "$documents" -type f -printf '%s\n' | awk '{ sum += $1 } END { print sum }'
}

measure_all() {
    local targets=$1 rounds=$2 bytes
    bytes=$(lay_out "$targets" 0)
    compare all $((targets * 100)) "$bytes" "$rounds" 0 project ../documents/project.json \
      >> "$work/measured.all"
    bytes=$(find "$work/program" -name 't*.json' -printf '%s\n' |
      awk '{ sum += $1 } END { print sum }')
    # the expert's program has no `project`, so it gets all files but those of the last target
    cp -r "$work/program/." "$work/expert"
    rm "$work/expert/t$((targets - 1))".*
    compare last $((targets * 100)) "$bytes" "$rounds" 0 collate \
      "../documents/$((targets - 1)).json" >> "$work/measured.last"
}

measure_twenty() {
    local targets=$1 rounds=$2 bytes
    bytes=$(lay_out "$targets" 20)
    compare twenty $((targets * 100)) "$bytes" "$rounds" 0 project ../documents/project.json \
      >> "$work/measured.twenty"
}

# A million objects: plain C++ would take minutes.
measure_million() {
    local bytes
    bytes=$(lay_out 10000 20)
    alone twenty 1000000 "$bytes" 1 0 "$work/program" "$program" project ../documents/project.json \
      >> "$work/measured.twenty"
}

measure_gcc() {
    local targets=$1 rounds=$2 bytes
    bytes=$(lay_out "$targets" 0 map=gcc)
    compare gcc $((targets * 100)) "$bytes" "$rounds" 0 project ../documents/project.json \
      >> "$work/measured.gcc"
    measure_single single.gcc "$targets" "$bytes"
    [ -z "$cmake" ] || measure_cmake cmake.gcc "$targets" "$bytes" --modmapfmt=gcc
}

measure_none() {
    local targets=$1 bytes
    bytes=$(lay_out "$targets" 0)
    compare none $((targets * 100)) "$bytes" 1 0 project ../documents/project.json > /dev/null
    measure_single single "$targets" "$bytes"
    [ -z "$cmake" ] || measure_cmake cmake "$targets" "$bytes"
}

# one_by_one LABEL TARGETS BYTES DIR: measures the commands on standard input, one after another.
one_by_one() {
    cat > "$4/all"
    alone "$1" $(($2 * 100)) "$3" 1 0 "$4" "$(command -v bash)" -e ./all >> "$work/measured.$1"
}

# measure_single LABEL TARGETS BYTES: the program has just written the same files as a project.
measure_single() {
    local directory=$work/single target
    rm -rf "$directory"
    mkdir -p "$directory"/obj/{core,data,net,view}
    for ((target = 0; target < $2; target++)); do
        echo "'$program' collate ../documents/$target.json"
    done | one_by_one "$1" "$2" "$3" "$directory"
    rm "$directory/all"
    diff -r "$work/program" "$directory" >&2
}

# measure_cmake LABEL TARGETS BYTES OPTION..:
# CMake gets the documents that its own generator writes.
measure_cmake() {
    local directory=$work/cmake target
    rm -rf "$directory"
    mkdir -p "$directory"/obj/{core,data,net,view}
    for ((target = 0; target < $2; target++)); do
        mkdir "$documents/t$target" "$directory/t$target"
    done
    generate closure/documents.py targets="$2" each=100 links=0 cmake=1 d="$documents"
    for ((target = 0; target < $2; target++)); do
        echo "'$cmake' -E cmake_ninja_dyndep --tdi=../documents/t$target/DyndepInfo.json" \
            "--lang=CXX ${*:4} --dd=t$target/t.dd ../documents/t$target/{0..99}.ddi"
    done | one_by_one "$1" "$2" "$3" "$directory"
    for ((target = 0; target < $2; target++)); do
        cmp <(what_it_says "$directory/t$target/t.dd" | once) \
          <(what_it_says "$work/program/t$target.dd" | once) >&2
    done
}

# once: leaves each word of a line once, because cmake repeats the file of a module that a document
# requires twice. Without maps it has another extension for these files.
once() {
    awk '{
        gsub(/\.(gcm|bmi)/, "")
        split("", met)
        line = ""
        for (word = 1; word <= NF; word++) {
            line = line ($word in met ? "" : " " $word)
            met[$word] = 1
        }
        print line
    }'
}

cmake=$(command -v cmake || true)
each_size measure_all '100 5' '200 5' '400 3' '1000 1'
each_size measure_twenty '100 5' '400 3' '1000 3'
[ "$largest" -lt 1000 ] || measure_million
each_size measure_gcc '10 3' '20 1'
each_size measure_none 50 100 200 400
report objects all last twenty gcc single cmake single.gcc cmake.gcc
