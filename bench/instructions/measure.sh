#!/usr/bin/env bash
# Counts the instructions that `dyncollate collate` takes, by what they are for, and all that plain
# C++, the expert's program and floor take: measure.sh [OBJECTS]. It needs valgrind, whose counts
# are the same on each machine with the same programs and libraries, whatever else runs. The targets
# are those of bench/collate. What the system does in a call is not counted, nor is memset
# (parts.py). The parts:
#   start, arguments   what a run takes before it reads a file
#   files              reading and writing, outside of the system
#   JSON, documents    trees of documents, and what is made of them
#   paths, names       canonical paths, and whether a text is a name
#   table, texts       who provides each module, and the texts that are written
#   program, library   the rest of the program, and of the kit's library
#   memory, copies     malloc and free; bytes that are copied or compared
set -euo pipefail
here=$(cd "$(dirname "$0")" && pwd)
source "$here/../common.sh"
objects=${1:-1000}
mkdir -p "$work"/documents/lib{0..9}
generate collate/documents.py objects="$objects" d="$work/documents"

# counted NAME PROGRAM WORDS..: profiles the program in the directory of that name.
counted() {
    (cd "$work/$1" && valgrind --tool=callgrind --callgrind-out-file="$work/profile.$1" "${@:2}" \
      > out 2> /dev/null)
}

# ratio PARTS: how many times all instructions of these parts the program takes.
ratio() {
    python3 -c "print(f'{${parts##* } / ${1##* }:.2f}')"
}

titles='%-10s %8s %9s %8s %9s %9s %9s %9s %9s %8s %8s %9s %9s %10s %10s %6s %10s %6s %9s\n'
# shellcheck disable=SC2059
printf "$titles" "" start arguments files JSON documents paths table texts program library memory \
  copies all C++ ratio expert ratio floor
for form in each.none each.clang each.gcc all.none; do
    clear obj/core obj/data obj/net obj/view
    (cd "$work/plain" && PLAIN_CALLS=$work/calls "$tools/plain" collate ../documents/$form.json \
      > out)
    echo "end 0" >> "$work/calls"
    counted program "$program" collate ../documents/$form.json
    counted plain "$tools/plain" collate ../documents/$form.json
    counted expert "$tools/expert" collate ../documents/$form.json
    counted floor "$tools/floor" collate ../documents/$form.json
    for other in plain expert; do
        diff -r "$work/program" "$work/$other" >&2
    done
    parts=$(python3 "$here/parts.py" "$work/profile.program")
    plain=$(python3 "$here/parts.py" "$work/profile.plain")
    expert=$(python3 "$here/parts.py" "$work/profile.expert")
    floor=$(python3 "$here/parts.py" "$work/profile.floor")
    # shellcheck disable=SC2086,SC2059
    printf "$titles" $form $parts "${plain##* }" "$(ratio "$plain")" "${expert##* }" \
      "$(ratio "$expert")" "${floor##* }"
done
