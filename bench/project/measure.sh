#!/usr/bin/env bash
# Measures `dyncollate project`, the whole program with reading and writing, next to plain C++ that
# does the same and proves nothing: measure.sh [OBJECTS]. The projects are those of documents.py
# with that many objects, a multiple of 1,000, or 20,000, in 10, 100 and 1,000 targets, without maps
# and with those of both forms.
# All have as many rules, and the linked info files have as many modules in total. It fails if the
# two do not write the same files. bench/common.sh says what is printed; the labels are the form of
# maps and the number of targets.
set -euo pipefail
here=$(cd "$(dirname "$0")" && pwd)
source "$here/../common.sh"
objects=${1:-20000}
documents=$work/documents

for map in none clang gcc; do
    for targets in 10 100 1000; do
        rm -rf "$documents"
        mkdir -p "$documents"
        generate project/documents.py targets=$targets objects="$objects" map=$map d="$documents"
        clear obj/core obj/data obj/net obj/view
        bytes=$(find "$documents" -type f -printf '%s\n' | awk '{ sum += $1 } END { print sum }')
        compare $map.$targets "$objects" "$bytes" 5 0 project ../documents/project.json
    done
done | table objects
