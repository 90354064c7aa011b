#!/usr/bin/env bash
# Measures what documents take that are made to be expensive, up to the limits of docs/FORMATS.md:
# measure.sh [ROUNDS]. It fails if a run does not end with the status and the first line that are
# said here, or if plain C++ leaves other files. For each document it prints the processor time of
# the fastest round, that per byte of the document, the most memory, and that as a multiple of the
# document; then `time` if the time is more than three times what C++ takes, or than 50 ns per byte
# if C++ does not take the document, and `memory` if the multiple is more than ten. Then pairs.py
# measures inputs next to ordinary ones of the same size, and this fails if one takes more than
# twice the time (plugins: 1.5 times).
set -euo pipefail
here=$(cd "$(dirname "$0")" && pwd)
source "$here/../common.sh"
rounds=${1:-3}
document=$work/document
begun='ninja_dyndep_version = 1'
not_json='dyncollate: scan 0: S1 NotJson document'
not_object='dyncollate: scan 0: S3 BadShape document member document'
least_cycle='dyncollate: M8 ImportCycle obj/core/m0.o -> obj/data/m1.o -> obj/net/m2.o -> *'

# prints LABEL FILE LINE: fails if the first line of a file that the program left does not match the
# pattern LINE, or if it printed something else.
prints() {
    local line other=err
    [ "$2" != err ] || other=out
    line=$(head -n 1 "$work/program/$2")
    # shellcheck disable=SC2053
    if [[ $line != $3 || -s $work/program/$other ]]; then
        echo "$1: $2 begins with ${line:0:200}, and should have $3, and nothing else be printed" >&2
        return 1
    fi
}

# one LABEL STATUS LINE: `one` of the document that is there.
one() {
    local file=out
    [ "$2" = 0 ] || file=err
    clear
    compare "$1" 1 "$(stat -c %s "$document")" "$rounds" "$2" one ../document mod .bmi
    prints "$1" $file "$3"
}

# filled LABEL STATUS LINE BEFORE PIECE AFTER: `one` of 16 MiB of the pieces, between the others.
filled() {
    python3 "$here/fill.py" "${@:4}" > "$document"
    one "${@:1:3}"
}

# ignored LABEL STATUS LINE BEFORE PIECE AFTER: the same if all of them are the value of a member
# that is ignored, in a document of no rules.
ignored() {
    filled "${@:1:3}" "{\"ignored\":$4" "$5" "$6,\"rules\":[],\"version\":1}"
}

# objects LABEL RULES BYTES: rules of one member, a path of that many bytes.
objects() {
    generate hostile/objects.py rules="$2" bytes="$3" > "$document"
    one "$1" 0 "$begun"
}

# named LABEL RULES FILE: rules whose modules have the names of the file, and each require one.
named() {
    generate one/document.py rules="$2" required=1 names="$3" > "$document"
    one "$1" 0 "$begun"
}

# chain LABEL CYCLE STATUS FILE LINE: `collate` of 65,536 objects that each require the next one.
chain() {
    rm -rf "$work/documents"
    mkdir "$work/documents"
    generate collate/chain.py objects=65536 cycle="$2" d="$work/documents"
    clear
    compare "$1" 1 "$(cat "$work/documents/$1".* | wc -c)" "$rounds" "$3" \
        collate "../documents/$1.json"
    prints "$1" "$4" "$5"
}

# C++ does not take this one: RapidJSON calls itself for each array that begins.
brackets() {
    python3 "$here/fill.py" '' '[' '' > "$document"
    clear
    alone brackets 1 "$(stat -c %s "$document")" "$rounds" 1 "$work/program" "$program" \
        one ../document mod .bmi
    prints brackets err "$not_json"
}

deep=$(printf '[%.0s' {1..100})$(printf ']%.0s' {1..100})
{
    ignored arrays 0 "$begun" '[' '[],' '0]'
    ignored nested 0 "$begun" '[' "$deep," '0]'
    ignored objects 0 "$begun" '[' '{"a":1},' '0]'
    ignored numbers 0 "$begun" '[' '0,' '0]'
    ignored string 0 "$begun" '"' aaaaaaaa '"'
    ignored escapes 0 "$begun" '"' '\u00e9' '"'
    # a number that no float can hold, and one that is near to a tenth
    ignored digits 1 "$not_json" '' 11111111 ''
    ignored fraction 0 "$begun" 0. 11111111 ''
    # one member as often as fits
    filled keys 0 "$begun" '{' '"x":1,' '"rules":[],"version":1}'
    filled versions 0 "$begun" '{' '"version":1,' '"rules":[],"version":1}'
    # no object
    filled top 1 "$not_object" '[' '[],' '0]'
    brackets
    objects rules 65536 0
    objects paths 4070 4096
    named names 7500 <(seq -f 'm%01023.0f' 0 7499)
    named bytes 65536 <("$tools/collide" bytes 65536)
    named text 65536 <("$tools/collide" text 65536)
    chain chain 0 0 t.dd "$begun"
    chain cycle 1 1 err "$least_cycle"
} | python3 "$here/limits.py"
python3 "$here/pairs.py" "$program" "$tools/collide" "$rounds"
