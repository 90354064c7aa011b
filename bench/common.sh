# What the scripts measure.sh share: common.sh is sourced by them, after a line that sets here to
# their directory. It builds
#   plain    does what dyncollate does and proves nothing; it needs RapidJSON,
#            Debian's package rapidjson-dev
#   expert   does what `dyncollate collate` does, as fast as an expert makes it; it needs simdjson,
#            Debian's package libsimdjson-dev
#   floor    only reads and writes the same files
#   rounds   measures these programs
#   collide  finds names and paths that a hash table takes long for
# and it proves and builds dyncollate if that is not up to date. If DYNCOLLATE names a program,
# that is measured instead.
top=$(cd "$here/../.." && pwd)
flags=(-O3 -std=c++20)
[ "$(uname -m)" != x86_64 ] || flags+=(-march=x86-64-v2)
# the tools of these sources; others have another directory
sources=$(cat "$top"/bench/*.cpp "$top"/bench/{plain,expert}/* "$top"/bench/common.sh | sha256sum |
  cut -c 1-12)
kept=${TMPDIR:-/tmp}/dyncollate-bench
tools=$kept/tools-$sources
if [ ! -d "$tools" ]; then
    mkdir -p "$kept"
    building=$(mktemp -d -p "$kept")
    for source in plain/plain floor rounds collide; do
        g++ "${flags[@]}" -static -o "$building/$(basename "$source")" "$top/bench/$source.cpp"
    done
    g++ "${flags[@]}" -o "$building/expert" "$top/bench/expert/expert.cpp" -lsimdjson
    mv "$building" "$tools"
fi
# the documents and the written files are in memory if possible,
# because disks differ more than programs do
work=$(mktemp -d -p /dev/shm 2> /dev/null || mktemp -d)
trap 'rm -rf "$work"' EXIT
program=${DYNCOLLATE:-}
if [ -z "$program" ]; then
    "$top/dyncollate" one "$top/examples/b.ddi" mod .bmi > /dev/null
    program=$top/crates/dyncollate/out/dyncollate
fi
program=$(realpath "$program")

# generate SCRIPT NAME=VALUE..: runs a generator of bench/.
generate() {
    PYTHONPATH=$top/bench python3 -B "$top/bench/$1" "${@:2}"
}

# clear DIR..: the directories program, plain, expert and floor, in which they run, have these
# directories and nothing else.
clear() {
    for name in program plain expert floor; do
        rm -rf "${work:?}/$name"
        mkdir -p "$work/$name"
        (cd "$work/$name" && mkdir -p . "$@")
    done
}

# compare LABEL COUNT BYTES ROUNDS STATUS WORDS..: runs program and plain with the words that often,
# and also expert if the words are a `collate` that succeeds. It checks that they leave the same
# files and lines, and prints a line for table: the first three arguments, and what rounds prints of
# program, plain, floor and expert.
compare() {
    local others=(plain) run=("$work/program" "$program" "$work/plain" "$tools/plain"
      "$work/floor" "$tools/floor")
    (cd "$work/plain" && PLAIN_CALLS=$work/calls "$tools/plain" "${@:6}" > out 2> err) || true
    echo "end $5" >> "$work/calls"
    if [ "$5 $6" = "0 collate" ]; then
        others+=(expert)
        run+=("$work/expert" "$tools/expert")
    fi
    "$tools/rounds" "$4" "$5" "${run[@]}" -- "${@:6}" > "$work/measured"
    for other in "${others[@]}"; do
        diff -r "$work/program" "$work/$other" >&2
    done
    echo "$1" "$2" "$3" $(cat "$work/measured")
}

# alone LABEL COUNT BYTES ROUNDS STATUS DIR PROGRAM WORDS..: the same of one program, which runs in
# the directory DIR.
alone() {
    "$tools/rounds" "$4" "$5" "$6" "$7" -- "${@:8}" > "$work/measured"
    echo "$1" "$2" "$3" $(cat "$work/measured")
}

# what_it_says FILE: the statements of a dyndep file, without the empty lines of cmake's.
what_it_says() {
    sed -e 1d -e '/^$/d' "$1"
}

# table WHAT: prints the lines of compare and alone as a table (print_table.py).
table() {
    python3 "$top/bench/print_table.py" "$1"
}

# each_size FUNCTION 'COUNT ROUNDS'..: calls the function with both numbers,
# for each count that is no larger than largest.
each_size() {
    local function=$1 size count rounds
    for size in "${@:2}"; do
        read -r count rounds <<< "$size"
        if [ "$count" -le "$largest" ]; then
            "$function" "$count" "$rounds"
        fi
    done
}

# report WHAT LABEL..: the table of what was measured under these labels,
# in the files measured.LABEL.
report() {
    local label
    for label in "${@:2}"; do
        [ ! -f "$work/measured.$label" ] || cat "$work/measured.$label"
    done | table "$1"
}
