#!/usr/bin/env bash
# Prints what `dyncollate collate` and `cmake -E cmake_ninja_dyndep` do with the same scan
# documents, most of which are faulty: a Markdown table with a line for each, with the status and
# the first line on standard error, or that files were written and what Ninja then reports, if it
# fails. The script fails if docs/COMPARED.md has another table. If the page is about other versions
# of CMake and Ninja than the installed ones, CMake's column is not compared. DYNCOLLATE names
# another program to call.
set -euo pipefail
here=$(cd "$(dirname "$0")" && pwd)
program=$(realpath "${DYNCOLLATE:-$here/../../crates/dyncollate/out/dyncollate}")
room=$(mktemp -d)
trap 'rm -rf "$room"' EXIT
page=$(realpath "$here/../../docs/COMPARED.md")
cd "$room"

# result COMMAND..: what a cell says of a run: the status and the first line on standard error, or
# that files were written.
result() {
  local status=0 said
  "$@" > /dev/null 2> err || status=$?
  if [ "$status" = 0 ] && [ ! -s err ]; then
    said=$(ninja 2>&1 | sed -n 's/^ninja: error: //p')
    echo "written${said:+; Ninja: \`$said\`}"
  else
    printf 'status %s, `%s`\n' "$status" \
      "$(head -n 1 err | sed 's/^-E cmake_ninja_dyndep //; s/^CMake Error: //')"
  fi
}

# row WHAT DOCUMENT..: what both do with these scan documents. As CMake's generator does, this lists
# for cmake the objects whose sources provide modules.
row() {
  local number=0 text found names=() sources=() objects=()
  rm -rf mod obj t.dd t.json ./*.ddi
  mkdir -p mod obj
  for text in "${@:2}"; do
    printf '%s' "$text" > $number.ddi
    names+=("$number.ddi")
    mapfile -t found < <(grep -o 'obj/..o' <<< "$text")
    objects+=("${found[@]}")
    if [[ $text = *'"provides":[{'* ]]; then
      sources+=("\"${found[0]-}\":{\"name\":\"fs\",\"source\":\"/s/$number.cppm\",
        \"relative-directory\":\"\",\"type\":\"CXX_MODULES\",\"visibility\":\"PUBLIC\",
        \"destination\":null}")
    fi
    number=$((number + 1))
  done
  printf '{"version":1,"target":"t","module-dir":"mod","module-ext":".gcm","map":"gcc",
    "dyndep":"t.dd","info":"t.json","scans":[%s]}' \
    "$(printf '"%s"\n' "${names[@]}" | paste -sd ,)" > t.target.json
  printf '{"language":"CXX","compiler-id":"GNU","dir-cur-bld":"/b","dir-cur-src":"/s",
    "dir-top-bld":"/b","dir-top-src":"/s","include-dirs":[],"module-dir":"mod",
    "linked-target-dirs":[],"bmi-installation":null,"exports":[],"config":"",
    "cxx-modules":{%s}}' "$(IFS=,; echo "${sources[*]}")" > DyndepInfo.json
  printf 'rule touch\n  command = mkdir -p mod && touch $out\n' > build.ninja
  [ ${#objects[@]} = 0 ] ||
    printf 'build %s: touch || t.dd\n  dyndep = t.dd\n' $(printf '%s\n' "${objects[@]}" | sort -u) \
      >> build.ninja
  printf '| %s | %s | %s |\n' "$1" "$(result "$program" collate t.target.json)" \
    "$(result cmake -E cmake_ninja_dyndep --tdi=DyndepInfo.json --lang=CXX --modmapfmt=gcc \
      --dd=./t.dd "${names[@]}")"
}

# document RULE: a document of one rule.
document() { printf '{"version":1,"revision":0,"rules":[%s]}' "$1"; }
# rule OBJECT PROVIDED REQUIRED..: a document of a rule; PROVIDED may be empty.
rule() {
  local provided=
  [ -z "$2" ] ||
    provided="{\"logical-name\":\"$2\",\"is-interface\":true,\"source-path\":\"/s/$1.cppm\"}"
  document "{\"primary-output\":\"obj/$1.o\",\"provides\":[$provided],\"requires\":[$(
    printf '{"logical-name":"%s"}\n' "${@:3}" | grep -v '""' | paste -sd ,)]}"
}

# rows: the table.
rows() {
  printf '| %s | `dyncollate collate` | `cmake -E cmake_ninja_dyndep` %s, then Ninja %s |\n' \
    "scan documents" "$(cmake --version | awk 'NR == 1 { print $3 }')" "$(ninja --version)"
  echo '|---|---|---|'
  row "a module, and an object that imports it" "$(rule a A)" "$(rule b "" A)"
  row "two objects provide one module" "$(rule a A)" "$(rule b A)"
  row "nobody provides the imported module" "$(rule a A B)"
  row "three objects import each other in a cycle" "$(rule a A B)" "$(rule b B C)" "$(rule c C A)"
  row "an object imports its own module" "$(rule a A A)"
  row "two documents have the same object" "$(rule a A)" "$(rule a B)"
  row 'modules `M:P` and `M-P`, which have the same BMI' "$(rule a M:P)" "$(rule b M-P)"
  row 'a module named `a b`' "$(rule a 'a b')"
  row 'a module named `A/../../x`' "$(rule a 'A/../../x')"
  row "a header unit is imported" "$(document '{"primary-output":"obj/a.o","requires":[
    {"logical-name":"x.h","lookup-method":"include-angle"}]}')"
  row "a document with the rules of two sources" \
    "$(rule a A | sed 's/]}$//'),$(rule b B | sed 's/.*"rules":\[//')"
  row "version 2" '{"version":2,"revision":0,"rules":[]}'
  row "a rule without an object" "$(document '{"requires":[]}')"
  row '`requires` is a string' "$(document '{"primary-output":"obj/a.o","requires":"A"}')"
  row "a truncated document" '{"version":1,"revision":0,"rules":[{"primary-output":"obj/a.o"'
  row "an empty document" ''
  row "extra text after the document" "$(rule a A) x"
}

# The position that CMake 3.25.1 prints for a truncated document varies from run to run.
without_positions() { sed 's/Line [0-9]*, Column [0-9]*`/Line .., Column ..`/'; }

rows | tee table
without_positions < table > printed
sed -n '/^| scan documents |/,/^$/{/./p}' "$page" | without_positions > expected
if [ "$(head -n 1 printed)" != "$(head -n 1 expected)" ]; then
  echo "docs/COMPARED.md is about other versions of CMake and Ninja:" \
    "only the results of dyncollate are compared" >&2
  for side in printed expected; do
    cut -d '|' -f 2,3 $side > columns
    mv columns $side
  done
fi
if ! diff expected printed >&2; then
  echo "docs/COMPARED.md (<) has another table than the one printed (>)" >&2
  exit 1
fi
