#!/usr/bin/env bash
# Measures what dyncollate-ninja adds to a Meson build: measure.sh [SOURCES..]. measure.py says what
# is measured and what it needs. DYNCOLLATE names the program; otherwise it is proved and built.
set -euo pipefail
here=$(cd "$(dirname "$0")" && pwd)
top=$(cd "$here/../.." && pwd)
if [ -z "${DYNCOLLATE:-}" ]; then
    "$top/dyncollate" one "$top/examples/b.ddi" mod .bmi > /dev/null
    export DYNCOLLATE=$top/crates/dyncollate/out/dyncollate
fi
exec python3 "$here/measure.py" "$@"
