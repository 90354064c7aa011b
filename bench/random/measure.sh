#!/usr/bin/env bash
# Runs `dyncollate project` and plain C++ on projects made at random, and compares every file, line
# and status: measure.sh [PROJECTS [SEED]]. It fails if any differs. Nothing is timed: projects.py
# says what the projects are, and prints how they ended.
set -euo pipefail
here=$(cd "$(dirname "$0")" && pwd)
source "$here/../common.sh"
cd "$work"
python3 "$here/projects.py" "$tools/plain" "$program" "${1:-2000}" "${2:-$RANDOM}"
