#!/usr/bin/env bash
# Measures compilations on a server and hits of its cache: bench/run remote [RUNS]
exec python3 "$(dirname "$0")/measure.py" "$@"
