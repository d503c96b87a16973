#!/usr/bin/env bash
# Flat texts of random sets of modules, over real files and standard output.
set -u
cd "$(dirname "$0")/.." || exit 1
if ! command -v python3 > /dev/null; then
    echo "failed: the test of flat texts needs python3, which is not installed"
    exit 1
fi
exec python3 -B tests/flat_twice.py "$@"
