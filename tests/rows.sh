#!/usr/bin/env bash
# The table of rows, over real files and standard output.
set -u
cd "$(dirname "$0")/.." || exit 1
if ! command -v python3 > /dev/null; then
    echo "failed: the table of rows needs python3, which is not installed"
    exit 1
fi
exec python3 -B tests/rows.py "$@"
