#!/usr/bin/env bash
# The lines and columns of places.
set -u
cd "$(dirname "$0")/.." || exit 1
exec python3 -B tests/where.py
