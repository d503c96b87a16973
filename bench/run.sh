#!/usr/bin/env bash
# Builds the program where it is not built, and prints the times of its commands on generated sets.
set -eu
cd "$(dirname "$0")/.."
./tagset > /dev/null 2>&1 || [ $? -eq 3 ]
exec python3 bench/speed.py crates/tagset/out/tagset
