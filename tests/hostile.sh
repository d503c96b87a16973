#!/usr/bin/env bash
# Devices that fail, little memory, and input that is cut off.
set -u
cd "$(dirname "$0")/.." || exit 1
exec python3 -B tests/hostile.py
