#!/usr/bin/env bash
# The examples of the documents, and the form of the manual page.
set -u
cd "$(dirname "$0")/.." || exit 1
if command -v groff > /dev/null; then
    said=$(groff -t -ww -man -Tutf8 -z docs/tagset.1 2>&1)
    if [ -n "$said" ]; then
        echo "failed: docs/tagset.1: $said"
        exit 1
    fi
fi
exec python3 -B tests/documents.py
