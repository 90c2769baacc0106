#!/bin/sh
# Checks the types of `labask` by mypy. Its settings are in ask/pyproject.toml.
cd "$(dirname "$0")/../ask" || exit 1
if ! command -v mypy >/dev/null; then
    echo "types of labask: skipped, since there is no mypy, which Debian has in its package mypy"
    exit
fi
said=$(mypy --no-incremental --cache-dir=/dev/null) || { printf '%s\n' "$said"; exit 1; }
