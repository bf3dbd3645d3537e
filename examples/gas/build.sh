#!/usr/bin/env bash
# Builds kernel.elf from entry.S and kernel.ld by GNU as and ld, beside this file or in the folder that is named.
set -euo pipefail
here="$(cd "$(dirname "$0")" && pwd)"
out="${1:-$here}"
work="$(mktemp -d)"
trap 'rm -r "$work"' EXIT
as --64 -o "$work/entry.o" "$here/entry.S"
ld -n -static -T "$here/kernel.ld" -o "$out/kernel.elf" "$work/entry.o"
