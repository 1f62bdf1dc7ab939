#!/usr/bin/env bash
# Runs each benchmark, bench/*.sh. One that lacks something says so, and the others go on.
set -uo pipefail
cd "$(dirname "$0")/.." || exit 1
status=0
for bench in bench/*.sh; do
    echo "== $bench"
    "$bench" || status=1
done
exit $status
