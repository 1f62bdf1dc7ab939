#!/usr/bin/env bash
# How long `certify` takes, and `certify_on`, whose longest pass runs on many threads, on problems of full size:
# 1,024 splits of 8 holders, 256 workers in 32 racks. Of each the least of twenty calls.
set -euo pipefail
cd "$(dirname "$0")/.."
program=$(scripts/bench_program.py bench_certify)
"$program" time
