#!/usr/bin/env bash
# Times a live master at a client in Python, beside `cat` at the same client, which gives each line back: calls a second,
# waves of all of 1,024 splits on 256 workers and of one of them, the opening with these, and a log of 65,536 commands
# told again. The least of five runs.
# usage: serve.sh
set -euo pipefail
cd "$(dirname "$0")/.."
exec python3 bench/serve.py "${MRJOB:-bin/mrjob}"
