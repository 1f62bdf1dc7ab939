#!/usr/bin/env bash
# How long `mrjob check` takes on a text near the greatest length: 1,024 splits of 8 holders, 256 workers, each pair
# barred.
set -euo pipefail
cd "$(dirname "$0")/.."
text=$(mktemp)
trap 'rm -f "$text"' EXIT
scripts/make_texts.py large 1 > "$text"
echo "$(stat -c %s "$text") bytes, $(wc -l < "$text") lines"
TIMEFORMAT="%R s"
for _ in 1 2 3 4 5; do
    time "${MRJOB:-bin/mrjob}" check < "$text"
done
