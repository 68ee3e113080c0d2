#!/bin/sh
# Makes the stored selection again, from its fixed seed, and reads it back.
# Usage: make_selection.sh [OUTDIR]
set -e
here=$(cd "$(dirname "$0")" && pwd)
out=${1:-$here/../selection}
for kind_and_count in sheets:300 tables:300 runs:100 warm:40; do
    kind=${kind_and_count%:*}
    python3 "$here/make_cases.py" 1 "${kind_and_count#*:}" "$kind" "$out"
    python3 "$here/replay.py" "$kind" "$out/$kind.txt"
done
