#!/usr/bin/env bash
# Times `score check` on legal traces: see measure.py. Build the program first: cd crates/score && rt run -- --help
#   run.sh [PROGRAM [BEFORE]]    BEFORE is another build, to which the time is compared in the same turns
set -euo pipefail
here=$(cd "$(dirname "$0")" && pwd)
exec python3 "$here/measure.py" "${@:-$here/../crates/score/out/score}"
