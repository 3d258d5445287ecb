# Shared by the measurements; source it. It sets $here, this folder, and $work, a folder that is removed at the end.
set -eu
here=$(cd "$(dirname "${BASH_SOURCE[0]}")" && pwd)
work=$(mktemp -d)
trap 'rm -rf "$work"' EXIT
export PYTHONPATH=$here PYTHONDONTWRITEBYTECODE=1

# rolling_trace RECORDS SEED KIND: a trace of trace.py with a rolling log of 65,536 events
rolling_trace() {
    python3 "$here/trace.py" "$@" | sed -E '1s/^open,([0-9]+),([0-9]+),[0-9]+,/rolling,\1,\2,65536,/'
}
