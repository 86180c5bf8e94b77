#!/bin/bash
# Starts the server for browsers over a new document of people, projects, tasks and rules, and says which
# addresses to open.
#
#     examples/demo.sh [PORT]
#
# It takes the proved program where there is one, as `rt run` or `rt ci` leave it, and else builds it without
# proofs, which takes some minutes. The document is gone when the server ends, by Ctrl+C.
set -e
port=${1:-7070}
top=$(cd "$(dirname "$0")/.." && pwd)
words=(serve --lanes 24 --port "$port" --conns 1000000)
cd "$top/crates/grist_web"
python3 "$top/tools/fill_demo.py" "$port" &
trap 'kill %1 2>/dev/null || true' EXIT
if [ -x out/grist_web ]; then
    out/grist_web "${words[@]}" < "$top/examples/demo_users"
else
    echo "Building without proofs, which takes some minutes .." >&2
    rt try --seconds 1000000 -- "${words[@]}" < "$top/examples/demo_users"
fi
