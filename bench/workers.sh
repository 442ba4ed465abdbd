#!/bin/sh
# What workers cost and gain, as ratios: bench/workers.sh [-t TURNS] [FIGURE..]. See bench/workers.py.
root=$(cd "$(dirname "$0")/.." && pwd) || exit 2
exec python3 "$root/bench/workers.py" "$@"
