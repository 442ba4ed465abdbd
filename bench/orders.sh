#!/bin/sh
# Whether what workers write is what some order writes: bench/orders.sh [RUNS] [EXAMPLE..]. See bench/orders.py.
root=$(cd "$(dirname "$0")/.." && pwd) || exit 2
exec python3 "$root/bench/orders.py" "$@"
