#!/bin/bash
# Measures what recording costs: ./cost.sh writes a table of microseconds for each step, at 1, 4 and 16 threads.
set -eu
here=$(cd "$(dirname "$0")" && pwd)
made=$(mktemp -d)
trap 'rm -rf "$made"' EXIT
cd "$made"
gcc -O2 -shared -fPIC "$here/rdpreload.c" -o librdpreload.so -ldl
g++ -std=c++20 -O2 -pthread -I "$here" "$here/cost.cpp" -o plain
g++ -std=c++20 -O2 -pthread -DBY_HAND -I "$here" "$here/cost.cpp" -o by_hand
export RDRECORD=$made/run.trace
row() {                                       # WHAT STEPS COMMAND ..
    what=$1 steps=$2
    shift 2
    echo -n "| $what |"
    for kind in calls locks; do
        for threads in 1 4 16; do echo -n " $("$@" $kind $threads "$steps")|"; done
    done
    echo
}
echo "| | a call: 1 thread | 4 | 16 | a lock pair: 1 | 4 | 16 |"
echo "|---|---|---|---|---|---|---|"
row "unrecorded" 400000 ./plain
row "preloaded, no shaking" 400000 env LD_PRELOAD=./librdpreload.so RDRECORD_SHAKING=no ./plain
row "preloaded" 20000 env LD_PRELOAD=./librdpreload.so ./plain
row "preloaded, logs, no shaking" 400000 env LD_PRELOAD=./librdpreload.so RDRECORD_LOGS=yes RDRECORD_SHAKING=no ./plain
row "by hand, no shaking" 400000 env RDRECORD_SHAKING=no ./by_hand
row "by hand" 20000 ./by_hand
