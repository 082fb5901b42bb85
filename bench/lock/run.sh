#!/bin/sh
# Measures the lock on two processors: the baseline and the ways to wait, and, where it was built, try_lock's bare turns.
# usage: bench/lock/run.sh        (from the top of the repository; `rt run` in crates/try_lock builds the program)
set -eu
tool=$(mktemp)
rustc -O bench/lock/waits.rs -o "$tool"
for way in mutex near yield backoff; do
    for threads in 1 2 4; do
        for round in 1 2 3; do
            printf '%-8s %s ' "$way" "$threads"
            taskset -c 0,1 "$tool" "$way" "$threads" $((1000000 / (threads * threads)))
        done
    done
done
rm "$tool"
demo=crates/try_lock/out/try_lock
if [ -x "$demo" ]; then
    for threads in 1 2 4; do
        for round in 1 2 3; do
            TIMEFORMAT='%R s elapsed, %U s user, %S s system' bash -c "time taskset -c 0,1 $demo $threads $((1000000 / (threads * threads)))"
        done
    done
fi
