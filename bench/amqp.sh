#!/bin/sh
# Times the reading and the writing of messages in the bytes of AMQP 1.0.
#
# usage: bench/amqp.sh [PROGRAM]
#
# PROGRAM is the built program of crates/sb_amqptime, by default crates/sb_amqptime/out/sb_amqptime, as the gate or
# `tools/build_program sb_amqptime` leaves it. For a body of 1 KiB and one of 1 MiB, beside ten user properties, it
# prints the time of a message, in ns, of the best of five runs; the time of a run without messages is taken off. It
# isn't part of the gate.
set -eu
program=${1:-$(dirname "$0")/../crates/sb_amqptime/out/sb_amqptime}

# The ns of the best of five runs over these words.
best() {
    least=
    for _ in 1 2 3 4 5; do
        begun=$(date +%s%N)
        "$program" "$@" >/dev/null
        took=$(($(date +%s%N) - begun))
        if [ -z "$least" ] || [ "$took" -lt "$least" ]; then
            least=$took
        fi
    done
    echo "$least"
}

row() {
    task=$1 size=$2 count=$3
    whole=$(best "$task" "$size" "$count")
    empty=$(best "$task" "$size" 0)
    echo "$task, a body of $size bytes: $(((whole - empty) / count)) ns"
}

row read 1024 1000000
row write 1024 1000000
row read 1048576 2000
row write 1048576 2000
