#!/usr/bin/env bash
# Runs the built program (its path is the one argument) where the outside fails it, and compares its
# statuses: no folder, files and folders that may not be written, standard streams that are closed, an
# output that is full or has no reader, a disk that is full. After each of them the journal must open.
# Where strace is there it also looks at the order of system calls: a record is written and synced, then
# its gate, and only then the reply is written; and that a look makes none that could change a file.
# As root it also tries what only an unprivileged user is refused, and the full disk (a tmpfs of 16 KiB).
set -u
program=$(realpath "${1:?the path of the program}") || exit 2
here=$(CDPATH= cd -- "$(dirname -- "$0")/.." && pwd) || exit 2
script="$here/examples/first.script"
work=$(mktemp -d) || exit 2
trap 'rm -rf "$work"' EXIT
chmod 755 "$work"
cp "$program" "$work/bus" && chmod 755 "$work/bus" && cd "$work" || exit 2
failed=0

# Compares a status with the one that is wanted.
expect() {
    if [ "$2" -eq "$3" ]; then
        echo "ok: $1: status $2"
    else
        echo "WRONG: $1: status $2, and not $3"
        failed=1
    fi
}

# The journal of a folder has to open.
opens() {
    ./bus run --data "$1" </dev/null >/dev/null
    expect "opening after: $1" $? 0
}

# Words that are no command: one line on standard output, and no folder is touched.
mkdir words
for words in "" "sing" "serve" "run" "run --data" "run words" "run --data words more" "client --port 0" "check --port 80"; do
    # shellcheck disable=SC2086
    told=$(./bus $words </dev/null 2>/dev/null)
    expect "the words: bus $words" $? 2
    case "$told" in
        "usage: bus COMMAND"*) [ "$(echo "$told" | wc -l)" -eq 1 ] || { echo "WRONG: $told" && failed=1; } ;;
        *) echo "WRONG: $told, and no usage line" && failed=1 ;;
    esac
done
[ -z "$(ls words)" ] || { echo "WRONG: the folder has $(ls words)" && failed=1; }

# What can't be had: nothing on standard output, and a line on standard error beside what a server says of itself.
refused() {
    told=$(./bus "$@" </dev/null 2>refused)
    expect "can't be had: bus $*" $? 11
    { [ -z "$told" ] && [ "$(grep -vcE '^bus: (listens on|the server ended)' refused)" -eq 1 ]; } || { echo "WRONG: $told and $(cat refused)" && failed=1; }
}
: >file
refused run --data none
refused check --data none
refused serve --data none --port 8080
refused run --data file
mkdir folder_for_file folder_for_file/a.journal
refused run --data folder_for_file

mkdir no_journal
./bus check --data no_journal --look
expect "a look at a folder without a journal" $? 11
[ -z "$(ls no_journal)" ] || { echo "WRONG: a look made $(ls no_journal)"; failed=1; }

mkdir closed_output
./bus run --data closed_output <"$script" >&-
expect "closed standard output" $? 4
opens closed_output

mkdir closed_input
./bus run --data closed_input <&-
expect "closed standard input" $? 3
opens closed_input

mkdir all_closed
./bus run --data all_closed <&- >&- 2>&-
expect "all standard streams closed" $? 3
opens all_closed

mkdir no_reader
./bus run --data no_reader <"$script" | head -c0
expect "an output that nobody reads" "${PIPESTATUS[0]}" 4
opens no_reader

mkdir full_output
./bus run --data full_output <"$script" >/dev/full
expect "a full output" $? 4
opens full_output

mkdir folder_as_input
./bus run --data folder_as_input <"$work"
expect "a folder as input" $? 3
opens folder_as_input

./bus serve >/dev/full
expect "a full output for the usage line" $? 2

# The calls that a run over this script makes, one letter each: r a reply, w a write to a file, s a sync. The first record
# is followed by zeros, which the next ones are written over. What comes due before a call is made safe with it.
calls_of() {
    strace -e trace=write,pwrite64,fsync,fdatasync -o trace ./bus run --data synced <"$1" >/dev/null || return 1
    sed -n -e 's/^write(1,.*/r/p' -e 's/^write(2,.*//p' -e 's/^p\{0,1\}write.*/w/p' -e 's/^f.*sync(.*/s/p' trace | tr -d '\n'
}

if strace -o /dev/null true 2>/dev/null; then
    mkdir synced && ./bus run --data synced </dev/null
    echo '{"do":"create-queue","name":"q"}' >create.script
    send='{"do":"send","to":"q","messages":[{"body":"a"}]}'
    printf '%s\n' "$send" "$send" "$send" >sends.script
    echo '{"do":"peek","from":"q","start":1,"count":1}' >peek.script
    echo '{"do":"send","to":"q","messages":[{"body":"a","ttl":1}]}' >expiring.script
    echo "{\"at\":2000,${send#\{}" >expired.script
    opening=$(calls_of /dev/null)
    for row in create:wwswsr sends:wwswsrwswsrwswsr peek:r expiring:wwswsr expired:wwswsr; do
        found=$(calls_of "${row%%:*}.script")
        if [ "$found" = "$opening${row#*:}" ]; then
            echo "ok: calls of ${row%%:*}: $found"
        else
            echo "WRONG: calls of ${row%%:*}: $found, and not $opening${row#*:}"
            failed=1
        fi
    done
    case "$opening" in
        *w* | *r* | '') echo "WRONG: calls of an opening: $opening" && failed=1 ;;
        *) echo "ok: calls of an opening: $opening" ;;
    esac
    strace -e trace=openat,write,pwrite64,ftruncate,flock,fsync,fdatasync -o trace ./bus check --data synced --look
    expect "a look" $? 0
    if grep -v '^write(1,' trace | grep -qE 'O_(WRONLY|RDWR|CREAT)|^(p?write|ftruncate|flock|f.*sync)'; then
        echo "WRONG: calls of a look: $(cat trace)"
        failed=1
    else
        echo "ok: a look opens for reading alone, and doesn't lock, write or sync"
    fi
fi

if [ "$(id -u)" -eq 0 ]; then
    mkdir read_only && chmod 555 read_only
    su nobody -s /bin/sh -c "'$work/bus' run --data '$work/read_only' </dev/null"
    expect "a folder that may not be written" $? 11

    mkdir read_only_files && ./bus run --data read_only_files </dev/null && chmod 444 read_only_files/*
    su nobody -s /bin/sh -c "'$work/bus' run --data '$work/read_only_files' </dev/null"
    expect "files that may not be written" $? 11
    su nobody -s /bin/sh -c "'$work/bus' check --data '$work/read_only_files' --look"
    expect "a look at files that may not be written" $? 0

    mkdir full_disk
    if mount -t tmpfs -o size=16k tmpfs full_disk; then
        body=$(printf 'x%.0s' $(seq 1000))
        {
            echo '{"do":"create-queue","name":"q"}'
            for _ in $(seq 40); do
                echo "{\"do\":\"send\",\"to\":\"q\",\"messages\":[{\"body\":\"$body\"}]}"
            done
        } >many.script
        ./bus run --data full_disk <many.script >replies
        expect "a full disk" $? 5
        [ "$(tail -n 1 replies)" = '{"refused":"DiskFault"}' ] || { echo "WRONG: no line says so"; failed=1; }
        sent=$(grep -c '"ok":"sent"' replies)
        kept=$(echo '{"do":"peek","from":"q","start":1,"count":100}' | ./bus run --data full_disk | grep -o '"seq"' | wc -l)
        if [ "$kept" -ge "$sent" ]; then
            echo "ok: $sent sends were acknowledged, $kept messages are there"
        else
            echo "WRONG: $sent sends were acknowledged, $kept messages are there"
            failed=1
        fi
        opens full_disk
        umount full_disk
    fi
fi
exit "$failed"
