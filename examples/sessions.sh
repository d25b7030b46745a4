#!/bin/sh
# Works off the sessions of a queue one after the other, with curl alone: prints each message behind the session's id, in
# the order in which they were sent, and has each session remember how many messages it gave.
# usage: sessions.sh PORT QUEUE
# The queue is one with "requires_session":true; each message names its session in SessionId. Several of these may run at
# once: a session has one holder at a time. What a run that dies held comes back once its lock has ended. No receive renews
# a session's lock, so it's renewed before each message; where the work on one takes longer, meanwhile too.
if [ $# -ne 2 ]; then
    echo "usage: sessions.sh PORT QUEUE" >&2
    exit 2
fi
port=$1 queue=$2
came=$(mktemp -d) || exit 1
trap 'rm -r "$came"' EXIT

# METHOD URL [BODY]: asks for it. The status stands in $status, and what came in the files head and body.
ask() {
    : >"$came/body"
    status=$(curl -sS -X "$1" -D "$came/head" -o "$came/body" -w '%{http_code}' "$2" ${3+--data-binary "$3"}) || exit 1
    case $status in
    20[014]) ;;
    *) echo "$1 $2 was answered $status $(cat "$came/body")" >&2 && exit 1 ;;
    esac
}

# Where what was received or accepted is asked for further.
location() {
    tr -d '\r' <"$came/head" | sed -n 's/^Location: //p'
}

while ask POST "http://127.0.0.1:$port/$queue/sessions/head?timeout=0" && [ "$status" = 201 ]; do
    session=$(location)
    id=${session%/*}
    id=${id##*/}
    ask GET "$session/state"
    had=$(cat "$came/body")
    while ask POST "$session" && ask POST "$session/messages/head?timeout=0" && [ "$status" = 201 ]; do
        message=$(location)
        echo "$id $(cat "$came/body")"
        ask DELETE "$message"
        had=$((had + 1))
        ask PUT "$session/state" "$had"
    done
    ask DELETE "$session"
done
