#!/bin/sh
# Shows how many messages stand how in each queue, topic and subscription, with curl and awk alone: a line for each, behind
# one that tells whether the server carries out calls. DEAD is the messages of both subqueues, AGE the seconds since the first
# ready message was enqueued.
# usage: look.sh PORT [PREFIX]
# With PREFIX those alone whose names begin so. Where the server has a key, KEY_FILE in the environment names its file.
# The status is 1 where a subqueue has messages, 2 where the server doesn't carry out calls, or isn't asked so, and else 0.
if [ $# -lt 1 ] || [ $# -gt 2 ]; then
    echo "usage: look.sh PORT [PREFIX]" >&2
    exit 2
fi
server=http://127.0.0.1:$1 prefix=$2 after= status=0

# PATH: what the server answers there. The key goes by a pipe: whoever lists the processes doesn't see it.
ask() {
    if [ -n "$KEY_FILE" ]; then
        printf 'Authorization: Bearer %s\n' "$(head -n 1 "$KEY_FILE")" | curl -fsS -H @- "$server$1"
    else
        curl -fsS "$server$1"
    fi
}

ask '/$health' || exit 2
echo
while page=$(ask "/\$metrics?count=1000&prefix=$prefix${after:+&after=$after}") || exit 2; do
    # name{entity="A",part="P",state="S"} N: field 1 is the name, 3 A, 5 P, 7 S, and the last one has N
    table=$(printf '%s\n' "$page" | awk -F '[{="]+' -v now="$(date +%s)" '
        { value = $NF; sub(/.* /, "", value) }
        $1 == "zolmutarn_messages" {
            if (!($3 in row)) { row[$3] = ++rows; address[rows] = $3 }
            if ($5 == "main") count[$3, $7] = value
            else dead[$3] += value
        }
        $1 == "zolmutarn_oldest_seconds" && $5 == "main" { age[$3] = now - value }
        END {
            for (i = 1; i <= rows; i++) {
                a = address[i]
                printf "%-50s %8d %8d %8d %9d %8d %8s\n", a, count[a, "ready"], count[a, "held"], count[a, "deferred"],
                    count[a, "scheduled"], dead[a], a in age ? (age[a] < 0 ? 0 : int(age[a])) : "-"
            }
        }')
    [ -n "$after" ] || printf '%-50s %8s %8s %8s %9s %8s %8s\n' ENTITY READY HELD DEFERRED SCHEDULED DEAD AGE
    [ -z "$table" ] && break
    printf '%s\n' "$table"
    printf '%s\n' "$table" | awk '$6 > 0 { found = 1 } END { exit found }' || status=1
    [ "$(printf '%s\n' "$table" | wc -l)" -lt 1000 ] && break
    after=$(printf '%s\n' "$table" | awk 'END { print $1 }')
done
exit $status
