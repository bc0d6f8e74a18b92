#!/usr/bin/env bash
# Asks the nodes of a cluster one line, a node after the other until one has decided, and prints the last answer.
#
#   ask.sh LINE|- ADDRESS:PORT..     status 0 for OK, 1 for NO, 2 where no node answered or the words are wrong
#
# With - the line is the first one of standard input: the words of a command are seen by every user of the machine.
# It does what ask.py does, which says how. dd takes a datagram whole; bash's own read would take its first byte and
# lose the rest. An LF or a byte 0 of a datagram is read as a question mark, which no answer has. It asks plainly: a line
# under a client's key is asked by ask.py, or by ask of wakdulg.c.
set -u -o pipefail
export LC_ALL=C
of_the_node='TIMEOUT|BUSY|CLOCK'
of_the_line='UNKNOWN|PASSWORD|EXHAUSTED|INVALID|SPENT|THROTTLED [0-9]{1,20}'

# Sets now: hundredths of a second since the system began.
read_now() {
    read -r now _ < /proc/uptime
    now=$((10#${now/./}))
}

# Sets heard to the answer of the node on descriptor 3 to the line, or fails where it gives none. The second datagram is
# sent after 1 second, and the node is left after 2.5.
ask() {
    local now begin pause left words
    read_now
    begin=$now
    for pause in 100 250; do
        printf '%s' "$line" >&3 2> /dev/null || return 1
        while read_now && left=$((begin + pause - now)) && ((left > 0)); do
            printf -v words '%d.%02d' $((left / 100)) $((left % 100))
            heard=$(timeout "$words" dd bs=512 count=1 status=none <&3 2> /dev/null | tr '\0\n' '??')
            case $? in 0) ;; 124) break ;; *) return 1 ;; esac
            [[ $heard =~ ^("OK $nonce "[0-9]{1,20}|"NO $nonce "($of_the_line|$of_the_node)|NO - BADLINE)$ ]] && return 0
        done
    done
    return 1
}

refuse() { # FAULT
    printf 'ask.sh: %s\nusage: ask.sh LINE|- ADDRESS:PORT..\n' "$1" >&2
    exit 2
}

[ $# -ge 2 ] || refuse 'no ADDRESS:PORT'
for node in "${@:2}"; do
    [[ $node =~ ^[0-9]+(\.[0-9]+){3}:[0-9]{1,5}$ ]] || refuse "not an ADDRESS:PORT, as 192.0.2.1:717: $node"
done
line=$1 answer=
[ "$line" != - ] || IFS= read -r line || [ -n "$line" ] || line=
if [[ $line =~ ^(CHECK( [^ ]+){3}|RESYNC( [^ ]+){4})$ ]]; then
    line="${line%% *} $(od -An -N10 -tx1 /dev/urandom | tr -d ' \n') ${line#* }"
fi
read -r _ nonce _ <<< "$line"
for node in "${@:2}"; do
    { exec 3<> "/dev/udp/${node%:*}/${node#*:}"; } 2> /dev/null || continue
    ask && answer=$heard
    exec 3>&-
    [[ -z $answer || $answer =~ \ ($of_the_node)$ ]] || break
done
[ -n "$answer" ] || { echo 'ask.sh: no node answers' >&2; exit 2; }
echo "$answer"
[ "${answer%% *}" = OK ]
