# A cluster of three nodes on free ports of 127.0.0.1, for the scripts run-it of examples/ and dist/. It is sourced
# by a script of bash, which has set `site` to the name that its messages have.
#
#   need COMMAND..                ends with status 77 where a command isn't there, and names it; need_root likewise
#   enter_namespace               runs the script once more in a mount namespace of its own, with $work in memory
#   make_root                     makes a Debian of its own in $root, over that of CHROOT, else by debootstrap
#   find_programs                 sets oathd and oathtool to program files
#   make_cluster                  makes in $work: key, cluster (its cluster file), clients (client 7, the front end, has
#                                 front.key, and client 8, as which this script asks, has ask.key), users (u1 to u99, an
#                                 event token each with the secret of RFC 4226; pin with the password hunter2; plus with
#                                 the password +; seven and eight of 7 and 8 digits; clock1 to clock30, time tokens;
#                                 probe1 to probe3, time tokens with the password watchword), and three databases; and
#                                 starts the nodes
#   start_node I [CLUSTER USERS]  starts node I and waits until it answers, with other files than those
#   kill_node I                   ends it at once
#   begin STEP                    names what comes next
#   same WHAT WANTED GOT          ends the script where both differ
#   await COMMAND..               waits until it succeeds, two minutes at most
#   code N                        the code of counter N
#
# $front_key is `7:FILE`, as front ends take it; no node takes a plain line. $nodes has the three addresses, $free a
# fourth port, which nobody has by UDP nor by TCP. What `pids` names is killed at the end, and $work is removed. OATHD is
# the program, else ./oathd. At a fault the status is 1, and standard error names the step, after the last lines of the
# files that `logs` names.
set -eu
top=$(cd "$(dirname "${BASH_SOURCE[0]}")/../.." && pwd)
oathd=${OATHD:-$top/oathd}
secret=3132333435363738393031323334353637383930
step='the beginning'
front_key=
ask_key=
pids=()
logs=()
work=$(mktemp -d)
export PYTHONDONTWRITEBYTECODE=1

clean_up() {
    local status=$? pid
    trap - EXIT
    for pid in "${pids[@]}"; do
        kill -9 "$pid" 2> /dev/null || true
        wait "$pid" 2> /dev/null || true
    done
    if [ $status != 0 ] && [ $status != 77 ]; then
        [ ${#logs[@]} = 0 ] || tail -n 20 "${logs[@]}" >&2 2> /dev/null || true
        echo "$site: failed at: $step" >&2
    fi
    # What else is mounted there goes with the namespace.
    ! mountpoint -q "$work" || umount -l "$work"
    rm -rf --one-file-system "$work"
    exit $status
}
trap clean_up EXIT
trap 'exit 130' INT TERM HUP

begin() {
    step=$1
    echo "$site: $step"
}

same() {
    step=$1
    [ "$2" = "$3" ] || { echo "$site: $1: wanted: $2, got: $3" >&2; exit 1; }
    echo "$site: $1: $3"
}

await() {
    local end=$((SECONDS + 120))
    until "$@"; do
        [ $SECONDS -lt $end ] || { echo "$site: two minutes, and not yet: $*" >&2; exit 1; }
        sleep 0.05
    done
}

need() {
    local each
    for each in "$@"; do
        [ -n "$(PATH=$PATH:/usr/sbin:/sbin type -P "$each")" ] || { echo "$site: needs $each" >&2; exit 77; }
    done
}

need_root() {
    [ "$(id -u)" = 0 ] || { echo "$site: needs root" >&2; exit 77; }
}

# Whether this process has another mount namespace than the one that started it, and than process 1. No variable of the
# environment says so: one that is left over would have the script mount over the machine's own /etc.
is_inside() {
    local own
    own=$(readlink /proc/$$/ns/mnt)
    [ "$own" != "$(readlink /proc/$PPID/ns/mnt)" ] && [ "$own" != "$(readlink /proc/1/ns/mnt)" ]
}

enter_namespace() {
    need_root
    if ! is_inside; then
        rm -rf "$work"
        exec unshare --mount "$0"
    fi
    step='a mount namespace'
    mount -t tmpfs -o mode=700 none "$work"
}

# SUITE and MIRROR are what debootstrap takes, those of this machine if they aren't set.
make_root() {
    local base=${CHROOT:-$work/base} suite
    root=$work/root
    if [ -z "${CHROOT:-}" ]; then
        begin 'debootstrap'
        logs=("$work/debootstrap.log")
        suite=${SUITE:-$(. /etc/os-release; echo "$VERSION_CODENAME")}
        debootstrap --include=systemd,dbus,man-db,bash-completion,gunicorn,python3-flask,python3-argon2,python3-cryptography "$suite" "$base" \
            ${MIRROR:+"$MIRROR"} > "$work/debootstrap.log"
    fi
    step='a Debian of its own'
    mkdir "$work/upper" "$work/below" "$root"
    mount -t overlay overlay -o "lowerdir=$base,upperdir=$work/upper,workdir=$work/below" "$root"
}

# The program that was built, or the one that was compiled without proof.
newer_of() {
    local built=$top/crates/$1/out/$1
    [ "$built" -nt "$top/.unproved/$1" ] && echo "$built" || echo "$top/.unproved/$1"
}

# OATHD and OATHTOOL, else the built ones where they are current, else those that are compiled without proof.
find_programs() {
    begin 'programs are compiled, where there are no current ones'
    # A command over a database wants the whole program.
    [ -n "${OATHD:-}" ] || "$top/oathd" export --help > "$work/out"
    [ -n "${OATHTOOL:-}" ] || "$top/oathtool" --help > "$work/out"
    oathd=$(realpath "${OATHD:-$(newer_of oathd)}")
    oathtool=$(realpath "${OATHTOOL:-$(newer_of oathtool)}")
}

code() {
    python3 -c 'import hmac, sys
digest = hmac.digest(bytes.fromhex(sys.argv[1]), int(sys.argv[2]).to_bytes(8, "big"), "sha1")
at = digest[19] & 15
print("%06d" % ((int.from_bytes(digest[at:at + 4], "big") & 0x7fffffff) % 10**6))' "$secret" "$1"
}

# Four ports, below those that the system gives to a socket that asks for any.
take_ports() {
    local ports
    ports=$(python3 - <<'PY'
import random, socket

def is_free(port):
    for kind in socket.SOCK_DGRAM, socket.SOCK_STREAM:
        with socket.socket(socket.AF_INET, kind) as each:
            try:
                each.bind(("0.0.0.0", port))
            except OSError:
                return False
    return True

ports = [port for port in random.sample(range(20000, 32000), 200) if is_free(port)]
print(*ports[:4])
PY
)
    read -r -a port <<< "$ports"
    nodes=127.0.0.1:${port[0]},127.0.0.1:${port[1]},127.0.0.1:${port[2]}
    free=${port[3]}
}

# Prints a cluster file of the three nodes, with another life where one is named.
write_cluster_file() { # KEY_FILE [LIFE]
    local node
    for node in 1 2 3; do echo "member $node 127.0.0.1:${port[$node - 1]}"; done
    printf '%s\n' "key-file $1" "life ${2:-1}"
}

make_cluster() {
    local name node user
    begin 'three nodes are made and started'
    take_ports
    (
        umask 077
        for name in key front.key ask.key; do "$oathd" new-key > "$work/$name"; done
        printf 'client %s\n' "7 $(cat "$work/front.key")" "8 $(cat "$work/ask.key")" > "$work/clients"
        write_cluster_file "$work/key" > "$work/cluster"
        {
            for user in {1..99}; do echo "HOTP u$user - $secret"; done
            echo "HOTP pin hunter2 $secret"
            echo "HOTP plus + $secret"
            echo "HOTP/E/7 seven - $secret"
            echo "HOTP/E/8 eight - $secret"
            for user in clock{1..30}; do echo "HOTP/T30 $user - $secret"; done
            for user in probe{1..3}; do echo "HOTP/T30 $user watchword $secret"; done
        } > "$work/users"
        for node in 1 2 3; do
            "$oathd" init "$work/node$node.db" "$work/users" --node $node --cluster "$work/cluster" --moment 0 \
                > "$work/made$node"
        done
    )
    front_key=7:$work/front.key ask_key=8:$work/ask.key
    for node in 1 2 3; do
        start_node $node
    done
}

# Whether a node answers. It has to be running.
answers() {
    kill -0 "${pids[$1]}" || { echo "$site: node $1 has ended" >&2; exit 1; }
    [ "$("$top/examples/clients/ask.py" ${ask_key:+--key-file "$ask_key"} 'CHECK up nobody 000000 -' \
        "$1=127.0.0.1:${port[$1 - 1]}" 2> /dev/null)" = 'NO up UNKNOWN' ]
}

start_node() {
    "$oathd" serve "$work/node$1.db" "${3:-$work/users}" --node "$1" --cluster "${2:-$work/cluster}" \
        --clients "$work/clients" --forever &
    pids[$1]=$!
    await answers "$1"
}

# Ends the process that stands at this place of `pids`: 1 to 3 are the nodes.
kill_node() {
    kill -9 "${pids[$1]}"
    wait "${pids[$1]}" 2> /dev/null || true
    unset "pids[$1]"
}
