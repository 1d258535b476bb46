# Apache serves two ports under load while workers are killed by SIGKILL, one at a time and at random: a killed one that held
# the accept mutex gives it back, or nobody is served any more. Then every request has to be answered, the mutex has to be held
# once, with all other workers asleep for it, and after a graceful stop no set may be left. Writes the same at each run. Logs
# and pages are in the present folder. Run it as a user who is not root: as root Apache hands its semaphore on by IPC_SET.
# usage: bash apache.sh [KILLS]
set -u
kills=${1:-40} workers=5
conf=$(cd "$(dirname "$0")" && pwd)/apache.conf
export PLACE=$PWD PORT=$((20000 + $$ % 10000)) OTHER_PORT=$((30000 + $$ % 10000))
RANDOM=2026

# Tries a command four times a second, for twenty seconds at most.
until_so() { # COMMAND...
    for _ in {1..80}; do
        "$@" && return
        sleep 0.25
    done
    echo "in vain: $*"
    return 1
}

alive() { cat "/proc/$server/task/$server/children"; }
all_alive() { [ "$(alive | wc -w)" -eq "$workers" ]; }
answers() { ab -q -s 1 -n 1 "http://127.0.0.1:$1/seats" >/dev/null 2>&1; }

# The mutex as it stands: its value, and how many are asleep for it.
mutex() { ipcs -s -i "$(ipcs -s | awk '/^0x/ { print $2 }')" | awk '$1 == "0" { print "value " $2 ", asleep " $3 }'; }
held_once() { [ "$(mutex)" = "value 0, asleep $((workers - 1))" ]; }

load() { # PORT
    until [ -e enough ]; do
        ab -q -r -s 10 -n 500 -c 4 "http://127.0.0.1:$1/seats" >/dev/null 2>&1
    done
}

kill_workers() {
    local killed=0 all
    while [ "$killed" -lt "$kills" ] && kill -0 "$server"; do
        read -ra all <<<"$(alive)"
        if [ ${#all[@]} -gt 0 ] && kill -KILL "${all[RANDOM % ${#all[@]}]}" 2>/dev/null; then
            killed=$((killed + 1))
        fi
        sleep 0.2
    done
    echo "killed $killed"
}

mkdir pages
echo "57 seats" >pages/seats
# Apache signals its whole group, so it has one of its own.
setsid apache2 -D FOREGROUND -f "$conf" &
server=$!
trap 'kill "$server" 2>/dev/null' EXIT
if ! { until_so answers "$PORT" && until_so all_alive && until_so held_once; }; then
    cat errors >&2
    exit 1
fi
echo "started, mutex $(mutex)"
load "$PORT" &
first=$!
load "$OTHER_PORT" &
second=$!
kill_workers
touch enough
wait "$first" "$second"
until_so all_alive
for port in "$PORT" "$OTHER_PORT"; do
    ab -q -s 10 -n 1000 -c 8 "http://127.0.0.1:$port/seats" 2>&1 | grep -E '^(Complete|Failed|Non-2xx)'
done
until_so held_once && echo "mutex $(mutex)"
kill -WINCH "$server"
wait "$server"
echo "stopped, status $?, sets left $(ipcs -s | grep -c '^0x')"
