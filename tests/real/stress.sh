# stress-ng's own test of System V semaphores, with its checks: two workers with three processes each, which take and give by
# turns with undo, and try every command with good and bad arguments between. Six may hold an undo at a time. What it writes of
# times is left out; the number of rounds is the same at each run.
rounds=${1:-20000}
stress-ng --sem-sysv 2 --sem-sysv-procs 3 --sem-sysv-ops "$rounds" --timeout 40 --verify --metrics-brief 2>&1 |
    sed -E 's/^(stress-ng: [a-z]+: +)\[[0-9]+\]/\1/; s/(sem-sysv +[0-9]+) .*/\1/; s/ in [0-9.]+s.*//' |
    grep -E 'dispatching|sem-sysv +[0-9]|successful|fail|error|warn'
exit "${PIPESTATUS[0]}"
