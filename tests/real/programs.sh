# The real programs that tools/check-real runs: where each comes from, what it runs and does, and its version. To be sourced,
# with the repository's folder in root.
names=(perl python php fakeroot ipc stress-ng apache seats)
cases=$root/tests/real programs=$root/target/programs
nobody=(setpriv --reuid nobody --regid nogroup --clear-groups)

# Brings what a name needs. A Python module is no command, so tools/need does not see that it is missing.
bring() { # NAME
    local need=$root/tools/need
    case $1 in
    perl) "$need" perl perl ;;
    python) "$need" /usr/bin/python3 python3 && bring_module sysv_ipc python3-sysv-ipc ;;
    php) "$need" php php-cli ;;
    fakeroot) "$need" fakeroot-sysv fakeroot ;;
    ipc) "$need" ipcmk util-linux ;;
    stress-ng) "$need" stress-ng stress-ng ;;
    apache) "$need" apache2 apache2-bin && "$need" ab apache2-utils ;;
    seats) "$need" cc gcc libc6-dev && mkdir -p "$programs" && cc -std=gnu11 -O2 -o "$programs/seats" "$root/c/programs/seats/seats.c" ;;
    esac
}

bring_module() { # MODULE PACKAGE
    /usr/bin/python3 -c "import $1" 2>/dev/null ||
        { apt-get update && DEBIAN_FRONTEND=noninteractive apt-get install -y "$2"; } >&2
}

# What a name stands for: its command, what it does, and how many events that makes at least.
describe() { # NAME
    case $1 in
    perl) command=(perl "$cases/seats.pl") least=2000 \
        did="five processes take turns 1,000 times; undo after SIGKILL; all methods of IPC::Semaphore but \`set\`" ;;
    python) command=(/usr/bin/python3 "$cases/table.py") least=1500 \
        did="five processes take turns 750 times; timeouts, signals, undo after SIGKILL, permissions of another user" ;;
    php) command=(php "$cases/seat.php") least=1200 \
        did="four processes take turns 600 times; one seat and two; undo after SIGKILL" ;;
    fakeroot) command=("${nobody[@]}" sh "$cases/fakeroot.sh") least=50 \
        did="an archive with owners and devices, made by a user who is not root" ;;
    ipc) command=(sh "$cases/ipc.sh") least=20 \
        did="ipcmk, ipcs and ipcrm make, show and remove six sets" ;;
    stress-ng) command=(bash "$cases/stress.sh") least=40000 \
        did="its semaphore test with \`--verify\`, two workers of three processes, 20,000 rounds" ;;
    apache) command=("${nobody[@]}" bash "$cases/apache.sh") least=4000 \
        did="prefork with \`Mutex sysvsem\` under load, while 40 workers are killed by SIGKILL; then 2,000 requests" ;;
    seats) command=("$programs/seats" 5000) least=10000 \
        did="six workers take three seats; 5,000 are killed by SIGKILL at random, the seats counted after each" ;;
    esac
}

version() { # NAME
    case $1 in
    perl) perl -MIPC::SysV -e 'printf "Perl %vd, IPC::SysV %s", $^V, $IPC::SysV::VERSION' ;;
    python) /usr/bin/python3 -c \
        'import platform, sysv_ipc; print("Python", platform.python_version() + ", sysv_ipc", sysv_ipc.VERSION)' ;;
    php) php -r 'echo "PHP ", PHP_VERSION, ", sysvsem";' ;;
    fakeroot) fakeroot-sysv --version | sed 's/ version/-sysv/' ;;
    ipc) ipcs --version | sed 's/ipcs from //' ;;
    stress-ng) stress-ng --version | sed 's/, version//; s/ (.*//' ;;
    seats) echo "\`c/programs/seats\`" ;;
    apache) apache2 -v | sed -n 's/Server version: \([^ ]*\).*/\1/p' ;;
    esac
}
