# The commands ipcmk, ipcs and ipcrm make sets, show them and remove them, by identifier, by key and all at once. Writes the
# same at each run: keys, identifiers and times are left out. ipcs reads /proc/sysvipc where that is there; here it is not,
# and so it asks by semctl.
shown() {
    ipcs -s "$@" | sed -E '
        s/^0x[0-9a-f]+ +[0-9]+ /KEY ID /
        s/^[0-9]+( +[0-9]{3})?( +)root /ID\1\2root /
        s/semid=.*/semid=ID/
        s/ [A-Z][a-z]{2} [A-Z][a-z]{2} .*/ TIME/'
}

# The identifier or the key of each set.
field() { ipcs -s | awk -v field="$1" '/^0x/ { print $field }'; }

made() { ipcmk -S "$@" | sed 's/[0-9]*$/ID/'; }

made 3
made 1 -p 0600
made 8 -p 0640
shown
shown -u
shown -c
shown -t
shown -i "$(field 2 | head -1)"
ipcrm -s "$(field 2 | head -1)" && echo "removed by identifier"
ipcrm -S "$(field 1 | head -1)" && echo "removed by key"
shown
made 2
made 2
made 2
field 2 | sort -u | wc -l
ipcrm --all=sem && echo "removed all"
shown
ipcrm -s 12345
echo "status $?"
