# A package is made by a user who is not root, as Debian's builders do it: files of root and of others, devices, and an
# archive of them. fakeroot-sysv keeps who owns what in a process of its own, and a semaphore keeps the askers apart. Writes the
# same at each run. Files are made in the present folder.
mkdir package
cd package || exit 1
fakeroot-sysv sh -c '
    umask 022
    echo "seats 57" >table
    mkdir log
    touch log/first log/second
    chown root:root .
    chown 12:34 table
    chmod 4755 table
    mknod null c 1 3
    mknod disk b 8 1
    chown -R 7:8 log
    for i in 1 2 3 4; do { touch log/by-$i; chown "$i:$i" log/by-$i; } & done
    wait
    rm log/second
    id -u
    ls -lnR --time-style=+
    tar cf ../package.tar --sort=name --mtime=@0 .'
echo "status $?"
cd ..
tar tvf package.tar --numeric-owner --full-time
sha256sum package.tar
