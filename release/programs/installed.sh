# Installs packages for Debian as root, over copies of the system's folders that are gone when this ends, and compiles and runs a program:
# sh installed.sh PROGRAM.c PACKAGES, in a namespace of mounts of its own.
set -e
mount -t tmpfs none /mnt
for it in usr var etc; do
    mkdir "/mnt/$it" "/mnt/$it.work"
    mount -t overlay overlay -o "lowerdir=/$it,upperdir=/mnt/$it,workdir=/mnt/$it.work" "/$it"
done
program=$1
shift
apt-get install --yes --quiet "$@" >apt.log 2>&1 || { cat apt.log >&2; exit 1; }
gcc "$program" $(pkg-config --cflags --libs huckleport) -o editor
./editor
domserve </dev/null
/usr/bin/python3 -c 'import huckleport'
