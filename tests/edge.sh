#!/bin/sh
# What only the system can show of files and sockets: the mode of a new file, its lock against a second process, a full device, the syncs
# of the file and its folder, and what a failed sync leaves. Run it once `rt ci` or `rt run` has built the trials of the edge:
#
#     tests/edge.sh [PROGRAM]
#
# It prints a line for each case, and ends with 1 where one failed. Cases by `strace` are passed over where that isn't there.
set -u

top=$(cd "$(dirname "$0")/.." && pwd)
program=${1:-$top/crates/cap_edge_trials/out/cap_edge_trials}
if [ ! -x "$program" ]; then
    echo "edge: no program at $program: build it with 'rt run' in crates/cap_edge_trials" >&2
    exit 1
fi
folder=$(mktemp -d) || exit 1
trap 'rm -rf "$folder"' EXIT
cd "$folder" || exit 1
failed=0

# Says how a case went: its name, what was wanted, what came.
same() {
    if [ "$2" = "$3" ]; then
        echo "edge: $1: as wanted"
    else
        echo "edge: $1: wanted '$2', got '$3'"
        failed=1
    fi
}

# Whether a file has a line that matches.
has() {
    if grep -qE "$2" "$3"; then
        echo "edge: $1: as wanted"
    else
        echo "edge: $1: no line '$2'"
        failed=1
    fi
}

# The answer to the last of these rows.
last() {
    printf '%s\n' "$@" | "$program" | tail -n 1 | sed 's/.*: //'
}

# A new file is its owner's alone, whatever the mask allows.
(umask 000; last 'file at new' 'file write 0 abcd' 'file sync') >/dev/null
same 'mode of a new file' 600 "$(stat -c %a new)"

# A process that has the file keeps others from it until it ends.
mkfifo rows
"$program" <rows >first.out &
first=$!
exec 3>rows
printf 'file at locked\nfile write 0 abcd\n' >&3
tries=0
while ! grep -q 'write 0 abcd: Ok' first.out && [ "$tries" -lt 100 ]; do
    sleep 0.1
    tries=$((tries + 1))
done
same 'length of a locked file' 'Err(Failed)' "$(last 'file at locked' 'file len')"
same 'write to a locked file' 'Err(Failed)' "$(last 'file at locked' 'file write 0 xyzw')"
exec 3>&-
wait "$first"
same 'file once it is free' 'Ok abcd' "$(last 'file at locked' 'file read 0 4')"

# A device with no room left, here a limit on the size of files: the write fails, and what was synced is there.
long=$(printf '%4000s' '' | tr ' ' x)
last 'file at full' 'file write 0 abcd' 'file sync' >/dev/null
same 'write to a full device' 'Err(Failed)' \
    "$(trap '' XFSZ; ulimit -f 1; last 'file at full' "file write 4 $long")"
same 'file after a full device' 'Ok abcd' "$(last 'file at full' 'file read 0 4')"

# A file without permission.
if [ "$(id -u)" -eq 0 ]; then
    echo 'edge: a file without permission: passed over, since root may read it'
else
    printf 'abcd' >closed
    chmod 000 closed
    same 'file without permission' 'Err(Failed)' "$(last 'file at closed' 'file write 0 xyzw')"
    chmod 600 closed
    same 'file without permission, after' abcd "$(cat closed)"
fi

if ! command -v strace >/dev/null; then
    echo 'edge: calls of the system: passed over, since strace is not there'
    exit "$failed"
fi

# The calls of the first opening.
printf 'file at made\nfile len\n' |
    strace -o trace -e trace=openat,fsync,flock,fadvise64 "$program" >/dev/null
has 'made anew, for its owner' 'openat\(.*"made".*O_CREAT\|O_EXCL.*0600' trace
has 'locked' 'flock\([0-9]+, LOCK_EX\|LOCK_NB\) += 0' trace
has 'pages dropped' 'fadvise64\([0-9]+, 0, 0, POSIX_FADV_DONTNEED\) += 0' trace
same 'file and folder synced' 2 "$(grep -cE 'fsync\([0-9]+\) += 0' trace)"
has 'folder opened' 'openat\(.*"\.", O_RDONLY' trace

# The third sync fails: the first two are those of the opening. From then on the disk fails; a new process has the file again.
printf 'file at broken\nfile write 0 abcd\nfile sync\nfile len\nfile read 0 4\nfile write 0 xyzw\nfile sync\n' |
    strace -o trace -e trace=fsync -e inject=fsync:error=EIO:when=3 "$program" >broken.out
same 'calls after a failed sync' 5 "$(grep -c 'Err(Failed)' broken.out)"
same 'file after a failed sync' 'Ok abcd' "$(last 'file at broken' 'file read 0 4')"

# The options of a connection, and how it is closed.
printf 'tcp close\n' |
    strace -o trace -e trace=setsockopt,shutdown "$program" >/dev/null
has 'no delay' 'TCP_NODELAY, \[1\]' trace
has 'idle limit' 'SO_RCVTIMEO(_OLD)?, ("\\36\\0|\{tv_sec=30)' trace
has 'sending side shut' 'shutdown\([0-9]+, SHUT_WR\) += 0' trace

exit "$failed"
