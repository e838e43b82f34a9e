#!/usr/bin/env bash
# run.sh [FOLDER]: carries packets from C, Python and Rust, by the library of include/tz.h. It brings a network to the device FOLDER/network
# (a new folder where none is named), unless that is there from an earlier run, writes the nodes' tables, and asks tznode for the way between
# each two nodes. Each caller for which this machine has a compiler takes the same ways over the tables alone, and tells how many differ. The
# folder stays. The status is 1 where a way differs.
set -eu
here=$(cd "$(dirname "$(readlink -f "${BASH_SOURCE[0]}")")" && pwd)
top=$(cd "$here/../.." && pwd)
folder=${1-$(mktemp -d)}
mkdir -p "$folder/tables" || { echo "run.sh: the folder $folder could not be made" >&2; exit 1; }
device=$folder/network
words=draw:7 status=0

# Two nodes more than the network's 30 have no edge, so some ways aren't there.
# With FORWARD_UNPROVED=--unproved, as ./forward --unproved has it, nothing is proved of what is used here.
program() { "$top/$1" ${FORWARD_UNPROVED:+"$FORWARD_UNPROVED"} "${@:2}"; }
[ -e "$device" ] || program tzlab load "$device" "$here/../routers/network.txt" --nodes 32
program tznode tables "$device" "$folder/tables" --words "$words"
for from in {0..31}; do for to in {0..31}; do echo "$from $to"; done; done >"$folder/pairs"
# shellcheck disable=SC2046
program tznode route "$device" $(<"$folder/pairs") --words "$words" >"$folder/answers" || [ $? -eq 1 ]
paste -d ' ' "$folder/pairs" "$folder/answers" >"$folder/routes"

archive=$("$top/forward" ${FORWARD_UNPROVED:+"$FORWARD_UNPROVED"} --library)
cp "$archive" "$folder/libtz.a"

# There is a compiler of this name, or it says that there is none.
has() {
    command -v "$1" >/dev/null || { echo "$2: not tried, $1 isn't there"; return 1; }
}

carry() {
    echo "-- $1"
    shift
    "$@" || status=1
}

if has cc C; then
    cc -std=c11 -O2 -Wall -Wextra -I"$top/include" -o "$folder/forward" "$here/forward.c" -L"$folder" -ltz
    carry C "$folder/forward" "$folder/tables" "$folder/routes"
    carry 'C, a million packets' "$folder/forward" "$folder/tables"
fi
if has cc Python && python=$("$top/python/find-python" ctypes); then
    cc -shared -o "$folder/libtz.so" -Wl,--whole-archive "$folder/libtz.a" -Wl,--no-whole-archive
    export HIZMORKE_LIBRARY=$folder/libtz.so PYTHONPATH=$top/python/src
    carry Python "$python" -B "$here/forward.py" "$folder/tables" "$folder/routes"
    carry 'Python, a packet' "$python" -B "$here/forward.py" "$folder/tables" 0 25
fi
if has rustc Rust; then
    rustc --edition 2021 -O -L "$folder" -o "$folder/tz" "$here/tz.rs"
    carry Rust "$folder/tz" "$folder/tables" "$folder/routes"
    carry 'Rust, a packet' "$folder/tz" "$folder/tables" 0 25
fi
echo "$folder"
exit "$status"
