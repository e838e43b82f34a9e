#!/usr/bin/env bash
# run.sh [FOLDER]: thirty routers, each a program of its own that knows one table. The network is brought to a device in FOLDER (a new folder where none is named), a
# table is written for each router, and packets are carried from router to router over named pipes. Then a link is added, every second router gets its new table, and
# packets of both generations are sent. The folder stays.
set -eu
here=$(cd "$(dirname "$(readlink -f "${BASH_SOURCE[0]}")")" && pwd)
top=$(cd "$here/../.." && pwd)
folder=${1-$(mktemp -d)}
mkdir -p "$folder" || { echo "run.sh: the folder $folder could not be made" >&2; exit 1; }
device=$folder/network
[ ! -e "$device" ] || { echo "run.sh: $device is there from an earlier run; name another folder" >&2; exit 1; }
words=draw:7
# By router: where its lines are written, and where its answers are read.
declare -A lines answers

# Starts a router, unless it runs.
start() {
    local end
    [ -z "${lines[$1]-}" ] || return 0
    mkfifo "$folder/$1.lines" "$folder/$1.answers"
    "$top/tzrouter" "$folder/first/$1.table" <"$folder/$1.lines" >"$folder/$1.answers" &
    exec {end}>"$folder/$1.lines"
    lines[$1]=$end
    exec {end}<"$folder/$1.answers"
    answers[$1]=$end
}

# Asks a router: writes a line to it and reads its answer.
ask() {
    local router=$1
    shift
    start "$router"
    echo "$*" >&"${lines[$router]}"
    read -r answer <&"${answers[$router]}"
}

# Carries a packet from router to router, and leaves its trail and its end.
carry() {
    local at=$1 to=$2 next
    trail=$at
    ask "$to" address
    ask "$at" launch "${answer#*address=}"
    while [[ $answer == *packet=* ]]; do
        ask "$at" hop "${answer##*packet=}"
        if [[ $answer == port=* ]]; then
            next=${answer#*next=}
            at=${next%% *}
            trail+=" $at"
        fi
    done
}

# Carries a packet and tells what became of it, beside the way that tznode finds now.
send() {
    local way
    carry "$1" "$2"
    way=$("$top/tznode" route "$device" "$1" "$2" --words "$words")
    way=${way#*route }
    if [ "$answer" = delivered ] && [ "$trail" = "${way% length*}" ]; then
        echo "$1 to $2: delivered over $trail, as tznode routes"
    else
        echo "$1 to $2: $answer at ${trail##* }, over $trail; tznode routes ${way% length*}"
    fi
}

tables() {
    mkdir "$folder/$1"
    "$top/tznode" tables "$device" "$folder/$1" --words "$words"
}

"$top/tzlab" load "$device" "$here/network.txt"
echo "-- a table for each router"
tables first
echo "-- packets"
for pair in "0 25" "7 12" "22 4" "16 16"; do send $pair; done
echo "-- a link more, and new tables on every second router"
"$top/tznode" edit "$device" add:2:22:1
tables second
for ((router = 0; router < 30; router += 2)); do
    ask "$router" load "$folder/second/$router.table"
done
ask 2 tables
echo "router 2: $answer"
ask 3 tables
echo "router 3: $answer"
echo "-- packets of both generations: an address is of the newest generation that its router has"
for pair in "2 22" "2 23" "2 25" "3 22" "0 28"; do send $pair; done
echo "-- new tables on the others"
for ((router = 1; router < 30; router += 2)); do
    ask "$router" load "$folder/second/$router.table"
done
for pair in "2 22" "2 23" "2 25" "3 22" "0 28"; do send $pair; done
echo "$folder"
