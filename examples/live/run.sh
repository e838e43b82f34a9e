#!/usr/bin/env bash
# run.sh [FOLDER]: a service that is left running, behind two named pipes. It makes a device in FOLDER (a new folder where none is named), starts `tznode serve --live` on
# it, asks it line by line, and prints what was asked and answered. The folder stays.
set -eu
here=$(cd "$(dirname "$(readlink -f "${BASH_SOURCE[0]}")")" && pwd)
top=$(cd "$here/../.." && pwd)
folder=${1-$(mktemp -d)}
mkdir -p "$folder" || { echo "run.sh: the folder $folder could not be made" >&2; exit 1; }
device=$folder/network
[ ! -e "$device" ] || { echo "run.sh: $device is there from an earlier run; name another folder" >&2; exit 1; }

# Writes a line to the service, reads its answer, and prints both.
ask() {
    echo "$*" >&"$lines"
    read -r answer <&"$answers"
    printf '> %s\n< %s\n' "$(short "$*")" "$(short "$answer")"
}

# The digits of addresses and packets, cut short.
short() { sed -E 's/([0-9a-f]{8})[0-9a-f]{70,}/\1../g' <<<"$1"; }

"$top/tznode" format "$device" 6
mkfifo "$folder/lines" "$folder/answers"
"$top/tznode" serve "$device" --words at:2 --editors 8 --live <"$folder/lines" >"$folder/answers" &
service=$!
exec {lines}>"$folder/lines" {answers}<"$folder/answers"

echo "-- two sessions edit the network"
ask edit 0 - add:0:1:1 add:1:2:1
ask edit 5 1 add:2:3:1 add:3:4:1
ask edit 0 - add:0:1:9
ask edit 5 1 add:4:5:1
ask resume 5
echo "-- the tables with all of that"
ask wait
ask route 0 4
ask route 0 5
echo "-- a packet from 0 to 4: its first two hops"
ask address 4
ask launch 0 "${answer#*address=}"
at=0
hop() {
    ask hop "$at" "${answer##*packet=}"
    next=${answer#*next=}
    at=${next%% *}
}
hop
hop
arrived=$answer
echo "-- an edit makes a new generation; the packet goes on in its own, a new route takes the new edge"
ask edit 0 - add:0:4:1
ask wait
answer=$arrived
while [[ $answer == *packet=* ]]; do hop; done
ask route 0 4
ask state
echo "-- what isn't a line of the service"
ask hello
ask hop 0 00
exec {lines}>&-
wait "$service"
echo "status $?"
"$top/tznode" show "$device"
echo "$folder"
