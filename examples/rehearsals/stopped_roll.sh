#!/bin/sh
# Prints a rehearsal: 106 lives fill a journal, and the roll into the other one is stopped twice. README.md says what to look at.
ops='add:0:1:1 cut:0:1'
ops="$ops $ops"
ops="$ops $ops"
ops="$ops $ops"

# A life of SESSIONS with this plan and crash: each session asks for one change under the ticket, and all are one group.
life() {
    echo "life sessions=$1 places=64 words=none $3crash=$4"
    session=0
    while [ "$session" -lt "$1" ]; do
        echo "submit $session $2 $ops"
        session=$((session + 1))
    done
    session=0
    while [ "$session" -lt "$1" ]; do
        echo take
        session=$((session + 1))
    done
    echo commit
}

echo 'device 5'
ticket=1
while [ "$ticket" -le 106 ]; do
    life 64 "$ticket" '' 0
    ticket=$((ticket + 1))
done
life 21 107 'stop=1:100000 ' 1
life 21 107 'stop=3:1 ' 1
life 21 107 'fail=5 ' 0
