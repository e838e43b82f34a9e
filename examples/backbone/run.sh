#!/usr/bin/env bash
# run.sh [FOLDER]: brings the backbone to a new device in FOLDER (a new folder where none is named), unless that is there from an earlier run, checks it, routes in it and
# prints it in each form. With graphviz (dot) installed it is drawn too. The folder stays. HIZMORKE_PROGRAMS may name a
# folder with the programs; else those of this repository are built where they aren't.
set -eu
here=$(cd "$(dirname "$(readlink -f "${BASH_SOURCE[0]}")")" && pwd)
top=$(cd "$here/../.." && pwd)
folder=${1-$(mktemp -d)}
mkdir -p "$folder" || { echo "run.sh: the folder $folder could not be made" >&2; exit 1; }
device=$folder/backbone
programs=${HIZMORKE_PROGRAMS:-$top}
# The scripts build what the package calls, and tell of that.
if [ "$programs" = "$top" ]; then
    "$top/tzlab" --help >/dev/null
    "$top/tznode" 2>&1 >/dev/null </dev/null | { grep -v '^tznode: usage$' >&2 || true; }
fi

[ -e "$device" ] || "$top/hizmorke" import "$device" "$here/backbone.txt"
words=$("$programs/tzlab" landmarks "$device" --seed 7)
echo "$words"
"$programs/tznode" check "$device" --words "$words"
"$top/hizmorke" route "$device" Lisboa Helsinki Napoli Oslo Bilbao Krakow --words "$words"
for form in edges csv json; do
    "$top/hizmorke" export "$device" --as "$form" >"$folder/backbone.$form"
    echo "$folder/backbone.$form"
done
"$top/hizmorke" export "$device" --as dot --words "$words" >"$folder/backbone.dot"
echo "$folder/backbone.dot"
if command -v dot >/dev/null; then
    dot -Kneato -Tsvg "$folder/backbone.dot" >"$folder/backbone.svg"
    echo "$folder/backbone.svg"
fi
