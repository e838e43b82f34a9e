#!/usr/bin/env bash
# run.sh [--keep FOLDER] [WORD..]: runs 1,024 routers on this machine for a minute, with traffic between drawn pairs and edits all the time,
# and judges it at the end. The words are those of `hizmorke fleet run`: --replicas 3 for edits over three members of etcd, --kills 5 to
# end a process by -9 every five seconds, --seconds, --nodes, .. The status is 0 where all was as it should be, 1 where something wasn't,
# and 2 where it could not be run. --keep FOLDER leaves all files there, in a folder that mustn't be there yet.
set -euo pipefail
top=$(cd "$(dirname "$(readlink -f "${BASH_SOURCE[0]}")")/.." && pwd)
folder='' keep=''
if [ "${1-}" = --keep ]; then
    keep=${2:?--keep takes a folder}
    shift 2
    mkdir "$keep"
    folder=$(realpath "$keep")
else
    # In memory, where there is a place: tables are written and synced each second.
    folder=$(mktemp -d "$([ -w /dev/shm ] && echo /dev/shm || echo "${TMPDIR:-/tmp}")/fleet-run-XXXXXX")
fi
trap '[ -n "$keep" ] || rm -rf "$folder"' EXIT
trap 'exit 130' INT TERM HUP
case " $* " in
*' --replicas '*) command -v etcd >/dev/null || { echo 'fleet/run.sh: left out, since etcd is not there: apt-get install etcd-server' >&2; exit 2; } ;;
esac
python=$("$top/python/find-python" click numpy scipy) || exit 2
"$top/fleet/build" "$folder/router" >/dev/null || exit 2
cd "$folder"
PYTHONPATH=$top/python/src${PYTHONPATH:+:$PYTHONPATH} "$python" -B -m hizmorke fleet run "$folder/router" "$folder" "$@"
