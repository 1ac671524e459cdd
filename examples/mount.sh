#!/usr/bin/env bash
# Three servers and a door to them, over folders of this machine, for a client of NFS version 2.
#
#   bash examples/mount.sh FOLDER [DOOR [PORT]]
#
# makes FOLDER/0, FOLDER/1 and FOLDER/2 where they aren't there, starts a server over each, at the
# ports PORT to PORT + 2 (4000 where none is told), and a door at the port DOOR (12049), prints the
# line that mounts the tree, and waits. Ctrl-C, or the end of one of them, ends the door and tells
# the servers to stop, which saves what they hold: the same line starts them again with all updates.
# HARPD names the program, where it isn't crates/harpd/out/harpd. What the servers say stands in
# FOLDER/said-0 to said-2.
set -eu
if [ $# -lt 1 ] || [ $# -gt 3 ]; then
    sed -n '2,12s/^# \{0,1\}//p' "$0"
    exit 1
fi
folder=$1 door=${2:-12049} port=${3:-4000}
harpd=${HARPD:-$(dirname "$0")/../crates/harpd/out/harpd}
running=()

# Ends the door first, so that no call is under way, and then the servers, by their files.
finish() {
    trap '' INT TERM HUP
    set +e
    [ -z "${running[3]:-}" ] || kill "${running[3]}" 2>/dev/null
    for place in 0 1 2; do
        if [ -n "${running[$place]:-}" ] && kill -0 "${running[$place]}" 2>/dev/null; then
            touch "$folder/$place/stop"
        fi
    done
    wait
    echo "mount.sh: all are stopped"
}
trap finish EXIT
trap 'exit 0' INT TERM HUP

mkdir -p "$folder"
for place in 0 1 2; do
    [ -d "$folder/$place" ] || "$harpd" init "$folder/$place"
    # A Ctrl-C is for this script alone: who is killed saves nothing.
    (trap '' INT HUP; exec "$harpd" server "$place" "$port" "$folder/$place") \
        > "$folder/said-$place" &
    running[place]=$!
done
"$harpd" serve "$port" "$door" 0 &
running[3]=$!
options=vers=2,proto=tcp,port=$door,mountproto=tcp,mountport=$door,nolock,addr=127.0.0.1
echo "mount -i -t nfs -o $options 127.0.0.1:/ DIR"
wait -n || true
echo "mount.sh: one of them ended"
