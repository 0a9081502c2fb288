#!/bin/sh
# prune.sh CACHE SESSIONS KIB
# Keeps a cache small: deletes it if its last chain has SESSIONS sessions or more, or if it takes more than KIB KiB. The
# next check begins a new one, and runs everything once.
cache=$1
[ -d "$cache" ] || exit 0
chain=
for folder in "$cache"/c[0-9][0-9][0-9][0-9]; do
    [ -d "$folder" ] && chain=$folder
done
sessions=$(find "$chain" -name 's*.mjrg' 2> /dev/null | wc -l)
size=$(du -sk "$cache" | cut -f 1)
if [ "$sessions" -ge "$2" ] || [ "$size" -gt "$3" ]; then
    rm -rf "$cache"
fi
