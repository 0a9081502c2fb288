#!/bin/sh
# compact.sh CACHE N FILE..
# Checks a project and keeps the files of its sessions small: they are of form 2, without the results of what is green. Each Nth session
# of a chain is of form 1, so that no check reads more than N files. The status is that of the check.
cache=$1
every=$2
shift 2
chain=
for folder in "$cache"/c[0-9][0-9][0-9][0-9]; do
    [ -d "$folder" ] && chain=$folder
done
# (as many sessions as there are is the number of the next one)
sessions=$(find "$chain" -name 's[0-9][0-9][0-9][0-9].mjrg' 2> /dev/null | wc -l)
form=2
[ $((sessions % every)) -ne 0 ] || form=1
exec "${MJRG:-mjrg}" check --cache "$cache" --form "$form" "$@"
