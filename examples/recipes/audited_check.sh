#!/bin/sh
# audited_check.sh CACHE FILE..
# Checks a project over a cache that came from elsewhere: audits the chain that the check would go on with. If the audit refuses it
# for its last file alone, as it does when a check was stopped while it wrote that file, the file is deleted and the rest is kept;
# else the cache is deleted. Nobody else may write the cache meanwhile. The status is that of the check.
cache=$1
shift

# Deletes the last of these files if the audit accepts the others.
drop_last() {
    count=$#
    for last; do :; done
    for file; do
        [ "$file" = "$last" ] || set -- "$@" "$file"
    done
    shift "$count"
    [ $# -gt 0 ] && "${MJRG:-mjrg}" audit "$@" > /dev/null 2>&1 && rm -f "$last" && echo "deleted: $last" >&2
}

chain=
for folder in "$cache"/c[0-9][0-9][0-9][0-9]; do
    [ -d "$folder" ] && chain=$folder
done
# (a chain's folder may be there without a session)
if [ -n "$chain" ] && ls "$chain"/s[0-9][0-9][0-9][0-9].mjrg > /dev/null 2>&1; then
    "${MJRG:-mjrg}" audit "$chain"/s[0-9][0-9][0-9][0-9].mjrg > /dev/null
    case $? in
        0) ;;
        3) drop_last "$chain"/s[0-9][0-9][0-9][0-9].mjrg || rm -rf "$cache" ;;
        *) exit 2 ;;
    esac
fi
exec "${MJRG:-mjrg}" check --cache "$cache" "$@"
