#!/bin/sh
# ci.sh STORE BRANCH FILE..
# Checks a project in a CI job, with one cache for each branch below STORE, which another machine may have written. A new branch
# begins with a copy of main's cache. The cache is audited before it is used, and deleted once it is long or large. The status is
# 0 without diagnostics, 1 with some, and 2 or more if the job couldn't be done.
here=$(dirname "$0")
store=$1
branch=$2
shift 2
# (a branch's name as one folder's)
cache=$store/$(printf %s "$branch" | sed 's/%/%25/g; s|/|%2F|g')
if [ ! -d "$cache" ] && [ -d "$store/main" ]; then
    cp -R "$store/main" "$cache" || exit 2
fi
"$here"/prune.sh "$cache" 50 1000000 || exit 2
exec "$here"/audited_check.sh "$cache" "$@"
