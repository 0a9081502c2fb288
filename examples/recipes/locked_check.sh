#!/bin/sh
# locked_check.sh CACHE FILE..
# Checks a project over a cache that several jobs on one machine share, one check at a time: a second one waits until the first has
# written its session, and goes on from there. The lock is a file in the cache's folder that mjrg passes over. The status is that of
# the check.
mkdir -p "$1" || exit 2
exec flock "$1/lock" "${MJRG:-mjrg}" check --cache "$@"
