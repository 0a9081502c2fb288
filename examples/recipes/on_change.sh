#!/bin/sh
# on_change.sh CACHE FILE..
# Checks a project if a file, a name, their order or the program has changed since the last answer; else it prints that answer again,
# without running mjrg. The answer is kept in the cache's folder, under names that mjrg passes over, and goes when the cache is deleted.
cache=$1
shift
program=$(command -v "${MJRG:-mjrg}") || exit 2
sums=$(sha256sum -- "$program" "$@") || exit 2
if [ "$sums" != "$(cat "$cache/answer.sums" 2> /dev/null)" ]; then
    mkdir -p "$cache" || exit 2
    rm -f "$cache/answer.sums"
    "${MJRG:-mjrg}" check --cache "$cache" "$@" > "$cache/answer.out" 2> "$cache/answer.err"
    status=$?
    if [ "$status" -gt 1 ]; then
        cat "$cache/answer.err" >&2
        exit "$status"
    fi
    # (the sums last, so that an answer that was broken off isn't printed again)
    echo "$status" > "$cache/answer.status" && printf '%s\n' "$sums" > "$cache/answer.sums" || exit 2
fi
cat "$cache/answer.err" >&2
cat "$cache/answer.out"
exit "$(cat "$cache/answer.status")"
