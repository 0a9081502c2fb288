#!/bin/sh
# editor.sh FILE..
# Prints the diagnostics of a project as an editor reads them, a line FILE:LINE:COL: CODE for each, and ends with the status
# of mjrg. What isn't a diagnostic goes to standard error. $MJRG is the program, else mjrg of the PATH.
told=$("${MJRG:-mjrg}" scratch "$@" 2>&1 > /dev/null)
status=$?
if [ "$status" -gt 1 ]; then
    printf '%s\n' "$told" >&2
    exit "$status"
fi
printf '%s\n' "$told" | grep -E ': E[0-9][0-9][0-9]$'
exit "$status"
