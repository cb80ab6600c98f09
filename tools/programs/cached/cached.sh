#!/bin/sh
# Runs a command whose output `blobctl` keeps: cached.sh STORE OUTPUT INPUT COMMAND..
# The command reads INPUT, and OUTPUT is what it prints. It runs if STORE has no output of it for this input.
set -e
store=$1 output=$2 input=$3
shift 3
digest=$( (printf '%s\0' "$@"; cat "$input") | sha256sum | cut -c1-64)
if "$BLOBCTL" "$store" cache get "$digest" --output "$output" 2> /dev/null; then
    exit 0
fi
echo "$output" >> ran.log
sleep "${SLOWLY:-0}"
"$@" < "$input" > "$output.part"
mv "$output.part" "$output"
"$BLOBCTL" "$store" cache put "$digest" "$output"
