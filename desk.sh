#!/usr/bin/env bash
# Runs the desk program on a file of commands, or on standard input.
#   ./desk.sh [FILE]
# Proves and builds it first where that has not been done since the last change.
set -eu
case "${1:-}" in
-h | --help) sed -n '2,4s/^# \{0,1\}//p' "$0"; exit 0 ;;
esac
top=$(cd "$(dirname "$0")" && pwd)
program=$top/crates/desk/out/desk
if [ $# -gt 1 ] || { [ $# -eq 1 ] && [ ! -r "$1" ]; }; then
    echo "usage: $0 [FILE]   (FILE has to be readable; without it, commands come from standard input)" >&2
    exit 2
fi
if [ ! -x "$program" ] || [ -n "$(find "$top/crates" "$top/crates.txt" -name out -prune -o -newer "$program" -type f -print -quit)" ]; then
    echo "proving and building the desk program, which takes some minutes the first time ..." >&2
    # the first run, on no input, builds it
    (cd "$top/crates/desk" && rt run </dev/null >"$top/target.log" 2>&1) || { tail -n 20 "$top/target.log" >&2; rm -f "$top/target.log"; exit 1; }
    rm -f "$top/target.log"
fi
if [ $# -eq 1 ]; then exec "$program" <"$1"; else exec "$program"; fi
