#!/usr/bin/env bash
# Builds the program if need be, then runs it in the caller's folder with the caller's words. What the build says goes
# to standard error, so that standard output is the report alone.
set -u
top=$(cd "$(dirname "$(readlink -f "$0")")" && pwd)
program=$top/crates/stan/out/stan
stale() {
    [ ! -x "$program" ] && return 0
    [ -n "$(find "$top/crates" "$top/crates.txt" -name out -prune -o -type f \( -name '*.rt' -o -name '*.antt' -o -name crates.txt \) -newer "$program" -print -quit)" ]
}
if stale; then
    command -v rt >/dev/null || { echo "stan: rt, which builds the program, is not on the PATH" >&2; exit 2; }
    # `rt run` proves, builds and runs; with no words the run ends at once and reads nothing.
    (cd "$top/crates/stan" && rt run --) >"$top/crates/stan/out.log" 2>&1
    if [ ! -x "$program" ] || stale; then
        tail -n 20 "$top/crates/stan/out.log" >&2
        echo "stan: the build failed; crates/stan/out.log has all of it" >&2
        exit 2
    fi
fi
exec "$program" "$@"
