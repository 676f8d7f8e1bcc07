#!/bin/sh
# Builds `benches` and `willow_peer`, times them, and prints tables. It needs the kit and python3.
# With two words these are the executables, in this order, and nothing is built.
set -e
here="$(cd "$(dirname "$0")" && pwd)"
if [ $# -eq 2 ]; then
    exec python3 "$here/measure.py" "$1" "$2"
fi
crates="$here/../crates"
(cd "$crates/benches" && rt run -- "blocks 1") > /dev/null
(cd "$crates/willow_peer" && rt run -- gen --rows 1) > /dev/null
exec python3 "$here/measure.py" "$crates/benches/out/benches" "$crates/willow_peer/out/willow_peer"
