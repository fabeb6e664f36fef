#!/bin/sh
# The plan of the radio service is checked, and the radio records become a transport stream by it; `demux` finds the same
# units in that stream, and another program's reader gives the elementary stream back.
set -eu
here=$(cd "$(dirname "$0")" && pwd)
binary=${1:-$here/../crates/tsmux/out/tsmux}
work=$(mktemp -d)
trap 'rm -rf "$work"' EXIT
cat "$here/radio/radio.toml" "$here/radio/radio.plan" | "$binary" check
cat "$here/radio/radio.toml" "$here/radio/radio.plan" "$here/radio/radio.units" | "$binary" mux > "$work/radio.ts"
echo "$(wc -c < "$work/radio.ts") bytes of packets"
"$binary" demux < "$work/radio.ts" > "$work/findings"
echo "$(grep -c ' pes 192 ' "$work/findings") PES packets in them, the last: $(tail -n 1 "$work/findings")"
if command -v ts2es > /dev/null; then
    ts2es -pid 256 "$work/radio.ts" "$work/radio.mp2"
    cmp "$work/radio.mp2" "$here/radio/radio.mp2" && echo "the elementary stream came back byte for byte"
else
    echo "ts2es (Debian: tstools) is not installed: nothing was compared"
fi
