#!/bin/sh
# run.sh TSJOB TSMUX TSAIR [SECONDS [STREAM]]: a stream of ffmpeg (of so many seconds, 60 where none are named; or STREAM) on air: a description of it by `tsjob`, the stream
# in its own time (`ffmpeg -re`), its units as they become whole (`tsjob units --stream`), `tsair`, a pacer, datagrams of seven packets to a loopback socket, and what came there
# beside `tsmux mux` of the same units in order of DTS, and by the monitor. Status 1 where it differs, or the monitor finds a fault. ffmpeg, mbuffer and socat are Debian's
# packages of these names.
set -eu
here=$(cd "$(dirname "$0")" && pwd)
tsjob=$1 tsmux=$2 tsair=$3 seconds=${4:-60}
work=$here/../../out/on-air
mkdir -p "$work"
stream=${5:-$work/in.ts}
maxrate=600000 bufsize=600000 audiorate=128000
if [ $# -lt 5 ]; then
    ffmpeg -nostdin -loglevel error -y -f lavfi -i "testsrc2=size=320x240:rate=25" -f lavfi -i "sine=frequency=440:sample_rate=48000" -t "$seconds" \
        -c:v libx264 -b:v 600k -maxrate $maxrate -bufsize $bufsize -g 25 -c:a mp2 -b:a $audiorate -f mpegts "$stream"
fi
"$tsjob" describe --whole --declare time < "$stream" > "$work/sampled"
# Our own stream is declared by the limits of its encoders, and the rate is the first with a plan.
limits=
[ $# -ge 5 ] || limits="256:$maxrate:$bufsize 257:$audiorate"
"$here/declare-encoder" --tsmux "$tsmux" $limits < "$work/sampled" > "$work/description"
"$tsmux" plan < "$work/description" > "$work/plan"
rate=$(awk '/^rate/ { print $3 }' "$work/description")

# One datagram after the other, as they come; a receiver has one of its own socket for each run.
rm -f "$work/came.ts"
timeout $((seconds + 30)) socat -u -b 65536 UDP4-RECV:5004,bind=127.0.0.1,so-rcvbuf=8000000 OPEN:"$work/came.ts",creat,append &
receiver=$!
sleep 1
# A pacer counts from its own start, so it begins with the first packets.
ffmpeg -nostdin -loglevel error -re -i "$stream" -map 0 -c copy -copyts -f mpegts - | tee "$work/aired.ts" | "$tsjob" units --stream "$work/description" \
    | cat "$work/description" "$work/plan" - | "$tsair" \
    | ( dd bs=1316 count=1 iflag=fullblock status=none; exec mbuffer -q -m 1M -s 1316 -R $((rate / 8)) ) \
    | socat -u -b 1316 - UDP4-SENDTO:127.0.0.1:5004
sleep 2
kill $receiver 2> /dev/null || true
"$tsjob" units --stream "$work/description" < "$work/aired.ts" | "$here/records-by-dts" > "$work/units"
cat "$work/description" "$work/plan" "$work/units" | "$tsmux" mux > "$work/wanted.ts"
ls -l "$work/wanted.ts" "$work/came.ts"
cmp "$work/wanted.ts" "$work/came.ts"
"$tsmux" monitor --rate "$rate" < "$work/came.ts" | tail -n 3
