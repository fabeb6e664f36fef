#!/bin/sh
# run.sh TSJOB TSMUX [RECEIVER [NAME..]]: each stream of make-streams (or those named) by `tsjob | tsmux mux`, and what came out beside what
# went in: same-stream has what is compared, tools/plain-job reads the job and the lines beside it once more. RECEIVER is the
# measuring program of bench/receiver.py; with `-` the receiver's buffers are not asked. A line a stream: the rates of input,
# elementary streams and output in kbit/s, the last over the one before, and the verdict. Status 1 where anything differs.
set -u
here=$(cd "$(dirname "$0")" && pwd)
tsjob=$1
tsmux=$2
receiver=${3:--}
shift $(($# < 3 ? $# : 3))
streams=$here/../../out/any-stream
results=$streams/results
mkdir -p "$results"
sh "$here/make-streams" "$streams" > "$results/made" || { cat "$results/made"; exit 3; }
status=0

# try NAME OPTIONS..: one stream, which is no capture, on the clock of the input
try() {
    name=$1
    shift
    stream=$streams/$name.ts
    result=$results/$name$(echo "$*" | tr -d ' ')
    printf '%-28s ' "$name${*:+ $*}"
    set -- --base input "$@"
    "$tsjob" -v --whole "$@" < "$stream" > "$result.job" 2> "$result.lines"
    if [ $? -gt 1 ] || ! [ -s "$result.job" ]; then
        echo "tsjob: $(tail -n 1 "$result.lines")"
        status=1
    elif ! "$tsmux" mux < "$result.job" > "$result.ts" 2> "$result.fault"; then
        echo "mux: $(cat "$result.fault")"
        status=1
    else
        "$here/same-stream" "$tsmux" "$receiver" "$stream" "$result.job" "$result.ts" "$@" || status=1
        plain=$("$here/../../tools/plain-job" "$stream" "$result.job" --told "$result.lines" --whole "$@") || { echo "plain-job: $plain"; status=1; }
    fi
}

printf '%-28s %6s %6s %6s  %s\n' stream input units output "output over units"
for name in ${*:-$(cd "$streams" && ls -- *.ts | sed 's/\.ts$//')}; do
    case $name in
        gst-pts-alone) try "$name" --make-dts --buffers 65:24000000:3766000 ;;
        *) try "$name" ;;
    esac
    case $name in
        radio) try "$name" --pcr 100 ;;
        mpeg2) try "$name" --buffers 256:18000000:600000 ;;
        h264-aac) try "$name" --lead 45000 ;;
        h264-no-b) try "$name" --rate 4000000 ;;
        two-programs) try "$name" --program 2 ;;
        two-languages) try "$name" --without 257 --start 2026-01-01T00:00:00 ;;
        gst-pts-alone) try "$name" --make-dts ;;
    esac
done
exit $status
