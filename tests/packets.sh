#!/bin/sh
# `max3420e packets` held to its examples, to runs of any kind, and to the console; its captures to stored ones and to tshark, which is
# installed where that can be done. Run it once crates/max3420e/out/max3420e is built (./max3420e does so where it is missing).
set -u
cd "$(dirname "$0")/.." || exit 1
program=crates/max3420e/out/max3420e
[ -x "$program" ] || { echo "packets: $program is missing: ./max3420e builds it" >&2; exit 1; }
work=$(mktemp -d) || exit 1
trap 'rm -rf "$work"' EXIT
trap 'exit 1' HUP INT TERM
examples=examples/packets
passed=0
failed=0

# check WHAT COMMAND..: the command must succeed.
check() {
    what=$1
    shift
    if "$@"; then
        passed=$((passed + 1))
    else
        failed=$((failed + 1))
        echo "packets: FAILED: $what" >&2
    fi
}

same() { cmp -s "$1" "$2"; }
silent() { [ ! -s "$1" ]; }
says() { grep -q "$1" "$work/err"; }

# play NAME ARGUMENTS..: status 0, something is written, nothing on standard error.
play() {
    name=$1
    shift
    ./max3420e packets "$@" >"$work/$name.out" 2>"$work/err" && [ -s "$work/$name.out" ] && silent "$work/err"
}
capture() { ./max3420e packets --pcap "$1" "$2" >"$work/said" 2>"$work/err" && silent "$work/err"; }
# fails WORDS ARGUMENTS..: status 1, nothing is written, and the words on standard error.
fails() {
    words=$1
    shift
    ./max3420e "$@" >"$work/out" 2>"$work/err"
    [ "$?" -eq 1 ] && silent "$work/out" && says "$words"
}
# Every line is a packet, an item, or the summary.
number='[0-9]+'
bytes='( [0-9A-F]{2})+'
target='[0-7][0-9A-F] 0[0-9A-F]'
known="(setup|out|in) $target|sof $number|data[01]($bytes)?|ack|nak|stall|other:$bytes"
wrong="bad: wrong (complement|length|check)"
event="setup $target($bytes)?|out $target data[01]($bytes)?|in $target( lost)?"
answer='(silence|ack|nak|stall|data[01]( [0-9A-F]{2})*|refused ([1457]|[68] found [0-9]+)) int=(low|high|open)'
lines_only() {
    ! LC_ALL=C grep -a -q -v -E "^($number at $number ($known|$wrong(:$bytes|: no bytes))|at $number (($event): $answer|$wrong)|[^ ]*: $number packets?, $number events?, $number bad, $number skipped)$" "$1"
}
# The summary says what the lines do: a packet is bad, skipped, a token of an event, or the one that it takes.
adds_up() {
    awk '
    /^[0-9]+ at / { packets++; next }
    /^at [0-9]+ bad/ { bad++; next }
    /^at / { events++; taken += !/ lost: / ; next }
    { split($0, words, /[ ,]+/); ok = words[2] == packets + 0 && words[4] == events + 0 && words[6] == bad + 0 \
        && words[8] == packets - bad - events - taken }
    END { exit !ok }' "$1"
}
# as_console OUT [SCRIPT]: the events, as lines of a script after the given one, are answered by the console as they were played.
as_console() {
    sed -n -E 's/^at [0-9]+ ((setup|out|in) [^:]*): .*/\1/p' "$1" >"$work/lines"
    sed -n -E 's/^at [0-9]+ (setup|out|in) [^:]*: //p' "$1" >"$work/answers"
    cat ${2:+"$2"} "$work/lines" | "$program" | sed 's/^[0-9]* //' | tail -n "$(wc -l <"$work/lines")" >"$work/console"
    [ -s "$work/lines" ] && same "$work/answers" "$work/console"
}

for run in "$examples"/*.run; do
    stem=${run%.run}
    name=$(basename "$stem")
    script=
    [ -e "$stem.txt" ] && script=$stem.txt
    check "$run" play "$name" "$run" ${script:+"$script"}
    check "$run against its .out" same "$work/$name.out" "$stem.out"
    check "$run as the console answers" as_console "$work/$name.out" ${script:+"$script"}
    check "$run: the capture" capture "$run" "$work/$name.pcap"
    check "$run: the capture against its .pcap" same "$work/$name.pcap" "$stem.pcap"
    check "$run: what is said of it" grep -q -E "^$work/$name.pcap: $number packets, $(wc -c <"$stem.pcap") bytes$" "$work/said"
    # Cut off anywhere: it is read to its end, whatever that is.
    at=$(wc -c <"$run")
    while [ "$at" -gt 0 ]; do
        at=$((at - 1))
        head -c "$at" "$run" >"$work/cut"
        check "$run cut off at byte $at" play cut "$work/cut"
        check "$run cut off at byte $at: lines" lines_only "$work/cut.out"
        check "$run cut off at byte $at: counts" adds_up "$work/cut.out"
    done
done

# hex BYTES..: a file of these bytes.
hex() { for byte; do printf "\\$(printf %03o "0x$byte")"; done >"$work/run"; }
# listed LINES BYTES..: a run of these bytes is listed and played so, lines apart by a semicolon.
listed() {
    lines=$1
    shift
    hex "$@"
    play one "$work/run" && [ "$(sed '$d' "$work/one.out" | tr '\n' ';')" = "$lines" ]
}
check "an empty file" listed ''
check "an empty file: the summary" [ "$(cat "$work/one.out")" = "$work/run: 0 packets, 0 events, 0 bad, 0 skipped" ]
check "a lone length byte" listed '0 at 0 bad: wrong length: no bytes;at 0 bad: wrong length;' 03
check "a length and no packet" listed '0 at 0 bad: wrong length: no bytes;at 0 bad: wrong length;' 03 00
check "an empty packet" listed '0 at 0 bad: wrong length: no bytes;1 at 2 ack;at 0 bad: wrong length;' 00 00 01 00 D2
check "cut off in a token" listed '0 at 0 bad: wrong length: 69 00;at 0 bad: wrong length;' 03 00 69 00
check "cut off, and the complement wrong" listed '0 at 0 bad: wrong complement: 68;at 0 bad: wrong complement;' 03 00 68
check "cut off, and skipped for its PID" listed '0 at 0 other: 3C;' 03 00 3C
check "the high byte of a length" listed '0 at 0 bad: wrong length: D2;at 0 bad: wrong length;' 01 01 D2
check "an IN" listed '0 at 0 in 03 03;at 0 in 03 03 lost: silence int=high;' 03 00 69 83 C9
check "an IN and its ACK" listed '0 at 0 in 03 03;1 at 5 ack;at 0 in 03 03: silence int=high;' 03 00 69 83 C9 01 00 D2
check "a SOF" listed '0 at 0 sof 1;' 03 00 A5 01 E8
check "a wrong CRC5" listed '0 at 0 bad: wrong check: A5 01 E9;at 0 bad: wrong check;' 03 00 A5 01 E9
check "a SETUP of one byte" listed '0 at 0 setup 00 00;1 at 5 data0 01;at 0 setup 00 00 01: refused 8 found 1 int=high;' \
    03 00 2D 00 10 04 00 C3 01 81 7F

# A run of the greatest length, packets of 257 bytes with a wrong complement, the last cut off; and one byte more.
head -c 1048576 /dev/zero | tr '\0' '\1' >"$work/long"
check "1,048,576 bytes" play long "$work/long"
check "1,048,576 bytes: counts" adds_up "$work/long.out"
check "1,048,576 bytes: the capture" capture "$work/long" "$work/long.pcap"
printf '\1' >>"$work/long"
check "1,048,577 bytes" fails "^max3420e: $work/long has over 1048576 bytes$" packets "$work/long"
check "1,048,577 bytes: no capture" fails "^max3420e: $work/long has over 1048576 bytes$" packets --pcap "$work/long" "$work/none"
check "1,048,577 bytes: no capture is made" [ ! -e "$work/none" ]

# Any bytes at all: random ones, and packets of the examples among them.
for size in 1 100 10000 1048576; do
    head -c "$size" /dev/urandom >"$work/noise"
    check "$size random bytes" play noise "$work/noise"
    check "$size random bytes: lines" lines_only "$work/noise.out"
    check "$size random bytes: counts" adds_up "$work/noise.out"
    check "$size random bytes: the capture" capture "$work/noise" "$work/noise.pcap"
done
for turn in 1 2 3 4 5 6 7 8; do
    for part in 1 2 3 4 5 6; do
        cat "$examples"/*.run
        head -c "$((turn * part))" /dev/urandom
    done >"$work/mixed"
    check "random bytes among packets" play mixed "$work/mixed" "$examples/probe.txt"
    check "random bytes among packets: as the console answers" as_console "$work/mixed.out" "$examples/probe.txt"
done

check "no file" fails 'max3420e packets FILE \[SCRIPT\]' packets
check "three files" fails 'max3420e packets FILE \[SCRIPT\]' packets 1 2 3
check "a capture without a file" fails 'max3420e packets --pcap FILE OUT' packets --pcap "$examples/probe.run"
check "a missing file" fails 'cannot open .*/missing: No such file' packets "$work/missing"
check "a directory" fails 'cannot read .*: Is a directory' packets "$work"
check "a missing script" fails 'cannot open .*/missing: No such file' packets "$examples/probe.run" "$work/missing"
./max3420e packets "$examples/probe.run" "$work" >"$work/out" 2>"$work/err"
check "a script that is a directory: status 1" [ "$?" -eq 1 ]
check "a script that is a directory: and the message" says 'cannot read .*: Is a directory'
check "a capture of a missing file" fails 'cannot open .*/missing: No such file' packets --pcap "$work/missing" "$work/none"
check "a capture of a missing file: none is made" [ ! -e "$work/none" ]
check "a capture to a directory" fails 'cannot write .*: Is a directory' packets --pcap "$examples/probe.run" "$work"
check "a capture to a full device" fails 'cannot write /dev/full: No space left' packets --pcap "$examples/probe.run" /dev/full
for arguments in "$examples/bad.run" "$examples/probe.run $examples/probe.txt"; do
    # shellcheck disable=SC2086
    ./max3420e packets $arguments >/dev/full 2>"$work/err"
    check "a full device: status 1" [ "$?" -eq 1 ]
    check "a full device: the message, once" [ "$(grep -c 'standard output: No space left' "$work/err")" -eq 1 ]
done
cp examples/bench.txt "$work/packets"
check "a file called packets" [ "$(cd "$work" && "$OLDPWD/$program" ./packets)" = "$(cat examples/bench.out)" ]

# What tshark makes of a capture: PID, address, endpoint, frame number, data, the check fields, and what it complains of.
dissect() {
    tshark -r "$1" -T fields -e usbll.pid -e usbll.device_addr -e usbll.endp -e usbll.frame_num -e usbll.data -e usbll.crc5.status \
        -e usbll.crc16.status -e _ws.expert.message -E separator=, 2>"$work/tshark"
}
# A packet with nothing wrong: its check field, where it has one, is good, and there is no complaint.
good='^0x(2d|e1|69),[0-9]+,[0-9]+,,,1,,$|^0xa5,,,[0-9]+,,1,,$|^0x(c3|4b),,,,[0-9a-f]*,,1,$|^0x(d2|5a|1e),,,,,,,$'
good_only() { [ -s "$1" ] && ! grep -q -v -E "$good" "$1"; }
# damaged FILE PLACE: a copy whose byte there has another lowest bit.
damaged() {
    byte=$(od -An -tu1 -j "$2" -N 1 "$1")
    { head -c "$2" "$1"; printf "\\$(printf %03o "$((byte / 2 * 2 + 1 - byte % 2))")"; tail -c +"$(($2 + 2))" "$1"; } >"$work/damaged.pcap"
}
if ! command -v tshark >/dev/null 2>&1 && [ "$(id -u)" -eq 0 ] && command -v apt-get >/dev/null 2>&1; then
    DEBIAN_FRONTEND=noninteractive timeout 300 sh -c \
        'apt-get update && apt-get install -y --no-install-recommends tshark' >/dev/null 2>&1 </dev/null
fi
if command -v tshark >/dev/null 2>&1; then
    for listing in "$examples"/*.tshark; do
        stem=${listing%.tshark}
        dissect "$stem.pcap" >"$work/listing"
        check "$stem.pcap in tshark" good_only "$work/listing"
        check "$stem.pcap in tshark against its listing" same "$work/listing" "$listing"
        # A bit of the last byte of each of the first ten packets: the check must see it.
        place=24
        count=10
        while [ "$count" -gt 0 ]; do
            size=$(od -An -tu4 -j "$((place + 8))" -N 4 "$stem.pcap")
            place=$((place + 16 + size))
            damaged "$stem.pcap" "$((place - 1))"
            dissect "$work/damaged.pcap" >"$work/listing"
            check "$stem.pcap damaged at byte $((place - 1)): tshark says so" [ "$(good_only "$work/listing"; echo $?)" -eq 1 ]
            count=$((count - 1))
        done
    done
    dissect "$examples/bad.pcap" >"$work/listing"
    check "$examples/bad.pcap in tshark: bad packets are seen" [ "$(good_only "$work/listing"; echo $?)" -eq 1 ]
else
    echo "packets: tshark cannot be had: its check of the captures is skipped, and they are compared with the stored ones only" >&2
fi

if [ "$failed" -ne 0 ]; then
    echo "packets: $failed of $((passed + failed)) checks failed" >&2
    exit 1
fi
echo "packets: $passed checks passed"
