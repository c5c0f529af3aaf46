#!/bin/sh
# The console held to its examples, to input of any kind, and to files that it cannot read or write.
# Run it once crates/max3420e/out/max3420e is built (./max3420e does so where it is missing). A failure is told on standard error, and has
# status 1.
set -u
cd "$(dirname "$0")/.." || exit 1
program=crates/max3420e/out/max3420e
bytes=10000000
[ -x "$program" ] || { echo "console: $program is missing: ./max3420e builds it" >&2; exit 1; }
work=$(mktemp -d) || exit 1
trap 'rm -rf "$work"' EXIT
trap 'exit 1' HUP INT TERM
passed=0
failed=0

# check WHAT COMMAND..: the command must succeed.
check() {
    what=$1
    shift
    if "$@"; then
        passed=$((passed + 1))
    else
        failed=$((failed + 1))
        echo "console: FAILED: $what" >&2
    fi
}

same() { cmp -s "$1" "$2"; }
says() { grep -q "$1" "$work/err"; }
silent() { [ ! -s "$1" ]; }

# run NAME INPUT: ends with status 0, writes something, and says nothing on standard error.
run() {
    "$program" "$2" >"$work/$1.out" 2>"$work/err" && [ -s "$work/$1.out" ] && silent "$work/err"
}

# What a call answers.
call='(reply|data|data0|data1)( [0-9A-F]{2})*|ok|silence|ack|nak|stall|idle|refused ([1-57]|[68] found [0-9]+)'

# Every line is an answer with its pin, an error, or a line of show and help, which starts with a blank.
answers_only() {
    ! LC_ALL=C grep -a -q -v -E "^([0-9]+ (($call) int=(low|high|open)|error: .*)|  .*)$" "$1"
}

# answers LINES: what the console says to lines given to printf.
answers() { printf "$1" | "$program"; }

# repeated COUNT TEXT
repeated() { awk -v count="$1" -v text="$2" 'BEGIN { for (i = 0; i < count; i++) printf "%s", text }'; }

# Lines as a script has them, from a fixed seed: calls that a chip sees, words and bytes at random between them.
script_like() {
    awk -v bytes="$bytes" '
    function pick(n) { return int(rand() * n) }
    function byte() { return sprintf("%02X", pick(256)) }
    function many(n,  text) { text = ""; while (n-- > 0) text = text " " byte(); return text }
    function mark(word, odds) { return pick(odds) ? "" : " " word }
    function where() { return pick(9) ? " 00 0" pick(4) : " " byte() " " byte() }
    function request() { return pick(3) ? " " requests[pick(8)] : many(pick(20) ? 8 : pick(20)) }
    function line(k) {
        if (k < 5) return "spi" many(1 + pick(6))
        if (k < 8) return "spi " registers[pick(10)] many(pick(4))
        if (k < 12) return "in" where() mark("lost", 3)
        if (k < 16) return "out" where() " data" pick(2) mark("damaged", 9) many(pick(40) ? pick(5) : 63 + pick(300))
        if (k < 18) return "setup 00 00" mark("damaged", 9) request()
        if (k < 20) return "step"
        if (k < 21) return events[pick(8)]
        if (k < 22) return "spi 7A 08"
        return others[pick(12)]
    }
    BEGIN {
        srand(3420)
        split("80 06 00 01 00 00 40 00,00 05 00 00 00 00 00 00,00 09 01 00 00 00 00 00,02 03 00 00 83 00 00 00," \
            "02 01 00 00 83 00 00 00,80 00 00 00 00 00 02 00,80 06 00 02 00 00 FF 00", r, ",")
        for (i in r) requests[i] = r[i]
        requests[0] = "80 06 01 03 09 04 FF 00"
        split("3A 12 5A 2A 42 1A 58 82 6A", g, " ")
        for (i in g) registers[i] = g[i]
        registers[0] = "02"
        split("stable,vbus on,vbus off,pins 5,reset start,suspend,activity", e, ",")
        for (i in e) events[i] = e[i]
        events[0] = "reset end"
        split("power,show,help,room 64,room 4200,event 0D,hello,spi G,in 0,# a comment,", o, ",")
        for (i in o) others[i] = o[i]
        others[0] = "vbus"
        while (written < bytes) {
            if (++count % 500 == 1) text = "power\nstable\nspi 7A 08"
            else text = line(pick(200) ? pick(22) : 22)
            written += length(text) + 1
            print text
        }
    }'
}

for script in examples/*.txt; do
    name=$(basename "$script" .txt)
    [ "$name" = classroom ] && continue
    check "$script" run "$name" "$script"
    check "$script against its .out" same "$work/$name.out" "examples/$name.out"
    awk '{ printf "%s\r\n", $0 }' "$script" >"$work/crlf"
    check "$script with CRLF" run crlf "$work/crlf"
    check "$script with CRLF against LF" same "$work/crlf.out" "$work/$name.out"
done
"$program" <examples/bench.txt >"$work/stdin.out"
check "standard input against a file" same "$work/stdin.out" "$work/bench.out"

head -c "$bytes" /dev/urandom >"$work/noise"
check "random bytes" run noise "$work/noise"
script_like >"$work/script"
check "random lines" run script "$work/script"
check "random lines: answers" answers_only "$work/script.out"
check "random lines: a record that is reached is sound" [ "$(grep -c ' refused 1 ' "$work/script.out")" -eq 0 ]
for result in 'reply' 'ok' 'silence' 'ack' 'nak' 'stall' 'data0' 'data1' 'data' 'idle' 'refused 5' 'refused 6 found' 'refused 7' \
    'refused 8 found' 'error:'; do
    check "random lines: some $result" grep -q "^[0-9]* $result" "$work/script.out"
done

check "a last line without an end" [ "$(answers 'power\nspi 58 00')" = "$(answers 'power\nspi 58 00\n')" ]
check "a comment behind a call" [ "$(answers 'spi 58 00 # R11\n')" = "1 reply 00 19 int=high" ]
check "one digit, lower case" [ "$(answers 'spi a2 5\nspi A0 0\n')" = "$(answers 'spi A2 05\nspi A0 00\n')" ]
check "nothing to read" [ -z "$(answers '')" ]
check "tick is no line of the console" [ "$(answers 'tick 5\n')" \
    = "1 $(tail -n 1 examples/mistakes.out | sed "s/^[0-9]* //; s/hello/tick/")" ]
{ printf 'spi'; repeated 4096 ' 0'; printf '\nspi'; repeated 4097 ' 0'; echo; } >"$work/transfers"
check "transfers of 4,096 and 4,097 bytes" run transfers "$work/transfers"
check "the first is answered whole" [ "$(head -n 1 "$work/transfers.out" | wc -w)" -eq 4099 ]
check "the other is refused" [ "$(tail -n 1 "$work/transfers.out")" = "2 refused 3 int=high" ]
{ printf 'out 0 1 data0'; repeated 8000 ' 0'; printf '\nsetup 80 0'; repeated 264 ' 0'; echo; } >"$work/payloads"
check "payloads of 8,000 and 264 bytes" run payloads "$work/payloads"
check "both lengths are told" [ "$(tr '\n' ';' <"$work/payloads.out")" \
    = "1 refused 6 found 8000 int=high;2 refused 8 found 264 int=high;" ]
{ printf 'step'; repeated 16380 ' '; printf '\nstep'; repeated 16381 ' '; printf '\nstep\n'; } >"$work/lines"
check "lines of 16,384 and 16,385 bytes" run lines "$work/lines"
check "the longer is an error, and it goes on" [ "$(sed 's/error: .*/error/' "$work/lines.out" | tr '\n' ';')" \
    = "1 idle int=high;2 error;3 idle int=high;" ]

"$program" "$work/missing" >"$work/out" 2>"$work/err"
check "a missing file" says "cannot open .*/missing: No such file"
check "a missing file: no answers" silent "$work/out"
"$program" "$work" >"$work/out" 2>"$work/err"
check "a directory" says "cannot read .*: Is a directory"
check "a directory: no answers" silent "$work/out"
"$program" examples/bench.txt >/dev/full 2>"$work/err"
check "a full device" says "standard output: No space left"
"$program" <&- >"$work/out" 2>"$work/err"
check "standard input closed" says "^max3420e: cannot read standard input: Bad file"
"$program" examples/bench.txt examples/stall.txt >"$work/out" 2>"$work/err"
check "two files" says "one file at most"

# A classroom: its example, refusals by number, faults, input of any kind.
# attend NAME INPUT, said LINES: as run and answers, of a classroom.
attend() {
    "$program" classroom "$2" >"$work/$1.out" 2>"$work/err" && [ -s "$work/$1.out" ] && silent "$work/err"
}
said() { printf "$1" | "$program" classroom | tr '\n' ';'; }
lesson_only() {
    teacher='ok|refused (9|10|11|12)|desk [0-9]+: [0-9]+ calls?|no desk is open|error: .*'
    ! LC_ALL=C grep -a -q -v -E "^([0-9]+ (($call) int=(low|high|open)|$teacher)|  .*)$" "$1"
}
# at DESK KEY: the lines of a script at that desk.
at() { awk -v desk="$1" -v key="$2" '{ print desk, key, $0 }'; }
# Lines of a classroom, from a fixed seed: those of a script at desks with their keys, and others.
lesson_like() {
    awk '
    function pick(n) { return int(rand() * n) }
    BEGIN { srand(16) }
    {
        k = pick(200)
        if (k < 4) print "open", pick(18), (pick(4) ? keys[pick(4)] : "0")
        else if (k < 5) print "close", pick(17)
        else if (k < 6) print others[pick(6)]
        else { desk = pick(5); print desk, (pick(20) ? "A" desk : "B" pick(9)), $0 }
    }
    BEGIN {
        for (i = 0; i < 5; i++) keys[i] = "A" i
        split("desks,help,open,open 3,close x,3 A3", o, ",")
        for (i in o) others[i % 6] = o[i]
        for (i = 0; i < 5; i++) print "open", i, "A" i
    }'
}
check "examples/classroom.txt" attend classroom examples/classroom.txt
check "examples/classroom.txt against its .out" same "$work/classroom.out" examples/classroom.out
awk '{ printf "%s\r\n", $0 }' examples/classroom.txt >"$work/crlf"
check "a classroom with CRLF" attend crlf "$work/crlf"
check "a classroom with CRLF against LF" same "$work/crlf.out" "$work/classroom.out"
"$program" classroom <examples/classroom.txt >"$work/stdin.out"
check "a classroom on standard input" same "$work/stdin.out" "$work/classroom.out"
check "a classroom: random bytes" attend noise "$work/noise"
head -n 100000 "$work/script" | lesson_like >"$work/lesson"
check "a classroom: random lines" attend lesson "$work/lesson"
check "a classroom: random lines: answers" lesson_only "$work/lesson.out"
check "a classroom: a record that is reached is sound" [ "$(grep -c ' refused 1 ' "$work/lesson.out")" -eq 0 ]
for result in reply ok silence ack nak stall data0 data1 data idle 'refused 9' 'refused 10' 'refused 11' 'refused 12' 'desk' 'error:'; do
    check "a classroom: random lines: some $result" grep -q "^[0-9]* $result" "$work/lesson.out"
done
# A desk answers as the console does, whatever is sent to another: lines at desk 0, and between them others at desk 1.
head -n 20000 "$work/script" | grep -v '^#' | sed '/^$/d' >"$work/plain"
"$program" "$work/plain" | sed 's/^[0-9][0-9]* //' >"$work/alone.out"
{ echo 'open 0 A0'; echo 'open 1 A1'; at 0 A0 <"$work/plain"; } >"$work/one"
"$program" classroom "$work/one" | sed 's/^[0-9][0-9]* //; 1,2d' >"$work/one.out"
check "a desk answers as the console" same "$work/one.out" "$work/alone.out"
{
    echo 'open 0 A0'
    echo 'open 1 A1'
    tail -n 20000 "$work/script" | grep -v -E '^(#|show|help)' | sed '/^$/d' | at 1 A1 >"$work/others"
    at 0 A0 <"$work/plain" | grep -v -E ' (show|help)$' | paste -d '\n' - "$work/others"
} >"$work/two"
"$program" classroom "$work/two" | awk '$1 > 2 && $1 % 2 { sub(/^[0-9]* /, ""); print }' >"$work/two.out"
grep -v '^  ' "$work/alone.out" >"$work/calls.out"
check "a desk answers the same beside another" same "$work/two.out" "$work/calls.out"

check "keys of either case, of one and eight digits" [ "$(said 'open 0 f\nopen 1 DeadBeef\n0 0000000F room 1\n1 DEADBEEF step\n')" \
    = "1 ok;2 ok;4 idle int=high;" ]
check "a key of nine digits" [ "$(said 'open 0 123456789\n0 123456789 step\n')" \
    = "1 error: a key is one to eight hex digits, not '123456789';2 error: a key is one to eight hex digits, not '123456789';" ]
check "desks that are not there" [ "$(said 'open 16 1\nopen 256 1\n272 1 step\nclose 99999999999999999999\nopen 15 1\nopen 00 2\n')" \
    = "1 refused 9;2 refused 9;3 refused 9;4 refused 9;5 ok;6 ok;" ]
check "a wrong key, whatever follows" [ "$(said 'open 2 7\n2 8 spi\n2 8 show\n2 8 help\n2 8 room x\n2 8 hello\n2 8\n')" \
    = "1 ok;2 refused 11;3 refused 11;4 refused 11;5 refused 11;6 refused 11;7 refused 11;" ]
check "a refused opening leaves the desk as it is" [ "$(said 'open 2 7\n2 7 room 1\nopen 2 8\n2 7 spi 58 00\ndesks\n')" \
    = "1 ok;3 refused 10;4 refused 4 int=high;5 desk 2: 1 call;" ]
check "an opening puts room and calls back" [ "$(said 'open 2 7\n2 7 room 1\n2 7 step\nclose 2\nopen 2 7\n2 7 spi 58 00\ndesks\n')" \
    = "1 ok;3 refused 4 int=high;4 ok;5 ok;6 reply 00 19 int=high;7 desk 2: 1 call;" ]
check "no desk is open" [ "$(said 'desks\n# none\n\n')" = "1 no desk is open;" ]
{ printf 'open 1 1\n1 1 step'; repeated 16376 ' '; printf '\n1 1 step'; repeated 16377 ' '; printf '\n1 1 step\n'; } >"$work/lines"
check "a classroom: lines of 16,384 and 16,385 bytes" attend lines "$work/lines"
check "a classroom: the longer is an error, and it goes on" [ "$(sed 's/error: .*/error/' "$work/lines.out" | tr '\n' ';')" \
    = "1 ok;2 idle int=high;3 error;4 idle int=high;" ]
"$program" classroom "$work/missing" >"$work/out" 2>"$work/err"
check "a classroom: a missing file" says "cannot open .*/missing: No such file"
"$program" classroom examples/bench.txt examples/stall.txt >"$work/out" 2>"$work/err"
check "a classroom: two files" says "one file at most"
"$program" classroom examples/classroom.txt >/dev/full 2>"$work/err"
check "a classroom: a full device" says "standard output: No space left"
cp examples/bench.txt "$work/classroom"
check "a file called classroom" [ "$(cd "$work" && "$OLDPWD/$program" ./classroom)" = "$(cat examples/bench.out)" ]

# Lessons: recorded from a script, played from a file; every failure has status 1 and is told on standard error.
# record NAME SCRIPT, play NAME FILE: end with status 0 and say nothing on standard error.
record() { ./max3420e record "$2" "$work/$1.lesson" >"$work/$1.said" 2>"$work/err" && silent "$work/err"; }
play() { ./max3420e replay "$2" >"$work/$1.out" 2>"$work/err" && silent "$work/err"; }
# results FILE: the answers of a replay, or of the console, without what stands before them.
results() { sed -E '/^[^ ]*: [0-9]+ entr(y|ies), /d; s/^[0-9]+ (tick [0-9]+ \+[0-9]+ )?//' "$1"; }
# as_console NAME SCRIPT: what the lesson of a script is answered is what the console answers to its lines.
as_console() {
    record "$1" "$2" && play "$1" "$work/$1.lesson" || return 1
    grep -v '^tick' "$2" | "$program" >"$work/lines.out"
    results "$work/lines.out" >"$work/lines.results"
    results "$work/$1.out" >"$work/$1.results"
    [ -s "$work/$1.results" ] && same "$work/$1.results" "$work/lines.results"
}
for script in examples/lessons/*.txt; do
    name=$(basename "$script" .txt)
    lesson=examples/lessons/$name.lesson
    check "$script" as_console "$name" "$script"
    check "$script against its .lesson" same "$work/$name.lesson" "$lesson"
    check "$lesson" play "$name" "$lesson"
    check "$lesson against its .out" same "$work/$name.out" "examples/lessons/$name.out"
    check "$script: what record says" [ "$(cat "$work/$name.said")" \
        = "$work/$name.lesson: $(tail -n 1 "$work/$name.out" | sed 's/^[^ ]*: //; s/,.*//'), $(wc -c <"$lesson") bytes" ]
    awk '{ printf "%s\r\n", $0 }' "$script" >"$work/crlf"
    check "$script with CRLF" record crlf "$work/crlf"
    check "$script with CRLF against LF" same "$work/crlf.lesson" "$lesson"
done
# Random lines, the calls among them, 250 to a lesson.
head -n 6000 "$work/script" | grep -v -E '^(step|show|help|room.*|hello|spi G|in 0|vbus|#.*|)$' | split -l 250 - "$work/lesson_"
for script in "$work"/lesson_*; do
    check "random calls as a lesson" as_console calls "$script"
    cat "$work/calls.results" >>"$work/all.results"
done
for result in reply ok silence ack nak stall data0 data1 'refused 5' 'refused 6 found' 'refused 8 found' 'refused 7'; do
    check "random calls as a lesson: some $result" grep -q "^$result" "$work/all.results"
done

# damaged WORDS BYTES..: a file of these bytes, given to printf, is no lesson: nothing is played, and it is told why.
damaged() {
    words=$1
    shift
    printf "$@" >"$work/damaged"
    refused "$words"
}
refused() {
    ./max3420e replay "$work/damaged" >"$work/out" 2>"$work/err"
    [ "$?" -eq 1 ] && silent "$work/out" && [ "$(cat "$work/err")" = "max3420e: $work/damaged is no lesson: refused 13 $1" ]
}
check "damaged: empty" damaged 'entry 0: the file has 0 bytes, a lesson at least 2' ''
check "damaged: one byte" damaged 'entry 0: the file has 1 byte, a lesson at least 2' '\1'
check "damaged: version" damaged "entry 0: the file's version is 2, not 1" '\2\0'
check "damaged: the first entry is missing" damaged 'entry 0: it is missing: the file ends at byte 2, inside the table of 1 entry' '\1\1'
first='\1\0\0\0\0\030\0\0\0\1\0'
second='\2\1\0\0\0\031\0\0\0\1\0'
printf '\1\2'"$first$second"'X\1' >"$work/two.lesson"
check "a lesson of two entries" play two "$work/two.lesson"
check "a lesson of two entries: what it says" [ "$(tail -n 1 "$work/two.out")" = "$work/two.lesson: 2 entries, 0 refused, 1 tick" ]
check "damaged: the second entry is cut" damaged 'entry 1: it is missing: the file ends at byte 20, inside the table of 2 entries' \
    '\1\2'"$first"'\2\1\0\0\0\031\0'
check "damaged: kind" damaged 'entry 1: at byte 13 its kind is 7, not 1 or 2' '\1\2'"$first"'\7\1\0\0\0\031\0\0\0\1\0X\1'
check "damaged: kind before a missing entry" damaged 'entry 0: at byte 2 its kind is 0, not 1 or 2' '\1\2\0\0\0\0\0\030\0\0\0\1\0'
check "damaged: offset" damaged 'entry 1: at byte 13 its body is said to be at byte 26, it must be at byte 25' \
    '\1\2'"$first"'\2\1\0\0\0\032\0\0\0\1\0X\1'
check "damaged: an offset of 32 bits" damaged 'entry 0: at byte 2 its body is said to be at byte 4294967295, it must be at byte 24' \
    '\1\2\1\0\0\0\0\377\377\377\377\1\0'"$second"'X\1'
check "damaged: bytes after the last body" damaged 'entry 2: the last body ends at byte 26, the file at byte 27' '\1\2'"$first$second"'X\1Y'
check "damaged: the last body is cut" damaged 'entry 2: the last body ends at byte 26, the file at byte 25' '\1\2'"$first$second"'X'
check "damaged: bytes after no entries" damaged 'entry 0: a lesson of no entries ends at byte 2, the file at byte 3' '\1\0\0'
{ printf '\1\1\1\0\0\0\0\015\0\0\0\363\377'; head -c 65523 /dev/zero; } >"$work/damaged"
check "a lesson of 65,536 bytes" play large "$work/damaged"
check "a lesson of 65,536 bytes: its entry is refused" [ "$(tr '\n' ';' <"$work/large.out")" \
    = "0 tick 0 +0 refused 3 int=high;$work/damaged: 1 entry, 1 refused, 0 ticks;" ]
printf '\0' >>"$work/damaged"
check "damaged: 65,537 bytes" refused 'entry 0: the file has over 65536 bytes'
cp "$work/noise" "$work/damaged"
check "damaged: random bytes" refused 'entry 0: the file has over 65536 bytes'
# Each byte of a lesson changed in turn: it is played, or it is refused; never both or neither.
either() {
    if ./max3420e replay "$1" >"$work/out" 2>"$work/err"; then
        silent "$work/err" && tail -n 1 "$work/out" | grep -q -E ': 2 entries, [0-2] refused, [0-9]+ ticks?$'
    else
        silent "$work/out" && says 'is no lesson: refused 13 entry [0-9]*: '
    fi
}
at=0
while [ "$at" -lt 26 ]; do
    { head -c "$at" "$work/two.lesson"; printf '\7'; tail -c +"$((at + 2))" "$work/two.lesson"; } >"$work/damaged"
    check "a lesson whose byte $at is changed" either "$work/damaged"
    at=$((at + 1))
done

# unrecorded WORDS SCRIPT: the script, given to printf, is not recorded: the words are told, and a file that is there stays as it is.
unrecorded() {
    printf "$2" >"$work/wrong"
    unwritten "$1"
}
unwritten() {
    rm -f "$work/new"
    echo kept >"$work/old"
    for file in new old; do
        ./max3420e record "$work/wrong" "$work/$file" >"$work/out" 2>"$work/err"
        [ "$?" -eq 1 ] && silent "$work/out" && [ "$(cat "$work/err")" = "max3420e: $work/wrong line $1" ] || return 1
    done
    [ ! -e "$work/new" ] && [ "$(cat "$work/old")" = kept ]
}
starts='a line of a lesson starts with spi, power, stable, vbus, pins, reset, suspend, activity, setup, out, in, event or tick'
for word in step room show help hello; do
    check "not recorded: $word" unrecorded "3: $starts, not '$word'" "power\n\n$word 1\n"
done
check "not recorded: a byte" unrecorded "1: a byte is one or two hex digits, not 'G1'" 'spi G1\n'
check "not recorded: a line that goes on" unrecorded "2: the line should end here, not 'on'" 'stable\npower on'
check "not recorded: a tick over 32 bits" unrecorded "2: a tick is a decimal number, 0 to 4294967295, not '4294967296'" \
    'tick 4294967295\ntick 4294967296\n'
check "not recorded: no tick" unrecorded "1: a tick is a decimal number, 0 to 4294967295, but the line ends" 'tick # 7\n'
check "not recorded: a hex tick" unrecorded "1: a tick is a decimal number, 0 to 4294967295, not '1F'" 'tick 1F\n'
check "not recorded: two ticks" unrecorded "1: the line should end here, not '8'" 'tick 7 8\n'
{ echo power; printf 'power'; repeated 16380 ' '; echo; } >"$work/wrong"
check "not recorded: a line of 16,385 bytes" unwritten "2: a line has at most 16384 bytes"
repeated 255 'power
' >"$work/wrong"
check "255 entries" as_console most "$work/wrong"
check "255 entries: what record says" [ "$(cat "$work/most.said")" = "$work/most.lesson: 255 entries, 3062 bytes" ]
echo power >>"$work/wrong"
check "not recorded: 256 entries" unwritten "256: a lesson has at most 255 entries"
{ for i in 1 2 3 4 5 6 7 8 9 10 11 12 13; do printf 'spi'; repeated 5000 ' 0'; echo; done; printf 'spi'; repeated 380 ' 0'; } >"$work/wrong"
check "65,536 bytes" as_console full "$work/wrong"
check "65,536 bytes: what record says" [ "$(cat "$work/full.said")" = "$work/full.lesson: 14 entries, 65536 bytes" ]
printf ' 0\n' >>"$work/wrong"
check "not recorded: 65,537 bytes" unwritten "14: a lesson has at most 65536 bytes"
printf '# nothing\n\n' >"$work/empty"
check "an empty script" record empty "$work/empty"
check "an empty script: two bytes" [ "$(od -An -tx1 "$work/empty.lesson") $(cat "$work/empty.said")" \
    = " 01 00 $work/empty.lesson: 0 entries, 2 bytes" ]
check "a lesson of no entries" play empty "$work/empty.lesson"
check "a lesson of no entries: what it says" [ "$(cat "$work/empty.out")" = "$work/empty.lesson: 0 entries, 0 refused, 0 ticks" ]
printf 'tick 4294967295\npower\nstable\ntick 4294967295\nstable\n' >"$work/wraps"
check "ticks that wrap" as_console wraps "$work/wraps"
check "ticks that wrap: the next is 0, and the whole turn is counted" [ "$(sed 's/ ok int=high//' "$work/wraps.out" | tr '\n' ';')" \
    = "0 tick 4294967295 +0;1 tick 0 +1;2 tick 4294967295 +4294967295;$work/wraps.lesson: 3 entries, 0 refused, 4294967296 ticks;" ]

# fails WORDS ARGUMENTS..: status 1, and the words.
fails() {
    words=$1
    shift
    ./max3420e "$@" >"$work/out" 2>"$work/err"
    [ "$?" -eq 1 ] && silent "$work/out" && says "$words"
}
check "replay without a file" fails 'max3420e replay FILE' replay
check "replay of two files" fails 'max3420e replay FILE' replay "$work/two.lesson" "$work/two.lesson"
check "record without a file" fails 'max3420e record SCRIPT FILE' record examples/lessons/mistakes.txt
check "record to two files" fails 'max3420e record SCRIPT FILE' record examples/lessons/mistakes.txt "$work/new" "$work/old"
check "replay of a missing file" fails 'cannot open .*/missing: No such file' replay "$work/missing"
check "replay of a directory" fails 'cannot read .*: Is a directory' replay "$work"
check "record of a missing script" fails 'cannot open .*/missing: No such file' record "$work/missing" "$work/new"
check "record of a directory" fails 'cannot read .*: Is a directory' record "$work" "$work/new"
check "record: no file is made" [ ! -e "$work/new" ]
check "record to a directory" fails 'cannot write .*: Is a directory' record examples/lessons/mistakes.txt "$work"
check "record to a full device" fails 'cannot write /dev/full: No space left' record examples/lessons/mistakes.txt /dev/full
./max3420e replay examples/lessons/mistakes.lesson >/dev/full 2>"$work/err"
check "replay to a full device: status 1" [ "$?" -eq 1 ]
check "replay to a full device: and the message" says "standard output: No space left"
for word in replay record; do
    cp examples/bench.txt "$work/$word"
    check "a file called $word" [ "$(cd "$work" && "$OLDPWD/$program" "./$word")" = "$(cat examples/bench.out)" ]
done
printf '%s\n' examples/lessons/*.lesson | xargs -P 2 -n 1 ./max3420e replay >"$work/all.out" 2>"$work/err"
check "many lessons at once: status 0" [ "$?" -eq 0 ]
check "many lessons at once: a summary for each" \
    [ "$(grep -c '\.lesson: [0-9]* entries, [0-9]* refused, [0-9]* ticks$' "$work/all.out")" -eq 3 ]
printf '\2\0' >"$work/damaged"
printf '%s\n' examples/lessons/*.lesson "$work/damaged" | xargs -P 2 -n 1 ./max3420e replay >"$work/all.out" 2>"$work/err"
check "many lessons, one of them damaged: not status 0" [ "$?" -ne 0 ]
check "many lessons, one of them damaged: the file is named" says "^max3420e: $work/damaged is no lesson: "
check "many lessons, one of them damaged: the others are played" [ "$(grep -c '\.lesson: ' "$work/all.out")" -eq 3 ]

check "./max3420e: status 0" [ "$(./max3420e examples/bench.txt 2>&1)" = "$(cat examples/bench.out)" ]
check "./max3420e classroom: status 0" [ "$(./max3420e classroom examples/classroom.txt 2>&1)" = "$(cat examples/classroom.out)" ]
./max3420e "$work/missing" >"$work/out" 2>"$work/err"
check "./max3420e: status 1 for a missing file" [ "$?" -eq 1 ]
check "./max3420e: and the message" says "cannot open .*/missing: No such file"
./max3420e examples/bench.txt >/dev/full 2>"$work/err"
check "./max3420e: status 1 for a full device" [ "$?" -eq 1 ]

if [ "$failed" -ne 0 ]; then
    echo "console: $failed of $((passed + failed)) checks failed" >&2
    exit 1
fi
echo "console: $passed checks passed"
