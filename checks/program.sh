#!/usr/bin/env bash
# Runs the proved program, or the one that the first word names, on real files and compares status, standard output, standard error and the
# files byte by byte.
#
# What is expected is worked out by hand from the rules; nothing of it was printed by the program.
# In each case the files have to be as they were before, but for the bytes that the case itself puts into the folder want.
set -u

top=$(dirname "$(dirname "$(readlink -f "${BASH_SOURCE[0]}")")")
if [ $# = 0 ]; then
    "$top/innopool" build || exit 1
fi
program=$(readlink -f "${1:-$top/crates/innopool/out/innopool}")

work=$(mktemp -d) || exit 1
trap 'rm -rf "$work"' EXIT
cd "$work" || exit 1
mkdir case

passed=0
failed=0

# The settings of a pool of four frames, and of the lines that most scripts begin with: lines 1 to 5.
four_frames=$'page 4096\nframes 4\nsize 16384\nmax 2\n'
thread=$four_frames$'thread 1\n'

# The trail of a script without commands.
empty_trail=$'trail 0 1 0\nE 1 0.1 clean 0 -\n'

# zeros COUNT: so many bytes.
zeros() {
    head -c "$1" /dev/zero
}

# put FILE AT BYTES: writes bytes, given as printf takes them, into a file.
put() {
    printf "$3" | dd of="$1" bs=1 seek="$2" conv=notrunc status=none
}

# hex FILE AT BYTES: writes bytes, given in hexadecimal with or without blanks, into a file.
hex() {
    local digits=${3// /} escapes=
    while [ -n "$digits" ]; do
        escapes+="\\x${digits:0:2}"
        digits=${digits:2}
    done
    put "$1" "$2" "$escapes"
}

# stamp FILE SIZE SPACE PAGE LSN: what a page has in its header and trailer once it is written. The space has 8 digits, the LSN 16, both hexadecimal.
stamp() {
    local at=$(($4 * $2)) number
    printf -v number %08x "$4"
    hex "$1" "$at" "deadbeef $number"
    hex "$1" $((at + 16)) "$5"
    hex "$1" $((at + 34)) "$3"
    hex "$1" $((at + $2 - 8)) "deadbeef ${5:8}"
}

# blank_space: the tablespace of the next case is 64 pages of zeros, and there is no log.
blank_space() {
    rm -rf case
    mkdir case
    zeros $((64 * 4096)) >case/space
}

# blank_files: the same, with an empty log.
blank_files() {
    blank_space
    : >case/log
}

# begin: what lies in the folder of the case is to lie there at the end.
begin() {
    rm -rf want
    cp -a case want
}

# expect NAME STATUS OUT ERR: judges the run whose status is in $status, and whose output and error stand in out and err.
expect() {
    local faults=
    printf %s "$3" >want_out
    printf %s "$4" >want_err
    [ "$status" = "$2" ] || faults+=" status $status, not $2;"
    cmp -s out want_out || faults+=" standard output differs;"
    cmp -s err want_err || faults+=" standard error differs;"
    diff -r --no-dereference want case >/dev/null 2>&1 || faults+=" the files differ;"
    if [ -z "$faults" ]; then
        passed=$((passed + 1))
        return
    fi
    failed=$((failed + 1))
    printf 'FAILED %s:%s\n' "$1" "$faults"
    diff want_out out | head -n 12
    diff want_err err | head -n 4
}

# run_words SCRIPT WORDS..: runs the program in the folder of the case.
run_words() {
    local script=$1
    shift
    begin
    printf %s "$script" >script
    (cd case && exec "$program" "$@" <../script >../out 2>../err)
    status=$?
}

# run SCRIPT: runs the script on the tablespace of the case.
run() {
    run_words "$1" run 0 space log
}

# trail_is NAME SCRIPT STATUS TRAIL: the script ends with this status and trail.
trail_is() {
    run "$2"
    expect "$1" "$3" "$4" ''
}

# bad_line NAME LINE SCRIPT: the script is refused for this line.
bad_line() {
    run "$3"
    expect "$1" 3 '' "innopool: bad line $2"$'\n'
}

# usage NAME WORDS..: the words are no command.
usage() {
    local name=$1
    shift
    run_words '' "$@"
    expect "$name" 2 '' $'innopool: usage\n'
}

# checked NAME SCRIPT STATUS OUT ERR: what `check` makes of a script. It opens no file.
checked() {
    run_words "$2" check
    expect "$1" "$3" "$4" "$5"
}

# need TOOL: a tool that is missing fails the checks.
need() {
    command -v "$1" >/dev/null && return
    failed=$((failed + 1))
    printf 'FAILED: there is no %s\n' "$1"
    return 1
}

# device_fault NAME FILE LOG: the tablespace or the log can't be opened there.
device_fault() {
    run_words "$thread" run 0 "$2" "$3"
    expect "$1" 6 '' $'innopool: device fault\n'
}

trails() {
    blank_files
    trail_is 'a page of zeros is read' "$thread"$'fix 0:0 5\nread 0:0 38 4\nunfix 0:0\n' 0 \
$'trail 0 3 2
E 1 1.1 load 0:0 0
E 2 1.1 fix 0:0 0 1 5
R 2 1.2 copied 0:0 38 00000000 1
R 2 1.3 unfixed 0:0 0 1
E 3 0.1 clean 0 -
'
    trail_is 'the empty script' '' 0 "$empty_trail"
    trail_is 'settings in another order, comments, empty lines, no last newline' \
$'# any bytes: \xff\x80\t \r\nmax 2\n\nsize 16384\n#\nframes 4\npage 4096\nthread 1\n# a comment\nunfix 0:1' 1 \
$'trail 0 1 1
R 0 1.1 refused unfix 0:1 Unheld
E 1 0.1 clean 0 -
'
    trail_is 'fixes that are left are given back, newest first' "$thread"$'fix 0:0 1\nfix 0:1 2\nfix 0:0 3\n' 0 \
$'trail 0 6 3
E 1 1.1 load 0:0 0
E 2 1.1 fix 0:0 0 1 1
E 3 1.2 load 0:1 1
E 4 1.2 fix 0:1 1 3 2
E 5 1.3 fix 0:0 0 1 3
R 5 1.4 unfixed 0:0 0 3
R 5 1.5 unfixed 0:1 1 2
R 5 1.6 unfixed 0:0 0 1
E 6 0.1 clean 0 -
'
    trail_is 'a page behind the last' "$thread"$'fix 0:64 1\n' 1 \
$'trail 0 2 0
E 1 1.1 refused fix 0:64 1 NoSuchPage 64
E 2 0.1 clean 0 -
'
    trail_is 'more pages than frames, all of them behind the last' \
"$thread"$'fix 0:64 1\nfix 0:65 2\nfix 0:66 3\nfix 0:67 4\nfix 0:68 5\n' 1 \
$'trail 0 6 0
E 1 1.1 refused fix 0:64 1 NoSuchPage 64
E 2 1.2 refused fix 0:65 2 NoSuchPage 64
E 3 1.3 refused fix 0:66 3 NoSuchPage 64
E 4 1.4 refused fix 0:67 4 NoSuchPage 64
E 5 1.5 refused fix 0:68 5 NoSuchPage 64
E 6 0.1 clean 0 -
'
    trail_is 'a page of another space' "$thread"$'fix 3:0 1\nread 3:0 38 4\nunfix 3:0\n' 1 \
$'trail 0 2 2
E 1 1.1 refused fix 3:0 1 NoSuchPage 0
R 1 1.2 refused read 3:0 38 4 Unheld
R 1 1.3 refused unfix 3:0 Unheld
E 2 0.1 clean 0 -
'
    run_words "$thread"$'fix 4294967295:63 18446744073709551615\n' run 4294967295 space log
    expect 'the greatest space and moment' 0 \
$'trail 0 3 1
E 1 1.1 load 4294967295:63 0
E 2 1.1 fix 4294967295:63 0 1 18446744073709551615
R 2 1.2 unfixed 4294967295:63 0 1
E 3 0.1 clean 0 -
' ''
}

# Pages 2 and 7 of the tablespace: number at 4, LSN at 16, space at 34, body from 38 on, low half of the LSN in the last four bytes.
pages() {
    local at=$((7 * 4096))
    blank_files
    put case/space $((2 * 4096)) '\1\2\3\4\0\0\0\2'
    put case/space $((2 * 4096 + 16)) '\0\0\0\1\0\0\x20\x16'
    put case/space $((2 * 4096 + 24)) '\x45\xbf'
    put case/space $((2 * 4096 + 38)) '\xab\xcd'
    put case/space $((3 * 4096 - 12)) '\1\2\3\4\5\6\7\x8\0\0\x20\x16'
    trail_is 'a sound page' "$thread"$'fix 0:2 1\nread 0:2 38 4\nread 0:2 4084 4\n' 0 \
$'trail 0 3 3
E 1 1.1 load 0:2 0
E 2 1.1 fix 0:2 0 1 1
R 2 1.2 copied 0:2 38 abcd0000 1
R 2 1.3 copied 0:2 4084 01020304 1
R 2 1.4 unfixed 0:2 0 1
E 3 0.1 clean 0 -
'
    put case/space $((at + 4)) '\0\0\0\x8'
    unsound 'the number of another page' 'Number 8'
    trail_is 'the frame of a refused page is given back' "$thread"$'fix 0:7 1\nfix 0:1 1\n' 1 \
$'trail 0 4 1
E 1 1.1 refused fix 0:7 1 BadPage Number 8
E 2 1.2 load 0:1 1
E 3 1.2 fix 0:1 1 2 1
R 3 1.3 unfixed 0:1 1 2
E 4 0.1 clean 0 -
'
    put case/space $((at + 34)) '\0\0\0\5'
    unsound 'another number before another space' 'Number 8'
    put case/space $((at + 4)) '\0\0\0\7'
    unsound 'the number of another space' 'Space 5'
    put case/space $((at + 34)) '\0\0\0\0'
    put case/space $((at + 16)) '\0\0\0\0\0\0\x20\x16'
    unsound 'a torn page' 'Torn 8214 0'
}

# unsound NAME CAUSE: page 7 is refused for this cause.
unsound() {
    trail_is "$1" "$thread"$'fix 0:7 1\nread 0:7 38 4\nunfix 0:7\n' 1 \
"trail 0 2 2
E 1 1.1 refused fix 0:7 1 BadPage $2
R 1 1.2 refused read 0:7 38 4 Unheld
R 1 1.3 refused unfix 0:7 Unheld
E 2 0.1 clean 0 -
"
}

# A put of one byte takes 22 bytes of the log.
changes() {
    local script=$thread$'fix 0:0 1\nput 0:0 4087 ab\nread 0:0 4087 1\nunfix 0:0\n'
    blank_space
    run "$script"
    hex want/log 0 '01 00000000 00000000 0ff7 0001 ab 0000000000002016'
    hex want/space 0 deadbeef
    hex want/space 16 0000000000002016
    hex want/space 4087 'ab deadbeef 00002016'
    expect 'a page is changed' 0 \
$'trail 0 5 2
E 1 1.1 load 0:0 0
E 2 1.1 fix 0:0 0 1 1
E 3 1.2 put 0:0 4087 ab 8192 8214
R 3 1.3 copied 0:0 4087 ab 3
R 3 1.4 unfixed 0:0 0 1
E 4 0.1 write 0:0 8214 8214
E 5 0.1 clean 1 -
' ''
    run "$script"
    hex want/log 22 '01 00000000 00000000 0ff7 0001 ab 000000000000202c'
    hex want/space 16 000000000000202c
    hex want/space 4092 0000202c
    expect 'the same again, behind the first run' 0 \
$'trail 0 5 2
E 1 1.1 load 0:0 0
E 2 1.1 fix 0:0 0 1 1
E 3 1.2 put 0:0 4087 ab 8214 8236
R 3 1.3 copied 0:0 4087 ab 3
R 3 1.4 unfixed 0:0 0 1
E 4 0.1 write 0:0 8236 8236
E 5 0.1 clean 1 -
' ''
    trail_is 'what was changed is read by the next run' "$thread"$'fix 0:0 1\nread 0:0 4086 2\n' 0 \
$'trail 0 3 2
E 1 1.1 load 0:0 0
E 2 1.1 fix 0:0 0 1 1
R 2 1.2 copied 0:0 4086 00ab 1
R 2 1.3 unfixed 0:0 0 1
E 3 0.1 clean 0 -
'
    blank_files
    trail_is 'a change of a page that is not fixed' "$thread"$'put 0:1 38 01\nfix 0:0 1\nunfix 0:0\nput 0:0 38 01\n' 1 \
$'trail 0 3 3
R 0 1.1 refused put 0:1 38 01 Unheld
E 1 1.2 load 0:0 0
E 2 1.2 fix 0:0 0 1 1
R 2 1.3 unfixed 0:0 0 2
R 2 1.4 refused put 0:0 38 01 Unheld
E 3 0.1 clean 0 -
'
    body 4096 4087 0ff7
    body 8192 8183 1ff7
    body 16384 16375 3ff7
}

# body SIZE LAST HEX: the body of a page of this size begins at 38 and ends behind LAST, which is HEX in hexadecimal.
body() {
    local head="page $1"$'\nframes 4\n'"size $((4 * $1))"$'\nmax 2\nthread 1\nfix 0:1 1\n'
    blank_space
    bad_line "a change before the body of a page of $1" 7 "$head"$'put 0:1 37 01\n'
    bad_line "a change behind the body of a page of $1" 7 "$head""put 0:1 $(($2 + 1)) 01"$'\n'
    run "$head"$'put 0:1 38 01\n'"put 0:1 $2 02"$'\n'
    hex want/log 0 '01 00000000 00000001 0026 0001 01 0000000000002016'
    hex want/log 22 "01 00000000 00000001 $3 0001 02 000000000000202c"
    stamp want/space "$1" 00000000 1 000000000000202c
    hex want/space $(($1 + 38)) 01
    hex want/space $(($1 + $2)) 02
    expect "the whole body of a page of $1" 0 \
"trail 0 6 1
E 1 1.1 load 0:1 0
E 2 1.1 fix 0:1 0 1 1
E 3 1.2 put 0:1 38 01 8192 8214
E 4 1.3 put 0:1 $2 02 8214 8236
R 4 1.4 unfixed 0:1 0 1
E 5 0.1 write 0:1 8236 8236
E 6 0.1 clean 1 -
" ''
}

# Pages are written in the order of their first changes. The first write has made all of the log durable, so each shows the log's end.
flushes() {
    local at=$((2 * 4096))
    blank_files
    put case/space "$at" '\1\2\3\4\0\0\0\2\5\6\7\x8\x9\xa\xb\xc\0\0\0\0\0\0\x20\1\x45\xbf\1\2\3\4\5\6\7\x8'
    put case/space $((at + 38)) '\xab\xcd\xef'
    put case/space $((at + 4088)) '\5\6\7\x8\0\0\x20\1'
    run "$thread"$'fix 0:1 1\nfix 0:2 1\nput 0:2 39 11\nput 0:1 38 22\nput 0:2 41 33\n'
    hex want/log 0 '01 00000000 00000002 0027 0001 11 0000000000002016'
    hex want/log 22 '01 00000000 00000001 0026 0001 22 000000000000202c'
    hex want/log 44 '01 00000000 00000002 0029 0001 33 0000000000002042'
    stamp want/space 4096 00000000 1 000000000000202c
    stamp want/space 4096 00000000 2 0000000000002042
    hex want/space $((4096 + 38)) 22
    hex want/space $((at + 38)) 'ab 11 ef 33'
    expect 'two pages are written, the oldest first; what is not changed stays' 0 \
$'trail 0 10 2
E 1 1.1 load 0:1 0
E 2 1.1 fix 0:1 0 1 1
E 3 1.2 load 0:2 1
E 4 1.2 fix 0:2 1 3 1
E 5 1.3 put 0:2 39 11 8192 8214
E 6 1.4 put 0:1 38 22 8214 8236
E 7 1.5 put 0:2 41 33 8236 8258
R 7 1.6 unfixed 0:2 1 2
R 7 1.7 unfixed 0:1 0 1
E 8 0.1 write 0:2 8258 8258
E 9 0.1 write 0:1 8236 8258
E 10 0.1 clean 2 -
' ''
    blank_files
    run_words "$thread"$'fix 4294967295:63 1\nput 4294967295:63 4085 010203\n' run 4294967295 space log
    hex want/log 0 '01 ffffffff 0000003f 0ff5 0003 010203 0000000000002018'
    stamp want/space 4096 ffffffff 63 0000000000002018
    hex want/space $((63 * 4096 + 4085)) 010203
    expect 'the last page of the greatest space' 0 \
$'trail 0 5 1
E 1 1.1 load 4294967295:63 0
E 2 1.1 fix 4294967295:63 0 1 1
E 3 1.2 put 4294967295:63 4085 010203 8192 8216
R 3 1.3 unfixed 4294967295:63 0 1
E 4 0.1 write 4294967295:63 8216 8216
E 5 0.1 clean 1 -
' ''
}

# one_put LSN: a page is changed once, in a log that begins with this LSN.
one_put() {
    printf '%slsn %s\nthread 1\nfix 0:0 1\nput 0:0 38 01\n' "$four_frames" "$1"
}

# spent NAME LSN END: a change in a log that begins with LSN and ends with END is refused.
spent() {
    trail_is "$1" "$(one_put "$2")" 1 \
"trail 0 4 1
E 1 1.1 load 0:0 0
E 2 1.1 fix 0:0 0 1 1
E 3 1.2 refused put 0:0 38 01 LogSpent $3
R 3 1.3 unfixed 0:0 0 1
E 4 0.1 clean 0 -
"
}

# put_from NAME LSN START END HEX: the change's record begins at START, and ends at END, which is HEX in 16 digits.
put_from() {
    run "$(one_put "$2")"
    hex want/log $(($3 - $2)) "01 00000000 00000000 0026 0001 01 $5"
    stamp want/space 4096 00000000 0 "$5"
    hex want/space 38 01
    expect "$1" 0 \
"trail 0 5 1
E 1 1.1 load 0:0 0
E 2 1.1 fix 0:0 0 1 1
E 3 1.2 put 0:0 38 01 $3 $4
R 3 1.3 unfixed 0:0 0 1
E 4 0.1 write 0:0 $4 $4
E 5 0.1 clean 1 -
" ''
}

logs() {
    blank_files
    spent 'a log without LSNs' 9223372036854775807 9223372036854775807
    spent 'a log with an LSN too few' 9223372036854775787 9223372036854775787
    printf k >case/log
    spent 'a log that has taken the last LSN' 9223372036854775807 9223372036854775808
    printf ke >case/log
    bad_line 'a log that is too long for its LSN' 0 "$(one_put 9223372036854775807)"
    blank_files
    put_from 'the last LSN is taken' 9223372036854775786 9223372036854775786 9223372036854775808 8000000000000000
    blank_files
    put_from 'a log from LSN 1 on' 1 1 23 0000000000000017
    blank_files
    printf 'kept' >case/log
    put_from 'a log is written behind what it holds' 8192 8196 8218 000000000000201a
    blank_space
    run_words "$(one_put 8192)" run 0 space /dev/full
    expect 'a log that takes nothing: no page is written' 6 '' $'innopool: device fault\n'
}

bad_lines() {
    blank_space
    bad_line 'a command before the thread' 5 "$four_frames"$'fix 0:0 5\n'
    bad_line 'another thread than the first' 1 $'thread 2\n'
    bad_line 'a setting behind the thread' 6 "$thread"$'old_pct 37\n'
    bad_line 'a setting twice' 2 $'page 4096\npage 4096\n'
    bad_line 'a page size that there is not' 1 $'page 4095\n'
    bad_line 'frames past their range' 1 $'frames 8193\n'
    bad_line 'more frames than a pool may have' 0 $'page 4096\nframes 8192\nmax 3\n'
    bad_line 'more chunks than max' 0 $'page 4096\nframes 4\nsize 32768\nmax 1\n'
    bad_line 'a read in the header' 7 "$thread"$'fix 0:0 1\nread 0:0 37 4\n'
    bad_line 'a read in the trailer' 7 "$thread"$'fix 0:0 1\nread 0:0 4085 4\n'
    bad_line 'a read of nothing' 6 "$thread"$'read 0:0 38 0\n'
    bad_line 'a read of 257 bytes' 6 "$thread"$'read 0:0 38 257\n'
    bad_line 'a change in the trailer' 7 "$thread"$'fix 0:0 1\nput 0:0 4088 ab\n'
    bad_line 'a change that ends in the trailer' 7 "$thread"$'fix 0:0 1\nput 0:0 4087 abcd\n'
    bad_line 'a change of no bytes' 6 "$thread"$'put 0:0 38\n'
    bad_line 'a change of 257 bytes' 6 "$thread""put 0:0 38 $(printf '%0514d' 0)"$'\n'
    bad_line 'an odd number of digits' 6 "$thread"$'put 0:0 38 abc\n'
    bad_line 'a capital digit' 6 "$thread"$'put 0:0 38 aB\n'
    bad_line 'no LSN' 1 $'lsn 0\n'
    bad_line 'an LSN past its range' 1 $'lsn 9223372036854775808\n'
    bad_line 'an LSN past 64 bits' 1 $'lsn 18446744073709551617\n'
    bad_line 'an LSN twice' 2 $'lsn 1\nlsn 1\n'
    bad_line 'an LSN behind the thread' 6 "$thread"$'lsn 1\n'
    bad_line 'an unknown command' 6 "$thread"$'fetch 0:0\n'
    bad_line 'a command that is not built yet' 6 "$thread"$'resize 8192 1\n'
    bad_line 'a create without a moment' 6 "$thread"$'create 0:0\n'
    bad_line 'a create past 64 bits' 6 "$thread"$'create 0:0 18446744073709551616\n'
    bad_line 'a leading zero' 6 "$thread"$'fix 0:00 1\n'
    bad_line 'a sign' 6 "$thread"$'fix 0:0 +1\n'
    bad_line 'a space number past 32 bits' 6 "$thread"$'fix 4294967296:0 1\n'
    bad_line 'a moment past 64 bits' 6 "$thread"$'fix 0:0 18446744073709551616\n'
    bad_line 'a word too many' 6 "$thread"$'unfix 0:0 1\n'
    bad_line 'a word too few' 6 "$thread"$'fix 0:0\n'
    bad_line 'two blanks' 6 "$thread"$'fix  0:0 1\n'
    bad_line 'a blank at the end' 6 "$thread"$'unfix 0:0 \n'
    bad_line 'a blank at the start' 6 "$thread"$' unfix 0:0\n'
    bad_line 'a line of a blank' 6 "$thread"$' \n'
    bad_line 'a tab' 6 "$thread"$'unfix\t0:0\n'
    bad_line 'a carriage return' 6 "$thread"$'unfix 0:0\r\n'
    bad_line 'the first of two bad lines' 6 "$thread"$'fix\nfix\n'
    rm case/space
    bad_line 'a bad script before a missing file' 1 $'fix\n'
}

# The scripts of the folder examples.
examples() {
    blank_files
    trail_is 'examples/empty.pool' "$(cat "$top/examples/empty.pool")" 0 "$empty_trail"
    trail_is 'examples/first.pool' "$(cat "$top/examples/first.pool")" 0 \
$'trail 0 3 2
E 1 1.1 load 0:0 0
E 2 1.1 fix 0:0 0 1 5
R 2 1.2 copied 0:0 38 00000000 1
R 2 1.3 unfixed 0:0 0 1
E 3 0.1 clean 0 -
'
    trail_is 'examples/scans.pool' "$(cat "$top/examples/scans.pool")" 0 \
$'trail 0 6 5
E 1 1.1 load 0:0 0
E 2 1.1 fix 0:0 0 1 1
E 3 1.2 fix 0:0 0 1 3
R 3 1.3 copied 0:0 38 00000000 1
R 3 1.4 unfixed 0:0 0 2
E 4 1.5 load 0:1 1
E 5 1.5 fix 0:1 1 4 3
R 5 1.6 copied 0:1 38 00000000 4
R 5 1.7 unfixed 0:1 1 5
R 5 1.8 unfixed 0:0 0 1
E 6 0.1 clean 0 -
'
    run "$(cat "$top/examples/changes.pool")"
    hex want/log 0 '01 00000000 00000001 0026 0002 cafe 0000000000002017'
    stamp want/space 4096 00000000 1 0000000000002017
    hex want/space $((4096 + 38)) cafe
    expect 'examples/changes.pool' 0 \
$'trail 0 5 2
E 1 1.1 load 0:1 0
E 2 1.1 fix 0:1 0 1 1
E 3 1.2 put 0:1 38 cafe 8192 8215
R 3 1.3 copied 0:1 38 cafe0000 3
R 3 1.4 unfixed 0:1 0 1
E 4 0.1 write 0:1 8215 8215
E 5 0.1 clean 1 -
' ''
    made_page "$(cat "$top/examples/creates.pool")" 'examples/creates.pool'
    blank_files
    run "$(cat "$top/examples/victims.pool")"
    hex want/log 0 '01 00000000 00000000 0026 0001 01 0000000000002016'
    stamp want/space 4096 00000000 0 0000000000002016
    hex want/space 38 01
    expect 'examples/victims.pool' 0 \
$'trail 0 17 6
E 1 1.1 load 0:0 0
E 2 1.1 fix 0:0 0 1 1
E 3 1.2 put 0:0 38 01 8192 8214
R 3 1.3 unfixed 0:0 0 1
E 4 1.4 load 0:1 1
E 5 1.4 fix 0:1 1 4 1
R 5 1.5 unfixed 0:1 1 4
E 6 1.6 load 0:2 2
E 7 1.6 fix 0:2 2 6 1
E 8 1.7 load 0:3 3
E 9 1.7 fix 0:3 3 8 1
E 10 1.8 evict 0:1 1 -
E 11 1.8 load 0:4 1
E 12 1.8 fix 0:4 1 11 2
E 13 1.9 write 0:0 8214 8214
E 14 1.9 evict 0:0 0 1=11/R/1,2=6/R/1,3=8/R/1
E 15 1.9 load 0:5 0
E 16 1.9 fix 0:5 0 15 3
R 16 1.10 unfixed 0:5 0 9
R 16 1.11 unfixed 0:4 1 8
R 16 1.12 unfixed 0:3 3 7
R 16 1.13 unfixed 0:2 2 6
E 17 0.1 clean 0 -
' ''
}

# made_page SCRIPT NAME: page 2 is made, and written by a clean; both what the script says and what it leaves.
made_page() {
    blank_files
    run "$1"
    hex want/log 0 '02 00000000 00000002 0000 0000 0000000000002015'
    stamp want/space 4096 00000000 2 0000000000002015
    expect "$2" 1 \
$'trail 0 7 2
E 1 1.1 create 0:2 0 8192 8213 1
E 2 1.2 checkpoint 8192
E 3 1.3 write 0:2 8213 8213
E 4 1.3 clean 1 -
E 5 1.4 checkpoint 8213
E 6 1.5 refused create 0:2 1 Resident 0
R 6 1.6 refused put 0:1 38 01 Unheld
R 6 1.7 unfixed 0:2 0 1
E 7 0.1 clean 0 -
' ''
}

# Pages that are made, whatever the tablespace has of them.
creates() {
    local at=$((7 * 4096))
    made_page "$thread"$'create 0:2 1\ncheckpoint\nclean 9\ncheckpoint\ncreate 0:2 1\nput 0:1 38 01\n' 'a page is made'
    blank_files
    put case/space $((at + 4)) '\0\0\0\x8'
    put case/space $((at + 100)) '\xab'
    run "$thread"$'fix 0:7 1\ncreate 0:7 2\nclean 0\nput 0:7 38 01\n'
    hex want/log 0 '02 00000000 00000007 0000 0000 0000000000002015'
    hex want/log 21 '01 00000000 00000007 0026 0001 01 000000000000202b'
    put want/space $((at + 100)) '\0'
    stamp want/space 4096 00000000 7 000000000000202b
    hex want/space $((at + 38)) 01
    expect 'a page is made where there was none' 1 \
$'trail 0 6 1
E 1 1.1 refused fix 0:7 1 BadPage Number 8
E 2 1.2 create 0:7 1 8192 8213 2
E 3 1.3 clean 0 -
E 4 1.4 put 0:7 38 01 8213 8235
R 4 1.5 unfixed 0:7 1 2
E 5 0.1 write 0:7 8235 8235
E 6 0.1 clean 1 -
' ''
    blank_files
    trail_is 'pages that are not there are not made' "$thread"$'create 0:64 1\ncreate 3:0 2\n' 1 \
$'trail 0 3 0
E 1 1.1 refused create 0:64 1 NoSuchPage 64
E 2 1.2 refused create 3:0 2 NoSuchPage 0
E 3 0.1 clean 0 -
'
    trail_is 'no LSN is left for a page' "$four_frames"$'lsn 9223372036854775807\nthread 1\ncreate 0:0 1\nfix 0:1 1\n' 1 \
$'trail 0 4 1
E 1 1.1 refused create 0:0 1 LogSpent 9223372036854775807
E 2 1.2 load 0:1 1
E 3 1.2 fix 0:1 1 2 1
R 3 1.3 unfixed 0:1 1 2
E 4 0.1 clean 0 -
'
}

# Pages that take turns in the frames.
victims() {
    blank_files
    trail_is 'four fixed frames' "$thread"$'fix 0:0 1\nfix 0:1 1\nfix 0:2 1\nfix 0:3 1\nfix 0:4 7\nunfix 0:0\nfix 0:4 8\n' 1 \
$'trail 0 13 5
E 1 1.1 load 0:0 0
E 2 1.1 fix 0:0 0 1 1
E 3 1.2 load 0:1 1
E 4 1.2 fix 0:1 1 3 1
E 5 1.3 load 0:2 2
E 6 1.3 fix 0:2 2 5 1
E 7 1.4 load 0:3 3
E 8 1.4 fix 0:3 3 7 1
E 9 1.5 refused fix 0:4 7 AllFixed 0=1/R/1,1=3/R/1,2=5/R/1,3=7/R/1
R 9 1.6 unfixed 0:0 0 1
E 10 1.7 evict 0:0 0 -
E 11 1.7 load 0:4 0
E 12 1.7 fix 0:4 0 11 8
R 12 1.8 unfixed 0:4 0 7
R 12 1.9 unfixed 0:3 3 4
R 12 1.10 unfixed 0:2 2 3
R 12 1.11 unfixed 0:1 1 2
E 13 0.1 clean 0 -
'
    trail_is 'one frame in turn' $'page 4096\nframes 1\nsize 4096\nmax 1\nthread 1\nfix 0:0 1\nunfix 0:0\nfix 0:1 1\nunfix 0:1\nfix 0:0 1\nunfix 0:0\n' 0 \
$'trail 0 9 3
E 1 1.1 load 0:0 0
E 2 1.1 fix 0:0 0 1 1
R 2 1.2 unfixed 0:0 0 1
E 3 1.3 evict 0:0 0 -
E 4 1.3 load 0:1 0
E 5 1.3 fix 0:1 0 4 1
R 5 1.4 unfixed 0:1 0 3
E 6 1.5 evict 0:1 0 -
E 7 1.5 load 0:0 0
E 8 1.5 fix 0:0 0 7 1
R 8 1.6 unfixed 0:0 0 5
E 9 0.1 clean 0 -
'
    put case/space $((5 * 4096 + 4)) '\0\0\0\6'
    trail_is 'a page that leaves for one that is none' $'page 4096\nframes 1\nsize 4096\nmax 1\nthread 1\nfix 0:0 1\nunfix 0:0\nfix 0:5 1\nfix 0:1 2\n' 1 \
$'trail 0 7 2
E 1 1.1 load 0:0 0
E 2 1.1 fix 0:0 0 1 1
R 2 1.2 unfixed 0:0 0 1
E 3 1.3 evict 0:0 0 -
E 4 1.3 refused fix 0:5 1 BadPage Number 6
E 5 1.4 load 0:1 0
E 6 1.4 fix 0:1 0 5 2
R 6 1.5 unfixed 0:1 0 4
E 7 0.1 clean 0 -
'
}

# comments COUNT: so many bytes of comment lines, each of 64 bytes, the last cut short.
comments() {
    local line
    printf -v line '#%62s\n' ''
    yes "${line%$'\n'}" | head -c "$1"
}

# unfixes COUNT: a script of so many calls, each of which is refused; the first stands on line 6.
unfixes() {
    printf %s "$thread"
    yes 'unfix 0:0' | head -n "$1"
}

# refusals COUNT: the trail of such a script.
refusals() {
    printf 'trail 0 1 %s\n' "$1"
    seq -f 'R 0 1.%.0f refused unfix 0:0 Unheld' "$1"
    printf 'E 1 0.1 clean 0 -\n'
}

many_calls() {
    blank_files
    trail_is '65 calls' "$(unfixes 65)" 1 "$(refusals 65)"$'\n'
    trail_is 'as many calls as there may be' "$(unfixes 65536)" 1 "$(refusals 65536)"$'\n'
    bad_line 'a call too many' 65542 "$(unfixes 65537)"
    bad_line 'a call too many, before a bad line' 65542 "$(unfixes 65538)"$'\nfix\n'
}

long_scripts() {
    blank_files
    begin
    comments 1048576 >script
    (ulimit -t 1 && cd case && exec "$program" run 0 space log <../script >../out 2>../err)
    status=$?
    expect 'the longest script, within a second of processor time' 0 "$empty_trail" ''
    comments 1048577 >script
    (ulimit -t 1 && cd case && exec "$program" run 0 space log <../script >../out 2>../err)
    status=$?
    expect 'a script that is a byte too long' 3 '' $'innopool: bad line 0\n'
    rm case/log
    begin
    { printf 'x\n' && comments 1048575; } >script
    (cd case && exec "$program" run 0 space log <../script >../out 2>../err)
    status=$?
    expect 'a script that is too long, with a bad line' 3 '' $'innopool: bad line 0\n'
    comments 2000000 >script
    (cd case && exec "$program" run 0 space log < <(cat ../script) >../out 2>../err)
    status=$?
    expect 'a script from a pipe that is too long' 3 '' $'innopool: bad line 0\n'
}

# The settings with their values where a script sets none.
usual=$'page 16384\ninstances 1\nframes 8192\nsize 134217728\nmax 2\nold_pct 37\nold_time 1000\nold_min 512\nlsn 8192\nfirst 0\n'

# What `check` prints, and what it refuses. FILE and LOG are not among its words, and no file is made.
printed_scripts() {
    blank_space
    checked 'a script is printed with all settings' $'thread 1\nunfix 0:1' 0 "$usual"$'thread 1\nunfix 0:1\n' ''
    checked 'the empty script' '' 0 "$usual" ''
    checked 'comments and empty lines are dropped' $'# \xff\n\nthread 1\n#\n' 0 "$usual"$'thread 1\n' ''
    checked 'settings in the order of the table, with their values' $'first 0\nlsn 9\nold_min 4\nold_time 0\nold_pct 5\nmax 3\nsize 16384\nframes 4\npage 4096\n' 0 \
$'page 4096\ninstances 1\nframes 4\nsize 16384\nmax 3\nold_pct 5\nold_time 0\nold_min 4\nlsn 9\nfirst 0\n' ''
    checked 'nothing is run' "$thread"$'create 0:0 1\nput 0:0 38 00ff\nread 0:0 38 2\nclean 1\ncheckpoint\nscan 0:7-9 2\nfix 0:0 18446744073709551615\n' 0 \
$'page 4096\ninstances 1\nframes 4\nsize 16384\nmax 2\nold_pct 37\nold_time 1000\nold_min 512\nlsn 8192\nfirst 0
thread 1
create 0:0 1
put 0:0 38 00ff
read 0:0 38 2
clean 1
checkpoint
scan 0:7-9 2
fix 0:0 18446744073709551615
' ''
    checked 'another thread than the first' $'thread 2\n' 3 '' $'innopool: bad line 1\n'
    checked 'of a bad script nothing is printed' "$thread"$'unfix 0:1\nunfix\n' 3 '' $'innopool: bad line 7\n'
    checked 'a fault of the whole' $'frames 8192\nmax 3\n' 3 '' $'innopool: bad line 0\n'
    checked 'several instances, which are not built yet' $'instances 2\n' 3 '' $'innopool: bad line 0\n'
    checked 'a script that is too long' "$(comments 1048577)" 3 '' $'innopool: bad line 0\n'
    usage 'check with a word' check 0
    usage 'check with an empty word' check ''
    (cd case && exec "$program" check <. >../out 2>../err)
    status=$?
    expect 'check of a folder' 4 '' $'innopool: read fault\n'
    (cd case && exec "$program" check <&- >../out 2>../err)
    status=$?
    expect 'check of a closed standard input' 0 "$usual" ''
    (cd case && exec "$program" check </dev/null >/dev/full 2>../err)
    status=$?
    : >out
    expect 'check on a full standard output' 5 '' $'innopool: write fault\n'
    for script in "$top"/examples/*.pool; do
        (cd case && exec "$program" check <"$script" >../printed 2>../err)
        (cd case && exec "$program" check <../printed >../out 2>../err)
        status=$?
        expect "the printed form of $(basename "$script") is its own" 0 "$(cat printed)"$'\n' ''
    done
}

words() {
    blank_space
    usage 'no words'
    usage 'a command that there is not' walk 0 space log
    usage 'another case' Run 0 space log
    usage 'a word too few' run 0 space
    usage 'a word too many' run 0 space log log
    usage 'no number' run space 0 log
    usage 'a number with a leading zero' run 00 space log
    usage 'a number with a sign' run +0 space log
    usage 'a number past 32 bits' run 4294967296 space log
    usage 'an empty number' run '' space log
    usage 'an empty file name' run 0 '' log
    usage 'an empty log name' run 0 space ''
    cp case/space case/-space
    usage 'a file name that begins with a dash' run 0 -space log
    usage 'a log name that begins with a dash' run 0 space -log
    usage 'help' --help
    usage 'the command help' help
    usage 'a part of a command' ru 0 space log
    usage 'a word that begins with a dash, before the command' -x run 0 space log
    usage 'two dashes, which end the options elsewhere' run -- 0 space log
    usage 'two dashes behind the command' run 0 space log --
    usage 'version' run --version space log
    usage 'a word that is no UTF-8' run 0 $'space\xff' log
}

files() {
    blank_space
    device_fault 'a missing file' missing log
    device_fault 'a file in a missing folder' missing/space log
    device_fault 'a folder' . log
    device_fault 'a folder as the log' space .
    device_fault 'a log in a missing folder' space missing/log
    cp case/space locked
    chmod 000 locked
    if [ "$(id -u)" = 0 ]; then
        echo "skipped: root can open a file that may not be read or written"
    else
        device_fault 'a file that may not be read' ../locked log
        chmod 400 locked
        device_fault 'a file that may not be written' ../locked log
        device_fault 'a log that may not be written' space ../locked
    fi
    run ''
    : >want/log
    expect 'a missing log is made' 0 "$empty_trail" ''
    blank_files
    zeros 4095 >case/short
    run_words "$thread"$'fix 0:0 1\n' run 0 short log
    expect 'a file shorter than a page has no pages' 1 \
$'trail 0 2 0
E 1 1.1 refused fix 0:0 1 NoSuchPage 0
E 2 0.1 clean 0 -
' ''
    : >case/bare
    run_words "$thread"$'fix 0:0 1\n' run 0 bare log
    expect 'an empty file has no pages' 1 \
$'trail 0 2 0
E 1 1.1 refused fix 0:0 1 NoSuchPage 0
E 2 0.1 clean 0 -
' ''
    zeros 8291 >case/odd
    run_words "$thread"$'fix 0:2 1\nfix 0:1 1\n' run 0 odd log
    expect 'a rest behind the last whole page is not looked at' 1 \
$'trail 0 4 1
E 1 1.1 refused fix 0:2 1 NoSuchPage 2
E 2 1.2 load 0:1 0
E 3 1.2 fix 0:1 0 2 1
R 3 1.3 unfixed 0:1 0 2
E 4 0.1 clean 0 -
' ''
    printf 'kept' >case/log
    trail_is 'a log that is there' '' 0 "$empty_trail"
    trail_is 'a log that is there, and a page is read' "$thread"$'fix 0:0 1\n' 0 \
$'trail 0 3 1
E 1 1.1 load 0:0 0
E 2 1.1 fix 0:0 0 1 1
R 2 1.2 unfixed 0:0 0 1
E 3 0.1 clean 0 -
'
}

# is_open PID: the program has opened the tablespace.
is_open() {
    [ -n "$(find "/proc/$1/fd" -lname "$work/case/space" 2>/dev/null)" ]
}

# one_file NAME FILE LOG: both words name one file, and no byte of it is written.
one_file() {
    run_words "$thread"$'fix 0:0 1\nput 0:0 38 01\n' run 0 "$2" "$3"
    expect "$1" 6 '' $'innopool: device fault\n'
}

# Files that may be neither tablespace nor log, and files that another run has.
opened_files() {
    local pid device
    blank_space
    ln case/space case/hard
    ln -s space case/soft
    one_file 'one file by one name' space space
    one_file 'one file by another path' space ../case/space
    one_file 'one file by a hard link' space hard
    one_file 'one file by a symbolic link' soft space
    blank_space
    ln -s nothing case/log
    device_fault 'a log that is a link to nothing' space log
    blank_space
    mkfifo pipe
    device_fault 'a pipe as the tablespace' ../pipe log
    device_fault 'a device of characters as the tablespace' /dev/zero log

    blank_files
    printf %s "$thread"$'fix 0:1 1\nfix 0:0 2\n' >script
    mkfifo held
    # the first run has FILE, and waits for a reader of its log
    (cd case && exec "$program" run 0 space ../held <../script >../first_out 2>../first_err) &
    pid=$!
    for _ in $(seq 100); do
        sleep 0.1
        is_open "$pid" && break
    done
    sleep 0.2
    run "$thread"
    expect 'a tablespace that another run has' 6 '' $'innopool: device fault\n'
    cat held >/dev/null &
    wait "$pid"
    status=$?
    wait
    cp first_out out
    cp first_err err
    expect 'the run that has it goes on' 0 \
$'trail 0 5 2
E 1 1.1 load 0:1 0
E 2 1.1 fix 0:1 0 1 1
E 3 1.2 load 0:0 1
E 4 1.2 fix 0:0 1 3 2
R 4 1.3 unfixed 0:0 1 2
R 4 1.4 unfixed 0:1 0 1
E 5 0.1 clean 0 -
' ''
    need flock && {
        flock case/log sh -c "cd case && exec \"\$0\" run 0 space log <../script >../out 2>../err" "$program"
        status=$?
        expect 'a log that another run has' 6 '' $'innopool: device fault\n'
    }
    trail_is 'and when it is free again' '' 0 "$empty_trail"

    blank_space
    device=
    need losetup && device=$(losetup --find --show case/space 2>/dev/null)
    if [ -z "$device" ]; then
        echo 'skipped: no loop device is to be had here'
    else
        run_words "$thread"$'fix 0:64 1\nfix 0:63 2\n' run 0 "$device" log
        : >want/log
        expect 'a block device has its real size' 1 \
$'trail 0 4 1
E 1 1.1 refused fix 0:64 1 NoSuchPage 64
E 2 1.2 load 0:63 0
E 3 1.2 fix 0:63 0 2 2
R 3 1.3 unfixed 0:63 0 2
E 4 0.1 clean 0 -
' ''
        blank_space
        device_fault 'a block device as the log' space "$device"
        losetup --detach "$device"
    fi
}

# traced SCRIPT OPTION..: runs the script under strace with these options; what it saw is in the file calls.
traced() {
    local script=$1
    shift
    begin
    printf %s "$script" >script
    (cd case && exec strace -f -o ../calls "$@" "$program" run 0 space log <../script >../out 2>../err)
    status=$?
}

# Calls of the system that come back early, and calls that have to be made.
system_calls() {
    local read=$thread$'fix 0:0 1\n' seen
    need strace || return
    if ! strace -o calls true 2>/dev/null; then
        echo 'skipped: strace may not trace here'
        return
    fi
    blank_files
    traced "$read" -P "$work/script" -e trace=read -e inject=read:error=EINTR:when=1..3
    expect 'a read of the script that is interrupted' 0 \
$'trail 0 3 1
E 1 1.1 load 0:0 0
E 2 1.1 fix 0:0 0 1 1
R 2 1.2 unfixed 0:0 0 1
E 3 0.1 clean 0 -
' ''
    traced '' -P "$work/out" -e trace=write -e inject=write:error=EINTR:when=1..3
    expect 'a write of the trail that is interrupted' 0 "$empty_trail" ''
    traced '' -P "$work/script" -e trace=read -e inject=read:error=EIO:when=1
    expect 'a read of the script that fails' 4 '' $'innopool: read fault\n'
    blank_space
    traced '' -y -e trace=fsync
    : >want/log
    expect 'a log is made' 0 "$empty_trail" ''
    seen=$(grep -c "fsync([0-9]*<$work/case>) *= 0" calls)
    [ "$seen" = 1 ] && passed=$((passed + 1)) || { failed=$((failed + 1)); echo 'FAILED: the folder of a log that is made is not synced'; }
    printf 'older bytes' >case/log
    traced '' -y -e trace=fsync
    seen=$(grep -c "fsync([0-9]*<$work/case>)" calls)
    [ "$seen" = 0 ] && passed=$((passed + 1)) || { failed=$((failed + 1)); echo 'FAILED: the folder of a log that holds bytes is synced'; }
    rm case/log
    traced '' -e trace=fsync -e inject=fsync:error=EIO:when=1
    : >want/log
    expect 'the folder of a log that is made fails' 6 '' $'innopool: device fault\n'
    traced '' -y -e trace=fsync
    expect 'the folder of a log that an earlier run made' 0 "$empty_trail" ''
    seen=$(grep -c "fsync([0-9]*<$work/case>) *= 0" calls)
    [ "$seen" = 1 ] && passed=$((passed + 1)) || { failed=$((failed + 1)); echo 'FAILED: the folder of a log that an earlier run made is not synced'; }
}

# Devices that fail once they are open.
faults() {
    local pid
    blank_space
    mkfifo queue
    begin
    printf %s "$thread"$'fix 0:1 1\nfix 0:0 2\n' >script
    # the program waits for a reader of its log when the tablespace is open, and meanwhile that is cut short
    (cd case && exec "$program" run 0 space ../queue <../script >../out 2>../err) &
    pid=$!
    for _ in $(seq 100); do
        sleep 0.1
        is_open "$pid" && break
    done
    sleep 0.2
    dd if=/dev/null of=case/space bs=1 seek=8191 status=none
    dd if=/dev/null of=want/space bs=1 seek=8191 status=none
    cat queue >/dev/null &
    wait "$pid"
    status=$?
    expect 'a page that ends behind the file' 1 \
$'trail 0 4 1
E 1 1.1 refused fix 0:1 1 DiskFault 0 1
E 2 1.2 load 0:0 1
E 3 1.2 fix 0:0 1 2 2
R 3 1.3 unfixed 0:0 1 2
E 4 0.1 clean 0 -
' ''
    wait
    blank_files
    begin
    printf %s "$thread"$'fix 0:1 1\nput 0:1 38 01\n' >script
    # no byte may be written behind the first 4096 of a file
    (trap '' XFSZ && ulimit -f 4 && cd case && exec "$program" run 0 space log <../script >../out 2>../err)
    status=$?
    hex want/log 0 '01 00000000 00000001 0026 0001 01 0000000000002016'
    expect 'a page that cannot be written, behind its log' 6 '' $'innopool: device fault\n'
}

streams() {
    blank_files
    begin
    : >script
    (cd case && exec "$program" run 0 space log <../script >/dev/full 2>../err)
    status=$?
    : >out
    expect 'a full standard output' 5 '' $'innopool: write fault\n'
    (cd case && exec "$program" run 0 space log <../script >&- 2>../err)
    status=$?
    expect 'a closed standard output' 5 '' $'innopool: write fault\n'
    (cd case && exec "$program" run 0 space log <&- >&- 2>&-)
    status=$?
    : >err
    expect 'all streams closed' 5 '' ''
    (cd case && exec "$program" run 0 space log <../script >../out 2>&-)
    status=$?
    expect 'a closed standard error' 0 "$empty_trail" ''
    (cd case && exec "$program" run 0 space log <&- >../out 2>../err)
    status=$?
    expect 'a closed standard input is the empty script' 0 "$empty_trail" ''
    (cd case && exec "$program" run 0 space log <. >../out 2>../err)
    status=$?
    expect 'a folder as standard input' 4 '' $'innopool: read fault\n'
    { printf 'page 4096\nfra' && sleep 0.1 && printf 'mes 4\nsize 16384\n'; } |
        (cd case && exec "$program" run 0 space log >../out 2>../err)
    status=$?
    expect 'a script in pieces from a pipe' 0 "$empty_trail" ''
    # the reader leaves after the first line of a long trail
    (unfixes 65536 | (cd case && "$program" run 0 space log 2>../err; echo $? >../left) | head -n 1 >out)
    status=$(cat left)
    expect 'a reader that leaves' 5 $'trail 0 1 65536\n' $'innopool: write fault\n'
}

# A run with less memory than its pool has: nothing is written.
want_of_memory() {
    blank_files
    begin
    (cd case && ulimit -v 100000 && exec "$program" run 0 space log </dev/null >../out 2>../err)
    status=$?
    expect 'a pool that is larger than the memory' 7 '' $'innopool: out of memory\n'
}

examples
creates
victims
trails
pages
changes
flushes
logs
bad_lines
many_calls
long_scripts
words
printed_scripts
files
opened_files
faults
streams
system_calls
want_of_memory

echo "$passed passed, $failed failed"
[ "$failed" = 0 ]
