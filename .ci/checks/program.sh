#!/usr/bin/env bash
# The built program, called as a user calls it: what it writes, prints and answers.
set -u
top=$(cd "$(dirname "$0")/../.." && pwd)
program=$top/crates/nt_tool/out/nt_tool
[ -x "$program" ] || { echo "no program at $program" >&2; exit 1; }
work=$(mktemp -d) || exit 1
trap 'rm -rf "$work"' EXIT
cd "$work" || exit 1
failures=0

# expect STATUS ERR WORD..: the program ends with this status and says this line on err; out is kept in the file `out`
expect() {
    local status=$1 err=$2
    shift 2
    "$program" "$@" >out 2>err
    local got=$?
    [ "$got" -eq "$status" ] || fail "status $got in place of $status: $*"
    [ "$(cat err)" = "$err" ] || fail "err says '$(cat err)' in place of '$err': $*"
}

fail() {
    echo "failed: $1" >&2
    failures=$((failures + 1))
}

# is_open FILE: it can't pass for finished
is_open() {
    [ ! -s "$1" ] || [ "$(head -c 1 "$1" | od -An -tx1)" = ' 00' ]
}

# same FILE FILE: both have the same bytes
same() {
    cmp "$1" "$2" || fail "$1 differs from $2"
}

printf 'x u64\n' >schema.txt
printf '[1]\n[18446744073709551615]\n' >events.txt
printf '[7]\n' >one.txt
two=$top/crates/nt_tool/data/two.root

# two lines, written and printed again
expect 0 '' write --plain two.root schema.txt events.txt
printf 'order 0\n' | cmp - out || fail 'no order line'
same two.root "$two"
expect 0 '' entries two.root
same out events.txt
expect 0 '' entries --from 1 --count 1 two.root
tail -n 1 events.txt | cmp - out || fail 'not the second line alone'
expect 0 '' schema two.root
printf '[0,0,"x","std::uint64_t",0,[10],true]\n' | cmp - out || fail 'no line of the field'

# the same by planes of bytes, over a file that is there
expect 0 '' write two.root schema.txt events.txt
[ "$(wc -c <two.root)" -eq 1137 ] || fail 'a split file has another size than a plain one'
expect 0 '' entries two.root
same out events.txt
expect 0 '' schema two.root
printf '[0,0,"x","std::uint64_t",0,[22],true]\n' | cmp - out || fail 'the column is not split'

# one line, over a longer file
expect 0 '' write two.root schema.txt one.txt
[ "$(wc -c <two.root)" -eq 1129 ] || fail 'a file that was there is not emptied first'
expect 0 '' entries two.root
same out one.txt
expect 0 '' write --plain two.root schema.txt events.txt

# the example
expect 0 '' write example.root "$top/examples/schema.txt" "$top/examples/events.txt"
printf 'order 0\n' | cmp - out || fail 'no order line of the example'
expect 0 '' entries example.root
same out "$top/examples/events.txt"
expect 0 '' schema example.root
[ "$(wc -l <out)" -eq 8 ] || fail 'the example has not eight fields'

# the totals of the numbers
expect 0 '' scan two.root
printf '[0,"x",2,18446744073709551616,1,18446744073709551615]\n' | cmp - out || fail 'other totals of two numbers'
expect 0 '' scan example.root
[ "$(wc -l <out)" -eq 4 ] || fail 'the example has not four fields of numbers'

# chosen fields of chosen entries: one of two numbers, and one entry of the example
expect 0 '' skim --where x --least 2 few.root two.root x
printf 'clusters 1 entries 1\n' | cmp - out || fail 'other numbers of what is chosen'
expect 0 '' entries few.root
printf '[18446744073709551615]\n' | cmp - out || fail 'another entry than the chosen one'
expect 0 '' skim --where run --least 4712 few.root example.root trigger run
expect 0 '' entries few.root
printf '["one electron",4712]\n' | cmp - out || fail 'other values than the chosen ones'
expect 8 'ntuple: schema: unknown z' skim few.root two.root z
expect 8 'ntuple: schema: not a number trigger' skim --where trigger few.root example.root run
expect 2 'ntuple: usage' skim two.root two.root x
expect 2 'ntuple: usage' skim --where x --least -5 few.root two.root x
cp two.root kept.root
expect 4 'ntuple: outside' skim ./two.root two.root x
cmp -s two.root kept.root || fail 'a file that is read was written over'

# files are joined, page by page: two numbers twice, and one file again
expect 0 '' merge both.root two.root two.root
printf 'clusters 2 entries 4\n' | cmp - out || fail 'other numbers of what is joined'
[ "$(wc -c <both.root)" -eq 1279 ] || fail 'a joined file has another size'
expect 0 '' entries both.root
cat events.txt events.txt | cmp - out || fail 'other entries than those of the files'
expect 0 '' merge alone.root two.root
same alone.root two.root
expect 0 '' merge many.root $(yes two.root | head -n 64)
expect 0 '' entries many.root
[ "$(wc -l <out)" -eq 128 ] || fail 'not the entries of 64 files'
expect 2 'ntuple: usage' merge many.root $(yes two.root | head -n 65)
expect 2 'ntuple: usage' merge two.root two.root
expect 2 'ntuple: usage' merge --page 1 both.root two.root
expect 8 'ntuple: schema: file 1 field 0' merge never.root two.root example.root
expect 4 'ntuple: outside' merge never.root two.root missing.root
head -c 1100 two.root >cut.root
expect 3 'ntuple: file 2: 3 BadFileHeader at 12' merge never.root two.root two.root cut.root
[ ! -e never.root ] || fail 'files that can not be joined made a file'
ln -s two.root link-two.root
for out in ./two.root "$work/two.root" link-two.root; do
    expect 4 'ntuple: outside' merge "$out" two.root
    cmp -s two.root kept.root || fail "a file that is joined was written over: $out"
done
expect 5 'ntuple: limit: 1279 over 1278' merge --max-file 1278 both.root two.root two.root
is_open both.root || fail 'a joined file that passed a limit looks finished'

# inputs without entries, and more than one
: >nothing.txt
expect 0 '' write none.root schema.txt nothing.txt
printf 'order\n' | cmp - out || fail 'clusters of no entries'
[ "$(wc -c <none.root)" -eq 857 ] || fail 'a file without entries has another size'
expect 0 '' entries none.root
[ ! -s out ] || fail 'entries of none'
printf '[1]\n\n[2] \r\n[3]' >three.txt
expect 0 '' write --cluster 2 --page 1 --group 1 three.root schema.txt three.txt nothing.txt
printf 'order 0 0\n' | cmp - out || fail 'other clusters than two of the first input'
expect 0 '' entries three.root
printf '[1]\n[2]\n[3]\n' | cmp - out || fail 'not the three entries'

# words that are no command
expect 2 'ntuple: usage'
expect 2 'ntuple: usage' write out.root schema.txt
expect 2 'ntuple: usage' write out.root schema.txt out.root
expect 2 'ntuple: usage' write out.root schema.txt events.txt out.root
expect 2 'ntuple: usage' write out.root out.root events.txt
expect 2 'ntuple: usage' write out.root schema.txt $(yes events.txt | head -n 65)
for option in '--cluster 0' '--cluster 1000001' '--page 0' '--page 1048577' '--group 0' '--group 10001' '--max-range 1023' \
    '--max-range 1073741825' '--max-file 1023' '--max-file 72057594037927937' '--cluster -1' '--cluster many' '--cluster' '--other 1'; do
    expect 2 'ntuple: usage' write $option out.root schema.txt events.txt
done
expect 2 'ntuple: usage' entries
expect 2 'ntuple: usage' entries $'\xff.root'
expect 2 'ntuple: usage' entries --help
expect 2 'ntuple: usage' entries --from -1 two.root
expect 2 'ntuple: usage' schema
expect 2 'ntuple: usage' schema --plain two.root
[ ! -e out.root ] || fail 'words that are no command made a file'
expect 0 '' write --cluster 1000000 --page 1048576 --group 10000 --max-range 1073741824 --max-file 72057594037927936 \
    most.root schema.txt events.txt
expect 0 '' write --cluster 1 --page 1 --group 1 --max-range 1024 --max-file 2048 least.root schema.txt events.txt
expect 0 '' write many.root schema.txt $(yes one.txt | head -n 64)
expect 0 '' entries many.root
[ "$(sort -u out)" = '[7]' ] && [ "$(wc -l <out)" -eq 64 ] || fail 'not an entry of each of 64 inputs'

# what follows `--` is no option
cp schema.txt ./-schema.txt
expect 0 '' write --plain dash.root -- -schema.txt events.txt
same dash.root "$two"

# what the outside refuses
expect 4 'ntuple: outside' write new.root schema.txt missing.txt
expect 4 'ntuple: outside' write new.root schema.txt events.txt missing.txt
expect 4 'ntuple: outside' write new.root missing.txt events.txt
[ ! -e new.root ] || fail 'a missing input made a file'
expect 4 'ntuple: outside' write no/such.root schema.txt events.txt
expect 4 'ntuple: outside' entries missing.root
expect 4 'ntuple: outside' entries .
"$program" entries two.root >/dev/full 2>err
[ $? -eq 4 ] && [ "$(cat err)" = 'ntuple: outside' ] || fail 'an out that takes nothing is no status 4'
"$program" entries two.root 2>/dev/full >out || fail 'an err that takes nothing changes the status'

# OUT may be a link to a file that isn't there yet
mkdir linked
ln -s linked/there.root far.root
expect 0 '' write --plain far.root schema.txt events.txt
same linked/there.root "$two"

# OUT is never an input, under whatever name
for input in schema.txt events.txt one.txt; do
    cp "$input" kept
    ln -s "$input" "link-$input"
    ln "$input" "hard-$input"
    for out in "./$input" "$work/$input" "link-$input" "hard-$input"; do
        expect 4 'ntuple: outside' write "$out" schema.txt events.txt one.txt
        same "$input" kept
        [ ! -s out ] || fail "an order line, though OUT is $input: $out"
    done
done

# OUT is never a file that the program prints on
for command in 'seq' 'write'; do
    printf 'kept\n' >stream
    "$program" "$command" stream schema.txt events.txt >>stream 2>err
    [ $? -eq 4 ] && [ "$(cat err)" = 'ntuple: outside' ] || fail "out over the file of $command is no status 4"
    [ "$(cat stream)" = 'kept' ] || fail "$command wrote over the file of its out"
    "$program" "$command" ./stream schema.txt events.txt >out 2>>stream
    [ $? -eq 4 ] || fail "err over the file of $command is no status 4"
    [ "$(cat stream)" = "$(printf 'kept\nntuple: outside')" ] || fail "$command wrote over the file of its err"
done
cp "$two" stream
"$program" merge ./stream two.root >>stream 2>err
[ $? -eq 4 ] || fail 'out over the file of merge is no status 4'
same stream "$two"
"$program" gen 1 1 1 stream >>stream 2>err
[ $? -eq 4 ] || fail 'out over the file of gen is no status 4'
"$program" write piped.root schema.txt events.txt | cat >out
[ "$(cat out)" = 'order 0' ] || fail 'no order line through a pipe'

ln -s linked.root link.root
expect 0 '' write --plain link.root schema.txt events.txt
same linked.root "$two"
mkdir folder
expect 0 '' write --plain folder/two.root schema.txt events.txt
same folder/two.root "$two"

# a file that can't grow is left with byte 0 zero
(ulimit -f 1 && trap '' XFSZ && "$program" write small.root schema.txt events.txt >out 2>err)
[ $? -eq 4 ] || fail 'a file that cannot grow is no status 4'
is_open small.root || fail 'an unfinished file looks finished'

# limits
seq 1000 | sed 's/.*/[&]/' >thousand.txt
expect 5 'ntuple: limit: 8495 over 4096' write --max-file 4096 large.root schema.txt thousand.txt
[ ! -s out ] || fail 'an order line of clusters that passed a limit'
expect 3 'ntuple: file: 1 Unfinished at 0' entries large.root
expect 5 'ntuple: limit: 8050 over 1024' write --max-range 1024 large.root schema.txt thousand.txt
is_open large.root || fail 'a file whose cluster passed a limit looks finished'
expect 5 'ntuple: limit: 1137 over 1100' write --max-file 1100 large.root schema.txt events.txt
printf 'order 0\n' | cmp - out || fail 'no order line before the file is closed'
is_open large.root || fail 'a file that passed a limit at its end looks finished'

# texts with a fault
printf '[1]\n[01]\n' >bad.txt
expect 6 'ntuple: text: input 0 line 2: NotJson' write bad.root schema.txt bad.txt
is_open bad.root || fail 'a file of a faulty text looks finished'
[ ! -s out ] || fail 'an order line of a faulty text'
printf '\n[300]\n' >large.txt
printf 'x u8\n' >byte.txt
expect 6 'ntuple: text: input 1 line 2: Misfit' write bad.root byte.txt one.txt large.txt
while read -r kind line; do
    printf '%s\n' "$line" >line.txt
    expect 6 "ntuple: text: input 0 line 1: $kind" write bad.root schema.txt line.txt
done <<'EOF'
NotJson [
NotArray {}
Count [1,2]
Misfit [1.0]
Misfit [18446744073709551616]
EOF
head -c 16777217 /dev/zero | tr '\0' ' ' >wide.txt
expect 6 'ntuple: text: input 0 line 1: TooLong' write bad.root schema.txt wide.txt
while read -r fault schema; do
    printf "$schema" >other.txt
    expect 6 "ntuple: text: schema line ${fault/\%/ }" write other.root other.txt events.txt
done <<'EOF'
2:%Repeated x u64\nx u8\n
2:%BadName \n\tx u64\n
1:%BadType v var<rec{a:u8}>\n
0:%Empty \n
EOF
head -c 2000000 /dev/zero | tr '\0' '\n' >long.txt
expect 6 'ntuple: text: schema line 0: TooLong' write other.root long.txt events.txt
[ ! -e other.root ] || fail 'a faulty schema made a file'
printf '\n \t\nx\tu64 \t\r\n' >blanks.txt
expect 0 '' write --plain blanks.root blanks.txt events.txt
same blanks.root "$two"

# events that are drawn
expect 0 '' gen 1 1 1 drawn.root
printf 'context 0 clusters 1 entries 1 sum 1115794\n' | cmp - out || fail 'another sum of one drawn event'
expect 0 '' entries drawn.root
printf '[271,[394886,720637],"t1"]\n' | cmp - out || fail 'another event is drawn'
expect 0 '' gen 2 0 1 drawn.root
printf 'context 0 clusters 0 entries 0 sum 0\ncontext 1 clusters 0 entries 0 sum 0\n' | cmp - out || fail 'sums of no events'
for numbers in '0 1 1' '65 1 1' '1 1000001 1' '1 1 0' '1 1 1000001' '1 1'; do
    expect 2 'ntuple: usage' gen $numbers never.root
done
[ ! -e never.root ] || fail 'words that are no command made a file'

# a script, which adds fields between its events
expect 0 '' seq late.root "$top/examples/schema.txt" "$top/examples/script.txt"
printf 'clusters 2 entries 3\n' | cmp - out || fail 'other numbers of the example script'
expect 0 '' entries late.root
sed '1,2s/]$/,0]/; /^+/d' "$top/examples/script.txt" | cmp - out || fail 'no zeros of a late field'
expect 0 '' schema late.root
[ "$(tail -n 1 out)" = '[8,8,"weight","std::uint16_t",0,[18],true]' ] || fail 'no line of the late field'
printf 'x u32\n' >word.txt
printf '[1]\n[2]\n+ y u16\n+ t string\n+ v vec<u8>\n[3,4,"a",[5]]\n' >script.txt
expect 0 '' seq late.root word.txt script.txt
printf 'clusters 2 entries 3\n' | cmp - out || fail 'other numbers of a script'
[ "$(wc -c <late.root)" -eq 1917 ] || fail 'a file of late fields has another size'
expect 0 '' entries late.root
printf '[1,0,"",[]]\n[2,0,"",[]]\n[3,4,"a",[5]]\n' | cmp - out || fail 'no zeros of late fields'

# without a late field it is the file of `write`
for options in '' '--plain' '--cluster 2 --page 1 --group 1'; do
    expect 0 '' seq $options alone.root schema.txt three.txt
    expect 0 '' write $options beside.root schema.txt three.txt
    same alone.root beside.root
done

# scripts with a fault
while read -r fault script; do
    printf "$script" >faulty.txt
    expect 6 "ntuple: text: input 0 line ${fault/\%/ }" seq bad.root byte.txt faulty.txt
    is_open bad.root || fail 'a file of a faulty script looks finished'
    [ ! -s out ] || fail 'numbers of a faulty script'
done <<'EOF'
1:%BadName +\n
3:%BadName [1]\n\n+ 2y u8\n
1:%BadType + x u65\n
1:%Repeated + x u8\n
2:%Repeated + y u8\n+ y u8\n
1:%NotJson \x20+ y u8\n
2:%Misfit + y u8\n[1,300]\n
3:%Count [1]\n+ y u8\n[1]\n
EOF
printf '+ y %s\n' "$(printf 'vec<%.0s' {1..32})u8$(printf '>%.0s' {1..32})" >faulty.txt
expect 6 'ntuple: text: input 0 line 1: TooDeep' seq bad.root byte.txt faulty.txt
printf '+ t tuple<u8%s>\n+ y u8\n' "$(yes ,u8 | head -n 4093 | tr -d '\n')" >faulty.txt
expect 6 'ntuple: text: input 0 line 2: TooMany' seq bad.root byte.txt faulty.txt
expect 6 'ntuple: text: schema line 0: TooLong' seq never.root long.txt script.txt

# what else `seq` refuses
expect 5 'ntuple: limit: 1917 over 1916' seq --max-file 1916 large.root word.txt script.txt
is_open large.root || fail 'a file of late fields that passed a limit looks finished'
[ ! -s out ] || fail 'numbers of a file that passed a limit'
{ cat thousand.txt; printf '+\n'; } >plus.txt
expect 5 'ntuple: limit: 8050 over 1024' seq --max-range 1024 large.root schema.txt plus.txt
expect 6 'ntuple: text: input 0 line 1001: BadName' seq large.root schema.txt plus.txt
for words in '' 'never.root schema.txt' 'never.root schema.txt one.txt one.txt' 'schema.txt schema.txt one.txt' 'one.txt schema.txt one.txt' \
    '--cluster 0 never.root schema.txt one.txt' '--from 1 never.root schema.txt one.txt'; do
    expect 2 'ntuple: usage' seq $words
done
expect 4 'ntuple: outside' seq never.root schema.txt missing.txt
[ ! -e never.root ] || fail 'a script that is not read made a file'
cp one.txt kept
expect 4 'ntuple: outside' seq ./one.txt schema.txt one.txt
same one.txt kept
"$program" seq full.root word.txt script.txt >/dev/full 2>err
[ $? -eq 4 ] && [ "$(cat err)" = 'ntuple: outside' ] || fail 'numbers that are not taken are no status 4'
same full.root late.root

# files of another form
: >empty.root
expect 3 'ntuple: file: 1 Unfinished at 0' entries empty.root
expect 3 'ntuple: file: 1 Unfinished at 0' entries bad.root
printf 'PK' >zip.root
expect 3 'ntuple: file: 2 NotRoot at 0' entries zip.root
expect 3 'ntuple: file: 2 NotRoot at 0' schema zip.root
head -c 1100 "$two" >cut.root
expect 3 'ntuple: file: 3 BadFileHeader at 12' entries cut.root

[ "$failures" -eq 0 ]
