#!/bin/sh
# ferry.sh: runs the program on every kind of delivery that it tells apart, and compares what it prints. Ends with 'ferry.sh: ok'.
set -eu
cd "$(dirname "$0")/.."
root=$PWD
sample=$root/crates/ferry/data
place=target/ferry
. tools/cross.sh
for_x86_64

mkdir -p target
(cd crates/ferry && rt run) >target/ferry.log 2>&1 || { cat target/ferry.log >&2; exit 1; }

# a fresh copy of the sample delivery
fresh() {
    rm -rf "$place"
    mkdir -p "$place"
    cp "$sample"/* "$place"
}

# says NAME EXPECTED: the program prints exactly this on the delivery at hand
says() {
    said=$(cd "$place" && run "$root/crates/ferry/out/ferry")
    [ "$said" = "$2" ] || { echo "ferry.sh: $1: '$said' instead of '$2'" >&2; exit 1; }
    echo "  $1: $said"
}

# filled FILE SIZE: FILE with blank and "%" lines up to so many bytes
filled() {
    size=$(wc -c <"$place/$1")
    printf '%%%*s' "$(($2 - size - 1))" '' >>"$place/$1"
}

fresh
says 'the trial week' 'accepted days 7 bitfields 1 stops 3 interchange 1 categories 1 services 1 words 82'
fresh
echo '31.02.2025' >"$place/ECKDATEN"
says 'no such date' 'refused 5 file 1 line 1 column 0'
fresh
sed -i 's/FE6/FE4/' "$place/BITFELD"
says 'a wrong frame' 'refused 8 file 2 line 1 column 0'
fresh
sed -i '2s/1000022/1000011/' "$place/BAHNHOF"
says 'a stop listed twice' 'refused 6 file 3 line 2 column 0'
fresh
sed -i '2s/$/$<d/' "$place/BAHNHOF"
says 'a pattern that is not closed' 'refused 39 file 3 line 2 column 0'
fresh
sed -i '2s/$/$Kai B$<d>/' "$place/BAHNHOF"
says 'a name in another language' 'accepted days 7 bitfields 1 stops 3 interchange 1 categories 1 services 1 words 82'
fresh
sed -i 's/  2  3/ 61  3/' "$place/UMSTEIGB"
says '61 minutes' 'refused 4 file 4 line 1 column 9'
fresh
sed -i 's/^1000033 /1000099 /' "$place/FPLAN"
says 'an unknown stop' 'refused 9 file 5 line 6 column 0'
fresh
sed -i '2s/%$//' "$place/FPLAN"
says 'a missing "%"' 'refused 4 file 5 line 2 column 59'
fresh
sed -i '1s/FERRY_       /FERRY_       023/; 1s/   %$/%/' "$place/FPLAN"
says 'repeats without an offset' 'refused 4 file 5 line 1 column 27'
fresh
printf 'CAT  4 A 0          0\n' >>"$place/ZUGART"
says 'a tariff group alone' 'refused 37 file 6 line 2 column 0'
fresh
echo '<text>' >>"$place/ZUGART"
echo '?' >"$place/FPLAN"
says 'a line of 5.5.1, and a broken FPLAN' 'refused 4 file 6 line 2 column 4'
fresh
sed -i '2s/BAT/CAT/' "$place/FPLAN"
says 'a category that is not listed' 'refused 38 file 5 line 2 column 0'
fresh
: >"$place/ZUGART"
: >"$place/FPLAN"
says 'neither categories nor services' 'accepted days 7 bitfields 1 stops 3 interchange 1 categories 0 services 0 words 34'
fresh
rm "$place/UMSTEIGB"
says 'a missing file' 'unread file 4'
fresh
rm "$place/ZUGART"
says 'no ZUGART' 'unread file 6'
rm "$place/FPLAN"
says 'neither FPLAN nor ZUGART' 'unread file 5'
fresh
rm "$place/FPLAN"
mkdir "$place/FPLAN"
says 'FPLAN is a directory' 'unread file 5'
fresh
filled BAHNHOF 8192
says '8,192 bytes' 'accepted days 7 bitfields 1 stops 3 interchange 1 categories 1 services 1 words 82'
filled BAHNHOF 8194
says 'a longer file' 'unread file 3'
fresh
# the most lines that the three files with a map can have: helper words are enough for them
for file in BITFELD BAHNHOF UMSTEIGB; do
    size=$(wc -c <"$place/$file")
    printf '%*s' "$((8192 - size))" '' | tr ' ' '\n' >>"$place/$file"
done
says 'the most lines' 'accepted days 7 bitfields 1 stops 3 interchange 1 categories 1 services 1 words 82'
fresh
filled FPLAN 8193
says '8,193 bytes' 'unread file 5'
echo "ferry.sh: ok"
