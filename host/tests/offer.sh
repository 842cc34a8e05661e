# shellcheck shell=bash
# A part of host/tests.sh, behind host/tests/admit.sh: unit is offered updates, follows a series of them, and shows what it has. The updates are made from the
# sample cell's own records, and what they must come to is made without Apply: by Admit of a cell that says the same, or by hand.

# ---- small updates of the sample

# Its records 0 and 1 as an update of that number, 1 to 9, which changes nothing: DSNM ends in the number, UPDN is it, ISDT has it as the day, and EXPP and
# PROF are 2.
update() { # NAME NUMBER
    head -c 1746 samples/harbour.000 >"$copies/$1"
    patch "$copies/$1" 1635 '\002'
    patch "$copies/$1" 1646 "00$2"
    patch "$copies/$1" 1652 "$2"
    patch "$copies/$1" 1662 "2024010$2"
    patch "$copies/$1" 1680 '\002'
}

# Puts a record of the sample behind it, with another RCID, to be inserted.
adds() { # NAME OFFSET LENGTH RCID
    local at id
    at=$(($(wc -c <"$copies/$1") + $(id_in "$2")))
    tail -c +"$(($2 + 1))" samples/harbour.000 | head -c "$3" >>"$copies/$1"
    little id "$4"
    patch "$copies/$1" "$at" "$id"
}

# Puts a vector record behind it that has its identifier field alone.
names() { # NAME RCNM RCID RVER RUIN
    local class id version
    little class "$2"
    little id "$3"
    little version "$4"
    # shellcheck disable=SC2059
    printf "00049 D     00037   1104000130VRID93\036\000\000\036${class:0:4}$id${version:0:8}\\00$5\036" >>"$copies/$1"
}

# Puts the sample's feature 24 behind it, to be modified: 0001, FRID, FOID, FSPT.
modifies() { # NAME
    local at
    at=$(($(wc -c <"$copies/$1") + $(id_in 7873) - 1)) # FRID's
    adds "$1" 7873 91 24
    patch "$copies/$1" $((at + 9)) '\002\000\003' # RVER, RUIN
}

update one.001 1
update two.002 2
adds two.002 1814 67 1000 # a node
update three.003 3
names three.003 110 1000 2 2 # and it goes again
one=$copies/one.001 two=$copies/two.002 three=$copies/three.003

# The harbour's re-issue with that number and date: record 1 stands 17 bytes before its place in the sample, as record 0 is shorter.
dated() { # NUMBER
    cp "$copies/harbour.held" "$copies/at$1.held"
    patch "$copies/at$1.held" 1635 "$1"
    patch "$copies/at$1.held" 1637 "2024010${1}2024010$1"
}

cp "$copies/harbour.held" "$copies/at0.held"
dated 1
grown more.000 1814 67 1 1729 # the first node; NOIN
patch "$copies/more.000" 1652 2
patch "$copies/more.000" 1654 2024010220240102
takes "$copies/more.000" "$copies/at2.held"
dated 3

# ---- updates are taken, each in its turn and once

offered() { # UPDATE COPY
    taken 'The update was taken.' "$2" offer "$1" "$folder"
}

# What the folder's chart shows.
showing() { # NUMBER DATE
    echo "$folder: GB5HRBR1, edition 1, update $1, issued $2, updated to $2"
}

# An update that isn't the next one: it is in already, or comes too early.
keeps_out() { # UPDATE..
    local update
    for update; do
        keeps 1 "$(refusal "$update" 11 2 1)" offer "$update" "$folder"
    done
}

held=$copies/at0.held
cp "$held" "$chart"
keeps 0 "$(showing 0 2023-12-31)" show "$folder"
for number in 1 2 3; do
    case $number in
    1) next=$one others=("$two" "$three") ;;
    2) next=$two others=("$one" "$three") ;;
    3) next=$three others=("$one" "$two") ;;
    esac
    keeps_out "${others[@]}"
    offered "$next" "$copies/again.held"
    held=$copies/at$number.held
    check "after update $number the chart is another" cmp "$held" "$copies/again.held"
    keeps 0 "$(showing $number 2024-01-0$number)" show "$folder"
done
keeps_out "$one" "$two" "$three"

# The longest numbers, and two dates: record 1 is five bytes longer than the sample's.
{
    head -c 1578 samples/harbour.000
    printf '00173 D     00049   220400010300DSID8503DSSI3688\036'
    tail -c +1628 samples/harbour.000 | head -c 23 # 0001, and DSID up to DSNM
    printf '9999\037999\0372024022920231130'         # EDTN, UPDN, UADT, ISDT
    tail -c +1671 samples/harbour.000
} >"$copies/last.000"
takes "$copies/last.000" "$copies/last.held"
held=$copies/last.held
keeps 0 "$folder: GB5HRBR1, edition 9999, update 999, issued 2023-11-30, updated to 2024-02-29" show "$folder"
keeps 1 "$(refusal "$one" 10 2 1)" offer "$one" "$folder"

# ---- updates that are refused, each for its own reason

held=$copies/at0.held
cp "$held" "$chart"

# The update that was made last is refused.
refused() { # NAME CODE FILE RECORD
    keeps 1 "$(refusal "$copies/$1" "$2" "$3" "$4")" offer "$copies/$1" "$folder"
}

# The first update with one byte changed.
altered() { # NAME OFFSET BYTE
    update "$1" 1
    patch "$copies/$1" "$2" "$3"
}

refused long.000 1 2 0
refused empty.000 2 2 0
for length in 1 1577 1745 1812; do # in record 0, at its end, at the end of record 1 and of record 2
    head -c $length "$two" >"$copies/cut.002"
    refused cut.002 2 2 $((length < 1578 ? 0 : length < 1746 ? 1 : 2))
done
altered described.001 27 9 # its first tag
refused described.001 4 2 0
head -c 1578 "$one" >"$copies/layout.001" # record 0 alone
refused layout.001 5 2 1
cp samples/harbour.000 "$copies/base.000" # a base, by its EXPP
refused base.000 6 2 1
update twice.001 1
adds twice.001 1814 67 1000
adds twice.001 1814 67 1000
refused twice.001 7 2 3
altered other.001 1644 2 # the last letter of its name
refused other.001 9 2 1
altered edition.001 1650 2
refused edition.001 10 2 1
altered level.001 1711 '\001' # AALL
refused level.001 12 2 1

update held.001 1 # inserts a node, and one that is there
adds held.001 1814 67 1000
adds held.001 1814 67 1
refused held.001 13 2 3
update none.001 1 # deletes a node that isn't there
names none.001 110 99 2 2
refused none.001 13 2 2
update version.001 1
names version.001 110 3 3 2
refused version.001 14 2 2
update identity.001 1
modifies identity.001
patch "$copies/identity.001" $((1746 + $(id_in 7873) - 1 + 13)) '\000' # the first byte of FOID
refused identity.001 15 2 2
update edit.001 1 # a list without its control
modifies edit.001
refused edit.001 16 2 2
update shape.001 1 # inserts a node without a position, behind the seven others
names shape.001 110 1000 1 1
refused shape.001 17 3 10
update pointer.001 1 # deletes the node of the wreck, which moves up one place
names pointer.001 110 3 2 2
refused pointer.001 18 3 56
update ring.001 1 # inserts the first area again, its first edge reversed
adds ring.001 4917 160 1000
patch "$copies/ring.001" $((1746 + 5017 - 4917)) '\002'
refused ring.001 19 3 64
update size.001 1 # 65,500 nodes, which many.000 has behind its first
tail -c +$((1814 + 67 + 1)) "$copies/many.000" | head -c $((65500 * 67)) >>"$copies/size.001"
refused size.001 20 3 0

# An update is no base.
keeps 1 "$(refusal "$one" 6 1 1)" admit "$one" "$folder"

# ---- nothing changes

keeps 2 "unit: $copies/none.000 can't be read" offer "$copies/none.000" "$folder"
keeps 2 "unit: $copies can't be read" offer "$copies" "$folder"
keeps 2 "unit: $copies/none can't be opened as a folder: No such file or directory" offer "$one" "$copies/none"
keeps 2 "unit: $copies/none can't be opened as a folder: No such file or directory" show "$copies/none"
check 'a missing folder was made' [ ! -e "$copies/none" ]
keeps 2 "$usage" offer "$one"
keeps 2 "$usage" offer "$one" "$folder" "$folder"
keeps 2 "$usage" follow "$folder"
keeps 2 "$usage" show

# Another run has the folder. To show what is there needs no lock, and what that run is writing stays.
exec 8<"$folder"
flock 8
keeps 2 "unit: $folder is in use by another run of unit; try again when that has ended" offer "$one" "$folder"
keeps 2 "unit: $folder is in use by another run of unit; try again when that has ended" follow "$folder" "$one"
keeps 0 "$(showing 0 2023-12-31)" show "$folder"
head -c 100 "$held" >"$folder/cell.part"
says 0 "$(showing 0 2023-12-31)" $unit show "$folder"
check 'show removed what another run is writing' [ -e "$folder/cell.part" ]
exec 8<&-
# that run is gone: the next one that may write removes it
keeps 1 "$(refusal "$two" 11 2 1)" offer "$two" "$folder"

# A folder without a chart, and one whose chart is damaged, or none.
bare=$copies/bare
mkdir "$bare"
says 2 "unit: $bare has no chart; admit a base cell first" $unit offer "$one" "$bare"
says 2 "unit: $bare has no chart; admit a base cell first" $unit follow "$bare" "$one"
says 2 "unit: $bare has no chart; admit a base cell first" $unit show "$bare"
check 'a folder without a chart got one' [ -z "$(ls -A "$bare")" ]
spoilt="$folder: The chart in this folder is damaged. Start anew: admit the newest edition of the cell, then offer all its updates in order."
held=$copies/spoilt.held
head -c 7983 "$copies/at0.held" >"$held"
cp "$held" "$chart"
keeps 1 "$spoilt (code 2, file 1, record 62)" offer "$one" "$folder"
keeps 1 "$spoilt (code 2, file 1, record 62)" show "$folder"
keeps 1 "$spoilt (code 2, file 1, record 62)
$spoilt (code 2, file 1, record 62)" follow "$folder" "$one" "$two"
rm "$chart"
mkdir "$chart"
says 2 "unit: the chart in $folder can't be read: Is a directory" $unit offer "$one" "$folder"
says 2 "unit: the chart in $folder can't be read: Is a directory" $unit show "$folder"
rmdir "$chart"

# ---- follow: a series

# What follow says of one update, and then shows.
said_taken() { # UPDATE NUMBER
    echo "$1: The update was taken. (code 0, file 0, record 0, number $(wc -c <"$copies/at$2.held"))"
    showing "$2" "2024-01-0$2"
}

said_refused() { # UPDATE CODE FILE RECORD NUMBER DATE
    refusal "${@:1:4}"
    showing "$5" "$6"
}

cp "$copies/at0.held" "$chart"
held=$copies/at3.held
keeps 0 "$(said_taken "$one" 1; said_taken "$two" 2; said_taken "$three" 3)" follow "$folder" "$one" "$two" "$three"

# Gaps, repeats, a damaged file, one of another chart: what is the next one is taken, and nothing else.
cp "$copies/at0.held" "$chart"
lines=$(
    said_refused "$two" 11 2 1 0 2023-12-31
    said_taken "$one" 1
    said_refused "$one" 11 2 1 1 2024-01-01
    said_refused "$three" 11 2 1 1 2024-01-01
    said_refused "$copies/cut.002" 2 2 2 1 2024-01-01
    said_refused "$copies/other.001" 9 2 1 1 2024-01-01
    said_taken "$two" 2
    said_refused "$one" 11 2 1 2 2024-01-02
    said_taken "$three" 3
    said_refused "$three" 11 2 1 3 2024-01-03
)
keeps 1 "$lines" follow "$folder" "$two" "$one" "$one" "$three" "$copies/cut.002" "$copies/other.001" "$two" "$one" "$three" "$three"

# A file that can't be read ends it.
cp "$copies/at0.held" "$chart"
held=$copies/at1.held
keeps 2 "$(said_taken "$one" 1; echo "unit: $copies/none.000 can't be read")" follow "$folder" "$one" "$copies/none.000" "$two"

# Begun from a re-issue of another unit, the same number has the same bytes.
takes "$copies/at1.held" "$copies/again.held"
held=$copies/at3.held
keeps 1 "$(said_refused "$one" 11 2 1 1 2024-01-01; said_taken "$two" 2; said_taken "$three" 3)" follow "$folder" "$one" "$two" "$three"

# Killed before each step: the chart is that of the updates that are in, and the same words again bring the rest.
cp "$copies/at0.held" "$chart"
words=(follow "$folder" "$one" "$two" "$three")
steps=$(steps_of "$copies/at0.held" "${words[@]}")
step=0 number=0
for name in $steps; do
    step=$((step + 1))
    { faulty "kill $step" "$copies/at0.held" "${words[@]}" >"$copies/said"; } 2>/dev/null
    status=$?
    check "follow killed before step $step, $name: status $status" [ $status -eq 137 ]
    check "follow killed before step $step, $name: the chart isn't that of update $number" cmp -s "$chart" "$copies/at$number.held"
    $unit "${words[@]}" >"$copies/said"
    check "follow killed before step $step, $name, and again: the chart isn't that of update 3" holds "$folder" "$copies/at3.held"
    [ "$name" != renameat ] || number=$((number + 1))
done
check "follow renamed $number times" [ $number -eq 3 ]

# ---- the disk is full

cp "$copies/first.held" "$chart"
says 2 "$(unwritten "$folder" 'File too large')" limited offer "$one" "$folder"
check 'a file that is too large changed the folder' holds "$folder" "$copies/first.held"

if small_disk "$disk"; then
    grown half.000 8105 103 3000 1725 # the last record, a collection; NOLR
    takes "$copies/half.000" "$copies/half.held" # two of them have no room
    cp "$copies/half.held" "$disk/cell.000"
    says 2 "$(unwritten "$disk" 'No space left on device')" $unit offer "$one" "$disk"
    check 'a disk too small: the folder changed' holds "$disk" "$copies/half.held"
    cp "$copies/at0.held" "$disk/cell.000"
    head -c 600000 /dev/zero 2>/dev/null >"$disk/filler"
    says 2 "$(unwritten "$disk" 'No space left on device')" $unit offer "$one" "$disk"
    says 2 "$(unwritten "$disk" 'No space left on device')" $unit follow "$disk" "$one" "$two"
    rm "$disk/filler"
    check 'a full disk: the folder changed' holds "$disk" "$copies/at0.held"
    says 0 "$one: The update was taken. (code 0, file 0, record 0, number $(wc -c <"$copies/at1.held"))" $unit offer "$one" "$disk"
    check 'with room again: the chart is another' holds "$disk" "$copies/at1.held"
    umount "$disk"
fi

# ---- cut off by force, at random moments and at each step; failing at each step

cp "$copies/first.held" "$chart"
offered "$one" "$copies/next.held"
cut_runs "$copies/first.held" "$copies/next.held" offer "$one" "$folder"

words=(offer "$two" "$folder")
steps=$(steps_of "$copies/at1.held" "${words[@]}")
# the old chart is read whole before anything is written
check "unit's steps are $(squeezed "$steps")" \
    [ "$(squeezed "$steps")" = 'unlinkat openat read close openat write fsync close renameat fsync ' ]
check 'short and interrupted reads and writes made another chart' holds "$folder" "$copies/at2.held"
killed "$copies/at1.held" "$copies/at2.held" "$steps" "${words[@]}"
failing "$copies/at1.held" "$copies/at2.held" "$steps" \
    "$two: The update was taken. (code 0, file 0, record 0, number $(wc -c <"$copies/at2.held"))" "${words[@]}"

# ---- the sample's own updates, whatever they change

# How many records a file has.
records() { # FILE
    local at=0 count=0 length
    length=$(wc -c <"$1")
    while [ "$at" -lt "$length" ]; do
        at=$((at + 10#$(tail -c +$((at + 1)) "$1" | head -c 5)))
        count=$((count + 1))
    done
    echo $count
}

# Whether the chart shows that number.
shows_number() { # NUMBER
    [[ $($unit show "$folder") =~ ^"$folder: GB5HRBR1, edition 1, update $1, issued "[-0-9]{10}", updated to "[-0-9]{10}$ ]]
}

# A series offered to the folder's chart: its status, and the chart that it must lead to.
follows() { # STATUS CHART UPDATE..
    local wanted=$1 status
    held=$2
    shift 2
    $unit follow "$folder" "$@" >"$copies/said" 2>&1
    status=$?
    check "$unit follow $folder $*: status $status, '$(cat "$copies/said")'" [ $status -eq "$wanted" ]
    check "$unit follow $folder $*: the chart isn't $held" holds "$folder" "$held"
}

series=(samples/harbour.00[1-9])
last=${#series[@]}
if [ -e "${series[0]}" ]; then
    echo "the sample's own updates: $last"
    takes samples/harbour.000 "$copies/sample0.held"
    for ((number = 1; number <= last; number++)); do
        next=${series[number - 1]}
        held=$copies/sample$((number - 1)).held
        head -c -1 "$next" >"$copies/short.001"
        refused short.001 2 2 $(($(records "$next") - 1))
        keeps_out "${series[@]:0:number-1}" "${series[@]:number}"
        offered "$next" "$copies/sample$number.held"
        check "after $next the chart doesn't show $number" shows_number $number
    done
    # at once; backwards, which takes one of them a time; from another unit's re-issue
    cp "$copies/sample0.held" "$chart"
    follows 0 "$copies/sample$last.held" "${series[@]}"
    cp "$copies/sample0.held" "$chart"
    backwards=()
    for update in "${series[@]}"; do backwards=("$update" "${backwards[@]}"); done
    for ((number = 1; number <= last; number++)); do
        follows $((last > 1)) "$copies/sample$number.held" "${backwards[@]}"
    done
    takes "$copies/sample1.held" "$copies/again.held"
    follows 1 "$copies/sample$last.held" "${series[@]}"
else
    echo "the sample's own updates: none, samples/harbour.001 isn't there"
fi
