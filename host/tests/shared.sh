# shellcheck shell=bash
# What host/tests.sh and its parts share. They run at the repository's top; `copies` is their temporary folder, and in it `folder` is unit's, `chart` its
# chart.

judge=host/judge.sh
unit=host/unit.sh
folder=$copies/folder
chart=$folder/cell.000

# One test: whether a command is true.
check() { # WHAT COMMAND..
    local what=$1
    shift
    if "$@"; then passed=$((passed + 1)); else fault "$what"; fi
}

# What docs/CODES.md has for the mate: what a code means, and what to do.
sentence() { # CODE
    sed -n "s/^| $1 [A-Z][a-z]* | \([^|]*\) | \([^|]*\) |\$/\1 \2/p" docs/CODES.md
}

# What a host says of a file that is refused.
refusal() { # PATH CODE FILE RECORD
    local what=record after=''
    [[ $2 != 1[789] ]] || what=place
    [[ $2.$3 != 1[789].3 ]] || after='With this update the chart would be wrong. '
    echo "$1: $after$(sentence "$2") (code $2, file $3, $what $4)"
}

# ---- cells made from the sample

# Writes bytes into a file in place of those at an offset.
patch() { # FILE OFFSET BYTES (for printf)
    # shellcheck disable=SC2059
    # (the bytes are the format)
    printf "$3" | dd of="$1" bs=1 seek="$2" conv=notrunc status=none
}

# A copy of the sample with one byte changed.
changed() { # NAME OFFSET BYTE
    cp samples/harbour.000 "$copies/$1"
    patch "$copies/$1" "$2" "$3"
}

# A number in four bytes, low byte first, for printf.
little() { # VARIABLE NUMBER
    printf -v "$1" '\\x%02x\\x%02x\\x%02x\\x%02x' $(($2 & 255)) $(($2 >> 8 & 255)) $(($2 >> 16 & 255)) $(($2 >> 24 & 255))
}

# Where in a record of the sample its RCID stands: that is the second subfield of its second field; the first field, 0001, has 3 bytes.
id_in() { # OFFSET
    echo $((10#$(tail -c +"$(($1 + 13))" samples/harbour.000 | head -c 5) + 3 + 1)) # behind the base address
}

# A large copy of the sample: one record comes many times more, right behind itself, each time with an RCID of its own, from 1,000 on, and the count in
# DSSI that counts its kind is raised.
grown() { # NAME OFFSET LENGTH TIMES OFFSET-OF-COUNT
    local bytes id at i
    bytes=$(od -An -v -tx1 -j "$2" -N "$3" samples/harbour.000 | tr -d '\n' | sed 's/ /\\x/g')
    at=$(id_in "$2")
    {
        head -c "$(($2 + $3))" samples/harbour.000
        for ((i = 0; i < $4; i++)); do
            little id $((1000 + i))
            # shellcheck disable=SC2059
            printf "${bytes:0:4*at}$id${bytes:4*(at+4)}"
        done
        tail -c +"$(($2 + $3 + 1))" samples/harbour.000
    } >"$copies/$1"
    little id $(($4 + $(od -An -tu4 -j "$5" -N 4 samples/harbour.000)))
    patch "$copies/$1" "$5" "$id"
}

# ---- what a host says and leaves

# A host on its words: its exit status, and all that it says, on standard output or error.
says() { # STATUS LINES HOST WORDS..
    local wanted=$1 lines=$2 said status
    shift 2
    said=$("$@" 2>&1 </dev/null)
    status=$?
    check "$*: status $status, '$said'" [ "$status $said" = "$wanted $lines" ]
}

# Whether a folder has a chart with the bytes of a file, and nothing else.
holds() { # FOLDER FILE
    [ "$(ls -A "$1")" = cell.000 ] && cmp -s "$1/cell.000" "$2"
}

# unit takes a file with a sentence: what it says it wrote is there and nothing else, and judge finds it good. A copy of it is kept.
taken() { # SENTENCE COPY WORDS.. (the command, the file, the folder)
    local line=$1 copy=$2 said status
    shift 2
    said=$($unit "$@" 2>&1 </dev/null)
    status=$?
    check "$unit $*: status $status, '$said'" [ "$status $said" = "0 $2: $line (code 0, file 0, record 0, number $(wc -c <"$chart"))" ]
    cp "$chart" "$copy"
    check "$unit $* leaves $(ls -A "$folder")" holds "$folder" "$copy"
    says 0 "$copy: The chart is good. (code 0, file 0, record 0)" $judge "$copy"
}

takes() { # BASE COPY
    taken 'The chart was taken.' "$2" admit "$1" "$folder"
}

# unit takes nothing: the folder has the chart that it had, which is that of the file $held, and nothing else.
keeps() { # STATUS LINES WORDS..
    says "$1" "$2" $unit "${@:3}"
    check "$unit ${*:3} leaves $(ls -A "$folder")" holds "$folder" "$held"
}

unwritten() { # FOLDER WHY
    echo "unit: the chart can't be written into $1: $2; what was there before stays"
}

# unit where no file may have over about a megabyte.
limited() { # WORDS..
    (
        trap '' XFSZ # else the limit would end the program by a signal
        ulimit -f 1000
        exec $unit "$@"
    )
}

# A disk of its own of 512 KB, where this user may mount one.
small_disk() { # FOLDER
    mkdir -p "$1" && mount -t tmpfs -o size=512k tmpfs "$1" 2>/dev/null
}

# ---- cut off by force, at moments spread over a run

# Microseconds that unit takes on its words with the old chart in its folder, the shortest of five times.
takes_time() { # OLD WORDS..
    local old=$1 least=999999999 start end
    shift
    for _ in 1 2 3 4 5; do
        cp "$old" "$chart"
        start=${EPOCHREALTIME/[.,]/}
        $unit "$@" </dev/null >/dev/null 2>&1
        end=${EPOCHREALTIME/[.,]/}
        [ $((end - start)) -ge "$least" ] || least=$((end - start))
    done
    echo "$least"
}

# Starts unit, ends it by force after some microseconds, and waits. True where it had not ended before. host/unit.sh becomes the program, or on Arm the
# emulator, under its own number: it is this that is hit.
cut_off() { # MICROSECONDS WORDS..
    local pause
    printf -v pause '%d.%06d' $(($1 / 1000000)) $(($1 % 1000000))
    shift
    $unit "$@" </dev/null >/dev/null 2>&1 &
    read -rt "$pause" -u 9 # nothing ever comes
    kill -KILL $! 2>/dev/null
    wait $! 2>/dev/null
    [ $? -eq 137 ]
}

# unit on words that put the new chart in place of the old one, cut off a hundred times. A run that ended before it was hit isn't one of the hundred. Every
# other moment is near the end of the run, where the chart is written: it comes later after a hit and earlier after a miss, since how long a run takes
# changes with what else the machine does; for the same reason the span of the other moments grows after a hit and shrinks after a miss. What a run leaves
# besides the chart is the next one's to remove.
cut_runs() { # OLD NEW WORDS..
    local old=$1 new=$2 begin end span late now hit runs=0 cut=0 parts=0 news=0
    shift 2
    begin=$(takes_time "$old")
    end=$(takes_time "$old" "$@")
    span=$((end - begin)) late=$end
    while [ "$cut" -lt 100 ] && [ "$runs" -lt 1000 ]; do
        runs=$((runs + 1))
        cp "$old" "$chart"
        hit=false
        if [ $((runs % 2)) -eq 0 ]; then
            if cut_off $((begin + span * (RANDOM % 1000) / 1000)) "$@"; then
                hit=true
                span=$((span + span / 40))
            else
                span=$((span - span / 20))
            fi
        elif cut_off "$late" "$@"; then
            hit=true
            late=$((late + end * (RANDOM % 50) / 1000))
        else
            late=$((late - end * (RANDOM % 50) / 1000))
        fi
        now=$old
        ! cmp -s "$chart" "$new" || now=$new
        if $hit; then
            check "$unit $1, cut off, run $runs: the chart is neither the old nor the new one" cmp -s "$chart" "$now"
            cut=$((cut + 1))
            [ ! -e "$folder/cell.part" ] || parts=$((parts + 1))
            [ "$now" = "$old" ] || news=$((news + 1))
        elif [ "$now" = "$old" ]; then
            fault "$unit $1, run $runs: it wasn't cut off, but the chart isn't the new one"
        fi
    done
    echo "unit $1 cut off by force: $cut of $runs runs before their end; $parts of them with the new chart in part written, $news with it in its place"
    check "$unit $1: only $cut of $runs runs were cut off" [ "$cut" -eq 100 ]
}

# ---- cut off, or failing, at each step

# unit_faults is unit with a disk that obeys $FAULT (host/tests/faults.c), here on a folder with the old chart in it.
faulty() { # FAULT OLD WORDS..
    local fault=$1
    cp "$2" "$chart"
    shift 2
    FAULT=$fault BENCH_OUT=$PWD/target/host bench/run.sh unit_faults "$@" </dev/null 2>&1
}

# The steps of unit on its words, one a line. What it says on standard output isn't shown.
steps_of() { # OLD WORDS..
    cp "$1" "$chart"
    shift
    FAULT=list BENCH_OUT=$PWD/target/host bench/run.sh unit_faults "$@" 2>&1 >/dev/null </dev/null
}

# The same steps, each run of one step as one word.
squeezed() { # STEPS
    echo "$1" | uniq | tr '\n' ' '
}

# Killed before each step: the chart is the old one until it is renamed, and the next run, whatever it comes to, leaves nothing else.
killed() { # OLD NEW STEPS WORDS..
    local left=$1 old=$1 new=$2 steps=$3 step=0 name said status
    shift 3
    for name in $steps; do
        step=$((step + 1))
        { said=$(faulty "kill $step" "$old" "$@"); } 2>/dev/null
        status=$?
        check "$unit $1 killed before step $step, $name: status $status, '$said'" [ "$status $said" = '137 ' ]
        check "$unit $1 killed before step $step, $name: the chart isn't $left" cmp -s "$chart" "$left"
        $unit admit "$copies/cut.000" "$folder" >/dev/null
        check "$unit $1 killed before step $step, $name: the next run leaves $(ls -A "$folder")" holds "$folder" "$left"
        [ "$name" != renameat ] || left=$new
    done
}

# What unit comes to where a step fails: sets `status`, `line`, `left`. The first step only removes what another run left, and one that closes the old
# chart has read it already; after the last but one the new chart is in its place.
failure() { # NAME WHILE-READING LAST
    local why='Input/output error'
    case $1 in
    openat) why='Permission denied' ;;
    write) why='No space left on device' ;;
    esac
    status=2 left=$old line=$(unwritten "$folder" "$why")
    if [ "$1" = unlinkat ] || { $2 && [ "$1" = close ]; }; then
        status=0 left=$new line=$good
    elif $2; then
        line="unit: the chart in $folder can't be read: $why"
    elif $3; then
        left=$new
        line="unit: $folder has the new chart, but it isn't sure to outlive a power cut: $why; look with unit show after the next start"
    fi
}

# Failing at each step. GOOD is what unit says where nothing fails.
failing() { # OLD NEW STEPS GOOD WORDS..
    local old=$1 new=$2 steps=$3 good=$4 step=0 name last reading=false status line left
    shift 4
    last=$(echo "$steps" | wc -l)
    [[ $steps != *read* ]] || reading=true
    for name in $steps; do
        step=$((step + 1))
        failure "$name" $reading "$([ $step -eq "$last" ] && echo true || echo false)"
        says "$status" "$line" faulty "fail $step" "$old" "$@"
        check "$unit $1, step $step, $name, failed: the chart isn't $left, or not alone" holds "$folder" "$left"
        [ "$name" != close ] || reading=false
    done
}
