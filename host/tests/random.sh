# shellcheck shell=bash
# A part of host/tests.sh, behind host/tests/offer.sh: two folders are offered files at random: the next update, one that is in already, one too early, damaged
# ones, those of another chart or edition, a base; some runs are cut off at a random step; now and then a folder begins again, from the base or from the other
# folder's chart. After each offer a folder shows the number that it showed or the next one, its chart is the one of that number, and so two folders with one number
# have the same bytes. bench/tests/offers.c does the same with the calls themselves, and with areas of any length.

# ---- a series of nine updates, a node in each, and the chart of each number: by Admit of a cell that has these nodes and says that number

for number in {1..9}; do
    update "random.00$number" "$number"
    adds "random.00$number" 1814 67 $((999 + number)) # the first node
    grown "random$number.000" 1814 67 "$number" 1729  # NOIN
    patch "$copies/random$number.000" 1652 "$number"
    patch "$copies/random$number.000" 1654 "2024010${number}2024010$number"
    takes "$copies/random$number.000" "$copies/random$number.held"
done
takes samples/harbour.000 "$copies/random0.held"

# ---- files

# The path of any file, in `file`; of a copy that is changed no chart can come.
any_other() { # NUMBER (that the folder shows)
    local next=$(($1 < 9 ? $1 + 1 : 9))
    file=$copies/offered
    case $((RANDOM % 7)) in
    0) file=$copies/random.00$((1 + RANDOM % 9)) ;;
    1) file=$copies/random.00$(($1 > 0 ? $1 : 9)) ;;
    2) head -c $((RANDOM % 1746)) "$copies/random.00$next" >"$file" ;; # less than its two first records
    3) cp "$copies/random.00$next" "$file" && patch "$file" $((1746 + RANDOM % 5)) x ;; # the length of its last record
    4) cp "$copies/random.00$next" "$file" && patch "$file" 1644 2 ;;                     # the last letter of its name
    5) cp "$copies/random.00$next" "$file" && patch "$file" 1650 2 ;;                     # its edition
    6) file=samples/harbour.000 ;;
    esac
}

# The number that a folder shows, in `shown`; -1 where it shows none.
show_number() { # FOLDER
    local said
    said=$($unit show "$1" 2>&1)
    shown=-1
    [[ ! $said =~ ^"$1: GB5HRBR1, edition 1, update "([0-9])", issued "[-0-9]{10}", updated to "[-0-9]{10}$ ]] || shown=${BASH_REMATCH[1]}
}

# ---- offers

# A folder after an offer: it shows a number between these two, and has its chart and no more.
settled() { # FOLDER LEAST MOST WHAT
    show_number "$1"
    check "$4: shows $shown, which is under $2" [ "$shown" -ge "$2" ]
    check "$4: shows $shown, which is over $3" [ "$shown" -le "$3" ]
    check "$4: the chart isn't that of $shown" cmp -s "$1/cell.000" "$copies/random$shown.held"
}

# What is offered is the next update, for certain: it must be taken.
offer_next() { # FOLDER NUMBER
    $unit offer "$copies/random.00$(($2 + 1))" "$1" >/dev/null 2>&1
    settled "$1" $(($2 + 1)) $(($2 + 1)) "$unit offer $copies/random.00$(($2 + 1)) at $2"
}

offer_other() { # FOLDER NUMBER
    local file most=$2
    any_other "$2"
    $unit offer "$file" "$1" >/dev/null 2>&1
    [ "$file" != "$copies/random.00$(($2 + 1))" ] || most=$(($2 + 1)) # it was the next one after all
    settled "$1" "$most" "$most" "$unit offer $file at $2"
}

# The next update, in a run that ends by force at one of its steps.
offer_cut() { # FOLDER NUMBER
    { FAULT="kill $((1 + RANDOM % 24))" BENCH_OUT=$PWD/target/host bench/run.sh unit_faults offer "$copies/random.00$(($2 + 1))" "$1" >/dev/null; } 2>/dev/null
    settled "$1" "$2" $(($2 + 1)) "$unit offer $copies/random.00$(($2 + 1)) at $2, cut off"
}

begin_again() { # FOLDER BASE NUMBER
    $unit admit "$2" "$1" >/dev/null 2>&1
    settled "$1" "$3" "$3" "$unit admit $2"
}

pair=("$folder" "$copies/second")
mkdir "${pair[1]}"
begin_again "${pair[1]}" "$chart" 0
RANDOM=57 # the same offers each time
offers=300 equal=0 taken=0
numbers=(0 0)
for ((i = 0; i < offers; i++)); do
    one=$((RANDOM % 2))
    number=${numbers[one]}
    case $((RANDOM % 12)) in
    0) begin_again "${pair[one]}" samples/harbour.000 0 ;;
    1) begin_again "${pair[one]}" "${pair[1 - one]}/cell.000" "${numbers[1 - one]}" ;;
    [234567]) if [ "$number" -lt 9 ]; then offer_next "${pair[one]}" "$number"; else offer_other "${pair[one]}" 9; fi ;;
    8) if [ "$number" -lt 9 ]; then offer_cut "${pair[one]}" "$number"; else offer_other "${pair[one]}" 9; fi ;;
    *) offer_other "${pair[one]}" "$number" ;;
    esac
    [ "$shown" -le "$number" ] || taken=$((taken + 1))
    numbers[one]=$shown
    if [ "${numbers[0]}" = "${numbers[1]}" ]; then
        equal=$((equal + 1))
        check "two folders at $shown have other bytes" cmp -s "${pair[0]}/cell.000" "${pair[1]}/cell.000"
    fi
done
echo "two folders, $offers offers at random: $taken brought a higher number, $equal times both showed one number"
for one in 0 1; do
    $unit follow "${pair[one]}" "$copies"/random.00[1-9] >/dev/null 2>&1
    settled "${pair[one]}" 9 9 "$unit follow ${pair[one]}, all nine"
    check "$unit follow leaves $(ls -A "${pair[one]}")" holds "${pair[one]}" "$copies/random9.held"
done
