# shellcheck shell=bash
# A part of host/tests.sh: unit takes a base cell.

# ---- a chart is taken

mkdir "$folder"
takes samples/harbour.000 "$copies/harbour.held"
takes "$copies/harbour.held" "$copies/again.held"
check 'the re-issue of a re-issue is another' cmp "$copies/harbour.held" "$copies/again.held"
takes "$chart" "$copies/again.held" # the folder's own chart as the base
check "the re-issue of the folder's own chart is another" cmp "$copies/harbour.held" "$copies/again.held"

# ---- nothing changes

held=$copies/harbour.held
usage='usage: unit admit BASE FOLDER
usage: unit offer UPDATE FOLDER
usage: unit follow FOLDER UPDATE..
usage: unit show FOLDER'

keeps 1 "$(refusal "$copies/cut.000" 2 1 62)" admit "$copies/cut.000" "$folder"
keeps 1 "$(refusal "$copies/long.000" 1 1 0)" admit "$copies/long.000" "$folder"
keeps 1 "$(refusal "$copies/value.000" 6 1 1)" admit "$copies/value.000" "$folder"
keeps 1 "$(refusal "$copies/ring.000" 19 1 38)" admit "$copies/ring.000" "$folder"
keeps 1 "$(refusal "$copies/many.000" 20 3 0)" admit "$copies/many.000" "$folder"
keeps 2 "unit: $copies/none.000 can't be read" admit "$copies/none.000" "$folder"
keeps 2 "unit: $copies can't be read" admit "$copies" "$folder"
keeps 2 "unit: $copies/none can't be opened as a folder: No such file or directory" admit samples/harbour.000 "$copies/none"
check 'a missing folder was made' [ ! -e "$copies/none" ]
keeps 2 "unit: $chart can't be opened as a folder: Not a directory" admit samples/harbour.000 "$chart"
keeps 2 "$usage"
keeps 2 "$usage" admit samples/harbour.000
keeps 2 "$usage" admits samples/harbour.000 "$folder"

# Another run has the folder.
exec 8<"$folder"
flock 8
keeps 2 "unit: $folder is in use by another run of unit; try again when that has ended" admit samples/harbour.000 "$folder"
exec 8<&-

# ---- what a run that was cut off has left goes, whatever the next run comes to

head -c 100 samples/harbour.000 >"$folder/cell.part"
keeps 1 "$(refusal "$copies/cut.000" 2 1 62)" admit "$copies/cut.000" "$folder"
head -c 100 samples/harbour.000 >"$folder/cell.part"
keeps 2 "unit: $copies/none.000 can't be read" admit "$copies/none.000" "$folder"
head -c 100 samples/harbour.000 >"$folder/cell.part"
takes samples/harbour.000 "$copies/again.held"
# nor does unit write through a name that leads elsewhere, or take away what no run of it has left
ln -s "$copies/elsewhere" "$folder/cell.part"
takes samples/harbour.000 "$copies/again.held"
check 'unit wrote outside its folder' [ ! -e "$copies/elsewhere" ]
mkdir "$folder/cell.part"
says 2 "$(unwritten "$folder" 'File exists')" $unit admit samples/harbour.000 "$folder"
rmdir "$folder/cell.part"

# ---- the disk is full

grown first.000 8105 103 20000 1725 # the last record, a collection; NOLR
cp "$copies/first.000" "$copies/second.000"
patch "$copies/second.000" 1683 B # the first letter of the comment in DSID

# The folder has room for the old chart and for a part of the new one only, as a limit on the size of files says.
says 2 "$(unwritten "$folder" 'File too large')" limited admit "$copies/first.000" "$folder"
check 'a file that is too large changed the folder' holds "$folder" "$copies/harbour.held"

# A disk of its own: first too small for the new chart, then full to the last byte, then with room again.
disk=$copies/disk
if small_disk "$disk"; then
    echo 'a full disk: by a limit on the size of files, and on a disk of 512 KB'
    cp "$copies/harbour.held" "$disk/cell.000"
    says 2 "$(unwritten "$disk" 'No space left on device')" $unit admit "$copies/first.000" "$disk"
    check 'a disk too small: the folder changed' holds "$disk" "$copies/harbour.held"
    head -c 600000 /dev/zero 2>/dev/null >"$disk/filler"
    says 2 "$(unwritten "$disk" 'No space left on device')" $unit admit samples/harbour.000 "$disk"
    rm "$disk/filler"
    check 'a full disk: the folder changed' holds "$disk" "$copies/harbour.held"
    says 0 "$chart: The chart was taken. (code 0, file 0, record 0, number $(wc -c <"$chart"))" $unit admit "$chart" "$disk"
    umount "$disk"
else
    echo 'a full disk: by a limit on the size of files alone, since this user may mount no disk of its own'
fi

# ---- cut off by force, at random moments and at each step; failing at each step

takes "$copies/first.000" "$copies/first.held"
takes "$copies/second.000" "$copies/second.held"
cut_runs "$copies/first.held" "$copies/second.held" admit "$copies/second.000" "$folder"
takes samples/harbour.000 "$copies/harbour.held" # and the folder is clean again

changed other.000 1683 B # the first letter of the comment in DSID
takes "$copies/other.000" "$copies/other.held"
words=(admit "$copies/other.000" "$folder")
steps=$(steps_of "$copies/harbour.held" "${words[@]}")
# the new bytes are flushed before they are renamed, and the folder after it
check "unit's steps are $(squeezed "$steps")" [ "$(squeezed "$steps")" = 'unlinkat openat write fsync close renameat fsync ' ]
check 'short and interrupted writes made another chart' holds "$folder" "$copies/other.held"
killed "$copies/harbour.held" "$copies/other.held" "$steps" "${words[@]}"
failing "$copies/harbour.held" "$copies/other.held" "$steps" \
    "$copies/other.000: The chart was taken. (code 0, file 0, record 0, number $(wc -c <"$copies/other.held"))" "${words[@]}"
