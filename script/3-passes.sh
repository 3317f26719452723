# ---- One pass ----

# begin_pass KIND: the name of a new pass, which no other has
begin_pass() {
    number=$(printf '%s\n' passes/* aside/* | awk -F / '$2 ~ /^[0-9]+-/ { if ($2 + 0 > top) top = $2 + 0 } END { printf "%03d", top + 1 }')
    pass=$number-$drive
    put "pass $pass" "$1"
}

# read_blocks KIND FILE: one run of ddrescue over these blocks, in a new image, with what it says in work/ddrescue
read_blocks() {
    map_of "$2" > "work/$1.map"
    begin_pass "$1"
    case $1 in
        first | quick) how=-n ;;
        last) how=-r$retries ;;
        *) how=-r0 ;;
    esac
    note "pass $pass: $(blocks_in "$2") blocks, ddrescue $direct $how${model:+, drive $model}"
    rm -f work/poor
    # shellcheck disable=SC2016
    sh -c 'echo $$ > work/reader; exec "$@"' sh "$ddrescue" -q ${direct:+"$direct"} -b2048 "$how" -m "work/$1.map" "$device" "passes/$pass.img" "passes/$pass.map" 2> work/ddrescue > /dev/null < /dev/null 3>&- &
    reader=$!
    watch "$1" "$reader" "passes/$pass.map" &
    watcher=$!
    await "$reader"
    ended=$?
    reader=''
    rm -f work/reader
    kill "$watcher" 2> /dev/null
    wait "$watcher" 2> /dev/null
    watcher=''
    clear_line
}

# watch KIND PROCESS MAP: shows on a terminal how far a pass is, and ends a first pass of the whole disc that comes to little
watch() {
    start=$(date +%s) mark=$start before=0
    # a sleep that is left over holds no output open
    while sleep 3 > /dev/null 2>&1 3>&- && kill -0 "$2" 2> /dev/null; do
        [ -s "$3" ] || continue
        now=$(date +%s)
        good=$(runs_of + "$3" | blocks_in -) bad=$(runs_of '-*/' "$3" | blocks_in -)
        [ ! -t 3 ] || printf '\r       %s blocks read, %s not, of %s   %s\033[K' "$(grouped "$good")" "$(grouped "$bad")" "$(grouped "$(runs_of + "work/$1.map" | blocks_in -)")" "$(lasted $((now - start)))" >&3
        if [ "$1" != first ] || [ "$mode" != full ] || [ "$given" = full ] || [ $((now - mark)) -lt "$patience" ]; then continue; fi
        if [ $((bad * 20)) -gt $((good + bad)) ]; then
            echo "$(grouped "$bad") of the first $(grouped $((good + bad))) blocks could not be read" > work/poor
        elif [ $(((good - before) * 2048)) -lt $(((now - mark) * 1000000)) ]; then
            echo "less than 1 MB a second was read" > work/poor
        fi
        if [ -s work/poor ]; then kill -INT "$2" 2> /dev/null; return; fi
        mark=$now before=$good
    done
}

# end_pass KIND: after ddrescue: whether it ended as it should, whether the drive is still there, and what came into the table.
end_pass() {
    gone=''
    [ -s "passes/$pass.map" ] || touch "passes/$pass.map"
    runs_of + "passes/$pass.map" > work/came
    runs_of + "work/$1.map" > work/domain
    runs_of '?' "passes/$pass.map" > work/untouched
    without work/domain work/came > work/lacking
    without work/lacking work/untouched > work/missed
    if [ "$ended" != 0 ] && [ "$ended" -lt 128 ]; then
        free=$(df -Pk . | awk 'NR > 1 { print $4 }')
        [ "$free" -ge 1024 ] || fail "no room in $shown: ddrescue could not continue" "Make room, and start the same command again: it continues from the pass $pass."
        [ -n "$(runs_of '+-*/' "passes/$pass.map")" ] || fail "ddrescue ended with status $ended: $(tail -n 1 work/ddrescue)" 'Start the same command again when that is solved.'
    fi
    [ "$stop" != 0 ] || drive_is_there || gone=1
    [ -z "$gone" ] || put "pass $pass" gone
    settle "$pass"
    [ -n "$gone" ] || [ "$ended" != 0 ] || beyond_the_map "$1"
    survey
    [ -z "$gone" ] || lost_drive
    if [ "$ended" != 0 ] && [ "$ended" -lt 128 ] && [ "$stop" = 0 ]; then
        fail "ddrescue ended with status $ended: $(tail -n 1 work/ddrescue)" "What it had read is merged. Start the same command again to continue."
    fi
    [ "$ended" -lt 128 ] || [ "$stop" != 0 ] || [ -s work/poor ] || stop=1
}

# beyond_the_map KIND: what was asked for and is not even in the mapfile did not come either: for this drive the disc ended before it
beyond_the_map() {
    runs_of '-*/' "passes/$pass.map" > work/within
    without work/missed work/within > work/beyond
    add tried.runs < work/beyond
    add "drives/$drive.failed" < work/beyond
    [ "$1" != last ] || add "drives/$drive.retried" < work/beyond
}

# Whether the drive still reads what it has read before: blocks of this pass, or of an earlier one.
drive_is_there() {
    if [ -s work/came ]; then
        awk '{ run[NR] = $1; last = $2 - 1 } END { m = int((NR + 1) / 2); print run[1], run[1] + 1; print run[m], run[m] + 1; print last, last + 1 }' work/came | joined > "drives/$drive.read.new"
        mv "drives/$drive.read.new" "drives/$drive.read"
    fi
    [ -s work/missed ] || [ "$ended" != 0 ] || return 0
    [ -e "$device" ] || return 1
    [ -s "drives/$drive.read" ] || return 1
    rm -f work/probe.img work/probe.map
    map_of "drives/$drive.read" > work/probe
    attend "$ddrescue" -q ${direct:+"$direct"} -b2048 -r1 -m work/probe "$device" work/probe.img work/probe.map > /dev/null 2>&1
    [ -s work/probe.map ] && [ -n "$(runs_of + work/probe.map)" ]
}

lost_drive() {
    if [ ! -s "drives/$drive.read" ]; then
        fail "$device reads nothing of this disc" 'Clean the disc, take it out and put it in again, or use another drive.' "Then start the same command again, with the other DEVICE if there is one."
    fi
    fail "$device no longer reads what it has read before" 'Was the disc taken out, or the drive unplugged? If the drive hangs, take the disc out, and switch the drive off and on.' \
        'What it did not read in this pass is not counted as unreadable. Start the same command again to continue.'
}

# settle PASS: a pass that has ended: its SHA-256, then into the table, then what it says of the drive. It can be done again at any moment.
settle() {
    kind=$(get "pass $1")
    if [ ! -s "passes/$1.map" ] || [ -z "$(runs_of '+-*/' "passes/$1.map")" ]; then
        put "pass $1" "$kind done"
        return
    fi
    if [ ! -s "passes/$1.sha256" ]; then
        touch "passes/$1.img"
        # shellcheck disable=SC2016
        attend sh -c 'cd passes && exec sha256sum "$1.img" "$1.map"' sh "$1" > "passes/$1.sums" 2> work/error || fail "cannot compute the SHA-256 of the pass $1: $(cat work/error)"
        mv "passes/$1.sums" "passes/$1.sha256" || no_room "$1"
    fi
    runs_of + "passes/$1.map" > work/came
    [ ! -s work/came ] || merge "$1" || return
    of=${1#*-}
    add tried.runs < work/came
    if [ "${kind%% *}" != gone ]; then
        runs_of '-*/' "passes/$1.map" | add tried.runs
        runs_of - "passes/$1.map" | add "drives/$of.failed"
        runs_of '*/' "passes/$1.map" | add "drives/$of.hard"
        [ "$kind" != last ] || [ "${ended:-1}" != 0 ] || runs_of '-*/' "passes/$1.map" | add "drives/$of.retried"
    fi
    put "pass $1" "$kind done"
}

# merge PASS: into the table; a pass of another disc goes aside. The new table has a name of its own: a merge that outlived a killed run must not put its
# file in the place of this one's.
merge() {
    table=''
    new=work/disc.$$.tab
    [ ! -f disc.tab ] || table=disc.tab
    if attend "$program" merge --out "$new" --ddrescue "passes/$1.img" "passes/$1.map" ${table:+"$table"} > /dev/null 2> work/error; then
        mv "$new" disc.tab && return 0
        no_room "$1"
    fi
    case $(cat work/error) in
        *'udfsalvage: input '*': disagrees in '*) set_aside "$1" ;;
        *cannot\ write\ output*) no_room "$1" ;;
        *mapfile\ line* | *image\ ends*)
            put_aside "$1"
            say "The pass $1 is damaged, and was moved to aside: $(head -n 1 work/error)"
            return 1
            ;;
    esac
    fail "udfsalvage merge failed: $(head -n 1 work/error)" "The pass $1 is kept in $shown/passes."
}

# The files of a pass that is not merged; its number stays taken.
put_aside() {
    mv "passes/$1.img" "passes/$1.map" "passes/$1.sha256" aside/
    put "pass $1" 'aside done'
}

set_aside() {
    put_aside "$1"
    differ=$(sed -n 's/.*disagrees in \([0-9,]*\) of \([0-9,]*\) blocks.*/\1 of \2/p' work/error | head -n 1)
    fail "the disc in $device is not the disc of $shown" \
        "$differ blocks that were read before now have other bytes." \
        "Nothing of this pass is used: it is kept in $shown/aside." \
        "Insert the right disc, and start the same command again."
}

no_room() {
    fail "no room in $shown: $(bytes $(($(df -Pk . | awk 'NR > 1 { print $4 }') * 1024))) free" \
        "The pass $1 is kept, and the table is as it was. There must be room for a second table next to the old one." 'Make room, and start the same command again.'
}

