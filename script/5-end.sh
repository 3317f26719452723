# ---- The end ----

# closed: why the volume does not open, in words
closed() {
    has_iso=''
    for image in passes/*.img; do
        [ -f "$image" ] || continue
        ids=$(dd if="$image" bs=2048 skip=16 count=16 2> /dev/null | tr -c 'A-Z0-9' '\n' | grep -e '^CD001' -e '^NSR0[23]')
        case $ids in *NSR0*) has_iso=''; break ;; *CD001*) has_iso=1 ;; esac
    done
    if [ -n "$has_iso" ]; then
        tell 'This is an ISO 9660 disc without UDF, which udfsalvage does not read.'
        tell "  Other programs do. To write an image for them:"
        tell "    $(command_line image "--out $(quoted "$folder/disc.img") --mapfile $(quoted "$folder/disc.map")")"
        return
    fi
    case $volume in
        holes\ *\ *) tell "The disc does not open yet. It needs one of these blocks:${volume#holes}." ;;
        holes*) tell "The disc does not open yet. It needs block${volume#holes}." ;;
        *NoAnchor*) tell 'There is no UDF on this disc: it is blank, or of another kind, such as audio or video.' ;;
        *Domain*) tell 'udfsalvage does not read UDF 2.50 or later, as on Blu-ray discs.' ;;
        *MapKind*)
            tell 'This is a write-once disc with a virtual partition (VAT), or a disc with a'
            tell 'metadata partition: udfsalvage does not read these.'
            ;;
        *)
            tell "The disc does not open: $(printf '%s' "$volume" | sed 's/fault \([0-9]*\) \(.*\)/fault \1, \2/')."
            tell 'man udfsalvage-errors explains this fault.'
            ;;
    esac
}

# command_line COMMAND OPTIONS: how a command of the program is typed from where the person is
command_line() {
    printf '%s %s%s --size %s %s %s' "$(quoted "$program")" "$1" "${profile:+ --profile $profile}" "$size" "$2" "$(quoted "$folder/disc.tab")"
}

# The files by how whole they are, with the most damaged of them.
count_files() {
    awk -F '\t' -v root="$(sed -n 's/^node 0 \([^ ]*\) .*/\1/p' work/report)" '
        '"$(units)"'
        NR == 1 { next }
        $2 == "file" { all++ }
        $1 == "whole" && $2 == "file" { whole++; size += $4 }
        $1 == "torn" && $2 == "file" { torn++; lost += $3 }
        $2 == "unknown" { all++; unread++ }
        $1 ~ /^fault/ && $2 == "file" { odd++ }
        $1 == "torn" && $2 == "directory" { folders++ }
        END {
            if (!all) print root == "whole" ? "There is no file on this disc." : "No file is known yet: the folder that leads to all others was not read."
            else if (whole == all) print "All " all " files are whole (" human(size) ")."
            else print whole + 0 " of " all " files are whole (" human(size) ")."
            if (torn) print torn " damaged: " human(lost) " of " (torn == 1 ? "it is" : "them are") " missing."
            if (unread) print unread " unread: files or whole folders of which only the name is known."
            if (folders) print "Names are missing in " folders (folders == 1 ? " folder" : " folders") ": there may be more files."
            if (odd) print odd " not understood: read, but faulty."
        }' files.tsv
    # the worst: most of it missing
    awk -F '\t' 'NR > 1 && $1 == "torn" && $2 == "file" && $4 > 0 { printf "%.1f\t%s\n", 100 * $3 / $4, $6 }' files.tsv |
        sort -t "$(printf '\t')" -k1,1rn -k2 | head -n 5 |
        awk -F '\t' '{ printf "  %-6s %5.1f %% missing  %s\n", NR == 1 ? "Worst:" : "", $1, $2 }'
}

# Sizes in awk, as the function human.
units() {
    echo 'function human(n,   unit, i) { split("B kB MB GB TB", unit, " "); i = 1; while (n >= 999.95 && i < 5) { n /= 1000; i++ }
        return sprintf(i == 1 ? "%d %s" : "%.1f %s", n, unit[i]) }'
}

# The files that a block in conflict damages, and what settles it.
conflicts() {
    [ -s work/disputed ] || return 0
    tell "$(plural "$(blocks_in work/disputed)" 'block that a file needs was' 'blocks that files need were') read with different bytes."
    tell '  Nothing shows which bytes are right. These files are damaged by them:'
    awk 'NR == FNR { for (i = $1; i < $2; i++) disputed[i] = 1; next }
        /^node / { node = $2 }
        /^unnamed / { node = -1 }
        /^missing / && ($2 in disputed) && node >= 0 { print node; node = -1 }' work/disputed work/report > work/nodes
    # the list has the nodes behind the root in the same order, and its paths can do nothing to a terminal
    awk -F '\t' 'NR == FNR { damaged[$1] = 1; next }
        FNR == 1 && (0 in damaged) && ++count { print "  /" }
        FNR > 1 && ((FNR - 1) in damaged) && ++count <= 10 { print "  " $6 }
        END { if (count > 10) print "  and " count - 10 " more" }' work/nodes files.tsv > work/paths
    [ -s work/paths ] || echo '  the structures of the disc itself' > work/paths
    while IFS= read -r path; do tell "$path"; done < work/paths
    tell '  To forget these blocks, and read them again:'
    tell "    $(quoted "$program") forget --conflicts --out $(quoted "$folder/disc.tab") $(quoted "$folder/disc.tab")"
    tell "    $(again "$only" "$device")"
}

# again WORDS DEVICE: this command, as it is typed, with these options and this device
again() {
    printf 'udfsalvage-rescue%s %s %s' "$1" "$(quoted "$2")" "$(quoted "$folder")"
}

# other_drive: the device of a drive that has not been used in this folder
other_drive() {
    for one in /dev/sr0 /dev/sr1 /dev/sr2; do
        [ "$device" = "$one" ] || [ -n "$(get "drive ${one#/dev/} is")" ] || { echo "$one"; return; }
    done
    echo DEVICE
}

write_report() {
    udf page --out report.html ${title:+${titled:+--title "$title"}} disc.tab > /dev/null 2> work/error
    [ $? -le 1 ] || failed_command page
    printf 'standing\tkind\tbytes lost\tsize\ttime\tpath\n' > files.new
    udf list disc.tab >> files.new 2> work/error
    [ $? -le 1 ] || failed_command list
    mv files.new files.tsv
}

# Writes out what is whole, into a folder that is complete as soon as it has its name.
write_files() {
    [ -n "$to" ] || return 0
    if [ -e "$to" ]; then
        tell "$(quoted "$to") was already written. To write what was read since, give another --to."
        return
    fi
    put extracting "$to.unfinished"
    only extract --to "$to.unfinished" disc.tab > work/written 2> work/error
    extracted=$?
    # (reread has judged the paths: one that is no node's may be hidden by a folder that is not whole)
    if [ "$extracted" = 2 ] && grep -q 'is no node$' work/error; then
        tell "Nothing was written to $(quoted "$to"), because a path was not found yet: $(sed 's/^udfsalvage: //; q' work/error)"
        return
    fi
    [ "$extracted" -le 1 ] || failed_command extract
    if grep -q '^failed ' work/written; then
        fail "$(plural "$(grep -c '^failed ' work/written)" 'file could' 'files could') not be written to $to.unfinished" 'Is there room? Make some, and start the same command again.'
    fi
    if [ -d "$to.unfinished" ]; then
        mv "$to.unfinished" "$to" && put extracted "$to"
        tell "$(plural "$(grep -c '^written ' work/written)" 'file is' 'files are') written to $(quoted "$to")."
    fi
}

# What is whole, damaged and unread, and how to go on.
finish() {
    if [ ! -f disc.tab ]; then
        tell "Nothing of this disc was read."
        [ "$stop" = 0 ] || leave 130
        leave 1
    fi
    wanted
    write_report
    tell ''
    case $volume in
        ok*) count_files > work/counts; while IFS= read -r text; do tell "$text"; done < work/counts ;;
        *) closed ;;
    esac
    conflicts
    if [ -s work/needed ]; then tell "$(plural "$(blocks_in work/needed)" 'block is' 'blocks are') still worth reading."; fi
    [ "$stop" != 0 ] || write_files
    ways
    [ "$stop" = 0 ] || leave 130
    leave "$standing"
}

# The lines to go on with.
ways() {
    if [ "$stop" != 0 ]; then
        tell "  To continue:"
        tell "    $(again "$words_given" "$device")"
    elif [ -s work/needed ]; then
        tell "  Clean the disc and start again, or use another drive than $(sed -n 's/^drive \([^ ]*\) is .*/\1/p' state | sort -u | paste -s -d , | sed 's/,/, /g'):"
        tell "    $(again "$only" "$(other_drive)")"
    fi
    if [ "$files" != 0 ] && [ -z "$to" ]; then
        tell "  To write the whole files:"
        tell "    $(command_line extract "--to $(quoted "$folder/files")")"
    fi
    tell "  To look at the report:"
    tell "    $folder/report.html"
}

# ---- The order of it all ----

# What an earlier run left: a ddrescue that still reads, and passes that are not in the table yet.
take_up() {
    left=$(cat work/reader 2> /dev/null)
    if [ -n "$left" ] && [ "$(readlink "/proc/$left/cwd" 2> /dev/null)" = "$(pwd -P)" ] && tr '\0' '\n' < "/proc/$left/cmdline" | grep -q '^passes/'; then
        say "A ddrescue of an earlier run is still reading (process $left): ending it"
        kill -INT "$left" 2> /dev/null
        # (one that has ended and is not waited for by its parent has no folder any more)
        while [ "$(readlink "/proc/$left/cwd" 2> /dev/null)" = "$(pwd -P)" ]; do sleep 1; done
    fi
    rm -f work/reader
    sed -n '/ done$/d; s/^pass \([^ ]*\) .*/\1/p' state > work/left
    while read -r left; do
        settle "$left" < /dev/null
    done < work/left
}

main() {
    read_arguments "$@"
    check_programs
    check_device
    open_folder
    trap '' INT
    trap 'at_once 143' TERM
    trap 'at_once 129' HUP
    given=$asked_mode
    mode=${asked_mode:-$(get mode)}
    mode=${mode:-full}
    put mode "$mode"
    titled=''
    ! has page title || titled=1
    volume='' files=0 standing=1
    if [ -n "${is_new:-}" ]; then
        check_room
        say "A new rescue in $shown: $(bytes "$size") in $device${model:+ ($model)}"
        check_holes
    else
        say "Continuing in $shown: $(bytes "$size") in $device${model:+ ($model)}"
        check_room
    fi
    take_up
    survey
    first_pass
    rounds
    rm -f "drives/$drive.retried"
    finish
}

main "$@"
