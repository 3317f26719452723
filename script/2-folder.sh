# ---- What the folder knows ----

# get WORD: what is kept under this word, or nothing
get() {
    [ ! -f state ] || sed -n "s/^$1 //p" state | tail -n 1
}

# put WORD TEXT: keeps it
put() {
    if ! { [ ! -f state ] || grep -v "^$1 " state; printf '%s %s\n' "$1" "$2"; } > state.new || ! mv state.new state; then
        fail "cannot write $shown/state" "Is there room, and may you write there?"
    fi
}

# ---- Interruption ----

# Ctrl-C: once, the pass ends, and what it read is merged and reported; twice, everything ends at once. It is heard while ddrescue or
# udfsalvage works; in the moments between, the shell's own tools are not to be cut off by it, and so they ignore it.
# shellcheck disable=SC2317
interrupt() {
    stop=$((stop + 1))
    [ "$stop" = 1 ] || at_once 130
    clear_line
    say "Interrupted: ending this pass, then the report. Ctrl-C again ends at once."
    # ddrescue got the terminal's Ctrl-C too; one that did not gets its own
    [ -z "$reader" ] || (sleep 1; kill -INT "$reader") > /dev/null 2>&1 3>&- &
}

# shellcheck disable=SC2317
at_once() {
    [ -z "$reader" ] || kill -TERM "$reader" 2> /dev/null
    [ -z "$child" ] || kill -TERM "$(cat work/child 2> /dev/null)" 2> /dev/null
    [ -z "$watcher" ] || kill "$watcher" 2> /dev/null
    clear_line
    note "ended at once by a signal"
    printf 'Ended at once. Start the same command again to continue.\n' >&3 2> /dev/null
    leave "$1"
}

# await PROCESS: its status, whatever signals come meanwhile
await() {
    status=''
    trap interrupt INT
    while :; do
        heard=$stop
        wait "$1"
        waited=$?
        # a second wait does not know a process that the first had waited for
        [ "$waited" = 127 ] && [ -n "$status" ] || status=$waited
        [ "$heard" != "$stop" ] || break
    done
    trap '' INT
    return "$status"
}

# attend COMMAND..: runs a command that Ctrl-C does not reach, while the script hears it. Its status goes through a file, since a shell
# whose wait a signal ends in the moment in which the command does forgets it.
attend() {
    rm -f work/child work/ended
    (
        "$@" &
        echo $! > work/child
        wait $!
        ended=$?
        # on a full disk there is no file, and the status is this process's own
        echo "$ended" 2> /dev/null > work/ended
        exit "$ended"
    ) < /dev/null 3>&- &
    child=$!
    await "$child"
    status=$?
    [ ! -s work/ended ] || read -r status < work/ended
    child=''
    return "$status"
}

# ---- The beginning ----

read_arguments() {
    while [ $# -gt 0 ]; do
        case $1 in
            --needed) asked_mode=needed words_given="$words_given --needed" ;;
            --full) asked_mode=full words_given="$words_given --full" ;;
            --name | --only | --retries | --to | --title)
                [ $# -gt 1 ] || wrong "$1 needs a value"
                read_option "$1" "$2"
                words_given="$words_given $1 $(quoted "$2")"
                shift
                ;;
            -h | --help) printf '%s\n%s\n' "$usage" "$words"; exit 0 ;;
            -V | --version) echo "udfsalvage-rescue, with $("$program" --version)"; exit 0 ;;
            --) shift; break ;;
            -*) wrong "unknown option $1" ;;
            *) break ;;
        esac
        shift
    done
    [ $# = 2 ] || wrong 'give a DEVICE and a FOLDER after the options'
    device=$1 folder=$2
    if [ -z "$device" ] || [ -z "$folder" ]; then wrong 'DEVICE and FOLDER must not be empty'; fi
}

read_option() {
    case $1 in
        --name) drive=$2 ;;
        --only)
            case $2 in /*) ;; *) wrong '--only needs a path that begins with /' ;; esac
            only="$only --only $(quoted "$2")"
            ;;
        --retries) retries=$2 ;;
        --to) to=$2 ;;
        --title) title=$2 ;;
    esac
    case $drive in *[!A-Za-z0-9._-]* | .*) wrong '--name takes letters, digits, and . _ - and does not begin with a dot' ;; esac
    case $retries in *[!0-9]* | '' | ????*) wrong '--retries takes a number up to 999' ;; esac
}

wrong() {
    printf 'udfsalvage-rescue: %s\n%s\n' "$1" "$usage" >&2
    exit 2
}

# The programs, and whether they are recent enough.
check_programs() {
    if ! command -v "$program" > /dev/null && [ "$program" = udfsalvage ] && [ -x "$(dirname "$0")/udfsalvage" ]; then
        program=$(cd "$(dirname "$0")" && pwd)/udfsalvage
    fi
    command -v "$program" > /dev/null || fail "udfsalvage is not installed, or not on the PATH"
    command -v "$ddrescue" > /dev/null || fail 'ddrescue is not installed' 'On Debian and Ubuntu: sudo apt install gddrescue' 'On other systems the package is called ddrescue.'
    version=$("$ddrescue" --version 2> /dev/null | sed -n '1s/^GNU ddrescue \([0-9]*\.[0-9]*\).*/\1/p')
    [ -n "$version" ] || fail "$ddrescue is not GNU ddrescue" 'On Debian and Ubuntu: sudo apt install gddrescue (and not the package ddrescue or dd-rescue)'
    awk -v v="$version" 'BEGIN { split(v, n, "."); exit !(n[1] > 1 || n[2] >= 22) }' ||
        fail "GNU ddrescue $version is too old: 1.22 or later is needed" 'On Debian and Ubuntu: sudo apt install gddrescue'
    # the work is done in FOLDER, so a relative path is made whole
    case $program in */*) program=$(cd "$(dirname "$program")" && pwd)/$(basename "$program") ;; esac
    case $ddrescue in */*) ddrescue=$(cd "$(dirname "$ddrescue")" && pwd)/$(basename "$ddrescue") ;; esac
    "$program" reread --help 2> /dev/null > /dev/null || fail "$program does not run" "Try: $program --version"
    has reread no-witnesses || fail 'udfsalvage is too old for this script: its reread cannot ask for known blocks' 'Without them, a wrong disc in the drive would go unnoticed. Install both from the same version.'
    has reread group || fail 'udfsalvage is too old for this script: its reread cannot ask for whole groups of blocks' 'Install both from the same version.'
    [ -z "$only" ] || has reread only || fail 'this udfsalvage does not know reread --only' 'Leave out --only, or install a newer udfsalvage.'
    [ -z "$title" ] || has page title || tell 'Note: this udfsalvage writes no titles: the title is only kept in FOLDER/state.'
}

# has COMMAND OPTION: whether the program knows it
has() {
    # grep reads all of it: a program whose output is cut off reports an error
    "$program" "$1" --help 2> /dev/null | grep -e "--$2\$" -e "--$2[ =]" > /dev/null
}

# Whether the device can be read at all, its size, and which drive it is.
check_device() {
    [ -e "$device" ] || [ ! -e "$folder" ] || [ -d "$folder" ] || wrong 'the DEVICE comes first, then the FOLDER'
    [ -e "$device" ] || fail "$device does not exist" 'The first drive is usually /dev/sr0, a second one /dev/sr1. Is the drive plugged in?'
    [ ! -d "$device" ] || fail "$device is a folder" 'Give the drive itself, such as /dev/sr0, not the folder where the disc is mounted.'
    if [ ! -r "$device" ]; then
        group=$(stat -Lc %G "$device" 2> /dev/null)
        fail "you may not read $device" "The group ${group:=cdrom} may: sudo usermod -aG $group $(id -un), and then log in again."
    fi
    case $device in /*) ;; *) device=$PWD/$device ;; esac
    direct=''
    if [ -b "$device" ]; then
        direct=-d
        wait_for_disc
    fi
    read_size
    [ "$size" -gt 0 ] || fail "the disc in $device has no size: it is blank, or the drive does not recognize it"
    if [ $((size % 2048)) != 0 ] || [ "$size" -lt 1052672 ] || [ "$size" -gt 8589934592 ]; then
        fail "$device has $(grouped "$size") bytes: udfsalvage does not read discs of this size" 'It reads discs of 514 blocks of 2048 bytes (1 MB) to 4,194,304 blocks (8.6 GB).'
    fi
    blocks=$((size / 2048))
    at=/sys/class/block/$(basename "$(readlink -f "$device")")/device
    model=$(cat "$at/vendor" "$at/model" 2> /dev/null | tr -s ' \n' '  ' | sed 's/^ *//; s/ *$//')
}

read_size() {
    if [ -b "$device" ]; then
        size=$(blockdev --getsize64 "$device" 2> /dev/null) || size=$(($(cat "/sys/class/block/$(basename "$(readlink -f "$device")")/size") * 512))
    else
        size=$(stat -Lc %s "$device")
    fi
}

# A drive that has just taken its disc needs some seconds.
wait_for_disc() {
    tries=0
    while :; do
        why=$( (: < "$device") 2>&1) && read_size && [ "$size" -gt 0 ] && return
        [ "$tries" -lt 15 ] || break
        [ "$tries" != 0 ] || tell "Waiting for the drive $device to be ready ..."
        tries=$((tries + 1))
        sleep 2
    done
    case $why in
        *medium*) fail "no disc in $device" 'Insert the disc, and start the same command again.' ;;
        '') fail "the disc in $device has no size: it is blank, or the drive does not recognize it" ;;
        *) fail "$device is not ready: ${why##*: }" 'Take the disc out and put it in again, and start the same command again.' ;;
    esac
}

# The folder: a new one, or that of an earlier run, and nobody else's.
open_folder() {
    shown=$folder
    case $to in '' | /*) ;; *) to=$PWD/$to ;; esac
    if [ -d "$folder" ] && [ ! -f "$folder/state" ] && [ ! -e "$folder/lock" ] && [ -n "$(ls -A "$folder")" ]; then
        fail "$folder has other files in it, and is not the folder of a rescue" 'Give the name of a new folder.'
    fi
    mkdir -p -- "$folder" 2> /dev/null
    cd -- "$folder" 2> /dev/null || fail "cannot make the folder $folder"
    take_lock
    mkdir -p passes aside drives work || fail "cannot write in $folder"
    rm -f report.html.unfinished* work/disc.*.tab work/*.unfinished* state.new
    known=0
    [ -n "$(get size)" ] || is_new=1
    if [ -z "${is_new:-}" ] && [ "$(get size)" != "$size" ]; then
        fail "the disc in $device has $(grouped "$size") bytes, and that of $folder has $(grouped "$(get size)")" 'Is it another disc? Insert the right one, or give another folder.' \
            "If it is the same disc, and two drives disagree about its end: write the larger number into $folder/state."
    fi
    put size "$size"
    [ -z "$title" ] || put title "$title"
    title=$(get title)
    profile=$(get profile)
    name_drive
    check_target
}

# One run at a time in a folder. The lock names the process, when it began, and the machine: what is left of a run that was killed is no lock.
take_lock() {
    here="$$ $(began $$) $(cat /proc/sys/kernel/random/boot_id 2> /dev/null) $(uname -n)"
    if ! (set -C; echo "$here" > lock) 2> /dev/null; then
        [ -s lock ] || sleep 1
        holder=$(cat lock 2> /dev/null)
        [ -e lock ] || [ -w . ] || fail "cannot write in $folder"
        # shellcheck disable=SC2086
        set -- $holder
        if [ $# -ge 3 ] && [ "$3" = "$(cat /proc/sys/kernel/random/boot_id)" ] && [ "$(began "$1")" = "$2" ]; then
            fail "another rescue is running in $folder (process $1)" 'Wait until it has ended, or end it with Ctrl-C where it runs.'
        elif [ $# -ge 4 ] && [ "$4" != "$(uname -n)" ]; then
            fail "a rescue is running in $folder on the machine $4, or was killed there" "If it no longer runs: rm $(quoted "$folder/lock")"
        fi
        mv lock "work/lock.$$" 2> /dev/null || mv lock "lock.$$"
        if [ "$(cat "work/lock.$$" "lock.$$" 2> /dev/null)" != "$holder" ] || ! (set -C; echo "$here" > lock) 2> /dev/null; then
            fail "another rescue has just begun in $folder"
        fi
        rm -f "work/lock.$$" "lock.$$"
    fi
    locked=1
    # However this run ends, but for a signal that it cannot hear. A bash that hears a signal while it reads `$(` may lose its place in the script and
    # end there, with any status.
    trap 'rm -f lock; exit "$leaving"' EXIT
}

# began PROCESS: when a process began, by the machine's clock ticks; nothing if it is not there
began() {
    sed 's/.*) //' "/proc/$1/stat" 2> /dev/null | cut -d ' ' -f 20
}

# What the drive is called: what a drive did not read is kept under its name, so two drives are never called alike.
name_drive() {
    if [ -z "$drive" ]; then
        base=$(basename "$(readlink -f "$device")" | tr -c 'A-Za-z0-9._\n-' '_' | sed 's/^\./_/') drive=$base next=2
        while [ -n "$(get "drive $drive is")" ] && [ "$(get "drive $drive is")" != "${model:-unknown}" ]; do
            drive=$base-$next next=$((next + 1))
        done
    fi
    put "drive $drive is" "${model:-unknown}"
    touch "drives/$drive.failed" "drives/$drive.hard" "drives/$drive.retried" tried.runs
}

# Whether the folder of --to may be made, which is better known before hours of reading.
check_target() {
    [ -n "$to" ] || return 0
    [ ! -e "$to" ] || [ "$(get extracted)" = "$to" ] || fail "$to already exists" '--to needs the name of a new folder.'
    [ -d "$(dirname "$to")" ] || fail "there is no folder $(dirname "$to") for $to"
    part=$to.unfinished
    if [ -e "$part" ]; then
        [ "$(get extracting)" = "$part" ] || fail "$part already exists, and is in the way" 'Move it away, or give another --to.'
        rm -rf -- "$part"
    fi
}

# Room for the image and the table; later for a new table beside the old one.
check_room() {
    free=$(($(df -Pk . | awk 'NR > 1 { print $4 }') * 1024))
    if [ -f disc.tab ]; then needs=$(($(stat -c %s disc.tab) + 4194304)); elif [ "$mode" = full ]; then needs=$((2 * size)); else needs=$size; fi
    [ "$free" -ge "$needs" ] || fail "no room in $shown: $(bytes "$free") free, and $(bytes "$needs") needed" 'Make room, or use a folder on a larger disk, and start the same command again.'
}

# A file system without holes gives each pass as much room as its last block is far; that is better known at the beginning.
check_holes() {
    dd if=/dev/zero of=work/hole bs=1 count=1 seek=4194303 2> /dev/null
    taken=$(du -k work/hole | cut -f 1)
    rm -f work/hole
    [ "${taken:-0}" -lt 4000 ] || tell 'Note: this file system has no sparse files (as FAT and exFAT): each pass may take as much room as the whole disc.'
}

