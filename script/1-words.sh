#!/bin/sh
# Salvages a disc in one command: rounds of GNU ddrescue and udfsalvage, until nothing more comes. udfsalvage-rescue(1) describes it.
#
# A *run* below is a line "FIRST BEHIND": the blocks from FIRST to the one before BEHIND. A file of runs is sorted, and no two touch.
# All of the work is done inside FOLDER, with relative paths, so that the folder can be moved.
set -u
LC_ALL=C
export LC_ALL
PATH=$PATH:/usr/sbin:/sbin

usage='usage: udfsalvage-rescue [--needed | --full] [--name DRIVE] [--only PATH]...
           [--retries N] [--to DIR] [--title TEXT] DEVICE FOLDER'
words='Reads the disc in DEVICE, such as /dev/sr0, until its files are whole or the
drive reads no more of them. Keeps everything that it reads in FOLDER.
  --needed       read only what the files need, without the whole disc first
  --full         read the whole disc first, even if it reads badly
  --name DRIVE   a name for the drive in FOLDER (default: its device, as sr0)
  --only PATH    only this file or folder; may be given several times
  --retries N    how many times the last try retries a bad block (default: 3)
  --to DIR       at the end, write the whole files into this new folder
  --title TEXT   a title for the report, such as a shelf mark
Run the same command again to continue after an interruption. With another
drive, give the same FOLDER and the other DEVICE. See man udfsalvage-rescue.'

front=2048      # how many blocks at the beginning of the disc lead to its files
back=300        # and how many at its end
patience=${RESCUE_PATIENCE:-300}    # after how many seconds a quick pass over the whole disc is judged
ddrescue=${DDRESCUE:-ddrescue}
program=${UDFSALVAGE:-udfsalvage}

asked_mode='' words_given='' drive='' only='' retries=3 to='' title='' device='' folder=''
stop=0 child='' reader='' watcher='' locked=0 leaving=2 round=0 given=''

# ---- Words ----

# The person's output: a signal may be dealt with while a function's output goes elsewhere.
exec 3>&1

# say TEXT..: a line for the person, and for the log
say() {
    printf '%s  %s\n' "$(date +%H:%M)" "$*" >&3
    note "$*"
}

# tell TEXT..: the same without the time
tell() {
    printf '%s\n' "$*" >&3
    note "$*"
}

note() {
    [ "$locked" = 0 ] || printf '%s  %s\n' "$(date '+%Y-%m-%d %H:%M:%S')" "$*" >> log 2> /dev/null
}

# fail LINE..: the command cannot go on: why, and what to do, a line each
fail() {
    clear_line
    note "stopped: $*"
    printf 'udfsalvage-rescue: %s\n' "$1" >&2
    shift
    [ $# = 0 ] || printf '%s\n' "$@" | fold -s -w 76 | sed -e 's/^/  /' -e 's/ *$//' >&2
    leave 2
}

leave() {
    trap '' INT TERM HUP
    leaving=$1
    exit "$1"
}

clear_line() {
    [ ! -t 3 ] || printf '\r\033[K' >&3
}

# A word as it is typed into a shell.
quoted() {
    case $1 in
        *[!A-Za-z0-9_./:=@%+,-]* | '') printf "'%s'" "$(printf '%s' "$1" | sed "s/'/'\\\\''/g")" ;;
        *) printf '%s' "$1" ;;
    esac
}

# A number with its thousands separated.
grouped() {
    printf '%s\n' "$1" | sed -e ':more' -e 's/^\([0-9][0-9]*\)\([0-9]\{3\}\)/\1,\2/' -e 't more'
}

# A number of bytes as people say it.
bytes() {
    awk -v n="$1" 'BEGIN { split("B kB MB GB TB", unit, " "); i = 1; while (n >= 999.95 && i < 5) { n /= 1000; i++ }
        printf(i == 1 ? "%d %s" : "%.1f %s", n, unit[i]) }'
}

# A number of seconds as people say it.
lasted() {
    if [ "$1" -lt 60 ]; then echo "$1 s"; elif [ "$1" -lt 7200 ]; then echo "$(($1 / 60)) min"; else echo "$(($1 / 3600)) h $(($1 % 3600 / 60)) min"; fi
}

# plural N ONE MANY: the number with its word
plural() {
    if [ "$1" = 1 ]; then printf '1 %s' "$2"; else printf '%s %s' "$(grouped "$1")" "$3"; fi
}

# ---- Runs of blocks ----

# runs_of MARKS MAP: the blocks of a mapfile with one of these marks; of + only what is read whole
runs_of() {
    awk -v marks="$1" '
        function number(text,   value, i) {
            if (text !~ /^0[xX]/) return text + 0
            for (i = 3; i <= length(text); i++) value = 16 * value + index("0123456789abcdef", tolower(substr(text, i, 1))) - 1
            return value + 0
        }
        /^[ \t]*#/ || NF < 2 || !status++ { next }
        index(marks, $3) {
            from = number($1) / 2048; to = from + number($2) / 2048
            if ($3 == "+") { if (from > int(from)) from = int(from) + 1; to = int(to) }
            else { from = int(from); if (to > int(to)) to = int(to) + 1 }
            if (from < to) print from, to
        }' "$2" | joined
}

# joined: runs in any order, as a file of runs
joined() {
    sort -n -k1,1 | awk '
        NR == 1 { from = $1; to = $2; next }
        $1 <= to { if ($2 > to) to = $2; next }
        { print from, to; from = $1; to = $2 }
        END { if (NR) print from, to }'
}

# without A B: the runs of A less those of B
without() {
    awk -v holes="$2" '
        BEGIN { while ((getline line < holes) > 0) { split(line, word, " "); from[++count] = word[1] + 0; to[count] = word[2] + 0 } at = 1 }
        {
            first = $1 + 0; behind = $2 + 0
            while (at <= count && to[at] <= first) at++
            for (i = at; i <= count && from[i] < behind; i++) {
                if (from[i] > first) print first, from[i]
                if (to[i] > first) first = to[i]
            }
            if (first < behind) print first, behind
        }' "$1"
}

# add FILE: puts further runs into a file of runs, which is replaced whole
add() {
    touch "$1" && cat "$1" - | joined > "$1.new" && mv "$1.new" "$1"
}

blocks_in() {
    awk '{ count += $2 - $1 } END { print count + 0 }' "$1"
}

# map_of FILE: a mapfile for ddrescue -m that asks for these runs; its first line keeps it from being taken for a pass
map_of() {
    awk -v end="$blocks" '
        function line(first, behind, mark) { printf "%.0f %.0f %s\n", first * 2048, (behind - first) * 2048, mark }
        BEGIN { print "# Blocks to read again, for ddrescue -m: not the mapfile of a pass"; print "0 + 1" }
        { if ($1 > at) line(at, $1, "?"); line($1, $2, "+"); at = $2 }
        END { if (at < end) line(at, end, "?") }' "$1"
}

