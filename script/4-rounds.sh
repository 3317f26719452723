# ---- What is known, and what to ask for ----

# udf COMMAND ARGUMENTS..: one of the program's commands about the disc of the table
udf() {
    command=$1
    shift
    attend "$program" "$command" ${profile:+--profile "$profile"} --size "$size" "$@"
}

# only COMMAND ARGUMENTS..: the same for the chosen paths alone
only() {
    eval "udf \"\$@\" $only"
}

# survey: what the table makes of the disc: the report in work/report, and from it the counts that are shown
survey() {
    [ -f disc.tab ] || return 0
    udf report disc.tab > work/report 2> work/error
    standing=$?
    [ "$standing" -le 1 ] || failed_command report
    [ -n "$profile" ] || try_wide
    known=$(sed -n 's/^known \([0-9]*\) .*/\1/p' work/report)
    volume=$(sed -n 's/^volume //p' work/report)
    files=$(grep -c '^node [0-9]* whole file ' work/report)
}

failed_command() {
    case $(cat work/error) in
        *is\ no\ node*) fail "the disc has no such path: $(head -n 1 work/error)" 'A path begins with /, and upper and lower case differ. The files are in files.tsv once the disc opens.' ;;
        *out\ of\ memory*) fail "udfsalvage $1 is out of memory" 'It can take as much memory as the disc is large: close other programs, or move the folder to a machine with more.' ;;
        *PastEnd*) fail "the table has a block after the end of the disc: $(head -n 1 work/error)" 'Was the size in state changed, or a pass of another disc merged by hand?' ;;
    esac
    fail "udfsalvage $1 failed: $(head -n 1 work/error)"
}

# try_wide: takes the wide rules where the strict ones do not take the disc, or not some of its files, and says so
try_wide() {
    case $(sed -n -e '/^volume fault [58] /p' -e 's/^node [0-9]* fault-9 .*/odd/p' work/report | head -n 1) in
        'volume fault 5 '*) why='UDF 1.02 or 2.00' ;;
        'volume fault 8 '*) why='A rewritable disc with unusual packets' ;;
        odd) why='Some files were made longer by Linux' ;;
        *) return 0 ;;
    esac
    mv work/report work/strict
    profile=wide
    udf report disc.tab > work/report 2> work/error
    wide=$?
    if [ "$wide" -le 1 ] && [ "$(odd work/report)" -lt "$(odd work/strict)" ]; then
        standing=$wide
        put profile wide
        revision=$(sed -n 's/^volume ok revision \([0-9.]*\).*/UDF \1/p' work/report)
        case $why in UDF*) why=${revision:-$why} ;; esac
        say "$why: using the wide rules"
    else
        profile=''
        mv work/strict work/report
    fi
}

# odd REPORT: how much in it may be a matter of the rules
odd() {
    grep -c -e '^volume fault [58] ' -e '^node [0-9]* fault-9 ' "$1"
}

# wanted: work/listed, all blocks that are worth reading; work/needed, those of them that are not in conflict
wanted() {
    if [ -n "$only" ]; then
        only reread disc.tab > work/numbers 2> work/error
        standing=$?
        [ "$standing" -le 1 ] || failed_command reread
    else
        sed -n 's/^reread \([0-9]*\) .*/\1/p' work/report > work/numbers
    fi
    awk '{ print $1, $1 + 1 }' work/numbers | joined > work/listed
    sed -n 's/^reread \([0-9]*\) conflict$/\1/p' work/report | awk '{ print $1, $1 + 1 }' | joined > work/disputed
    without work/listed work/disputed > work/needed
}

# domain GROUP: work/domain, the blocks that reread --mapfile asks for: those of the list, and known ones to compare
domain() {
    rm -f work/want.map
    set -- ${1:+--group "$1"}
    only reread "$@" --mapfile work/want.map disc.tab > /dev/null 2> work/error
    [ $? -le 1 ] || failed_command reread
    runs_of + work/want.map > work/domain
}

# witnesses: work/witnesses, the known blocks that a pass reads again, so that another disc shows
witnesses() {
    domain ''
    without work/domain work/listed > work/witnesses
}

# ---- The first pass, and the rounds ----

# The first pass: of the whole disc, or of its ends; what an earlier run has tried is not asked for again.
first_pass() {
    while [ "$stop" = 0 ]; do
        if [ "$mode" = full ] || [ "$blocks" -le $((front + back)) ]; then echo "0 $blocks"; else printf '0 %s\n%s %s\n' "$front" $((blocks - back)) "$blocks"; fi > work/target
        without work/target tried.runs > work/rest
        [ -s work/rest ] || return 0
        if [ "$mode" = full ]; then say "First pass: the whole disc, quickly"; else say "First pass: the beginning and the end of the disc"; fi
        cp work/rest work/ask
        if [ -f disc.tab ]; then
            wanted
            witnesses
            add work/rest < work/witnesses
        fi
        take first work/rest "First pass"
        [ -s work/poor ] || return 0
        mode=needed
        put mode needed
        say "This disc reads badly: $(cat work/poor). From now on, only what its files need is read."
    done
}

# take KIND FILE NAME: one pass over these blocks and one line on it; of those in work/ask it counts what came
take() {
    old_files=$files start=$(date +%s)
    read_blocks "$1" "$2"
    end_pass "$1"
    runs_of + "passes/$pass.map" > work/came 2> /dev/null
    without work/ask work/came > work/lacking
    asked=$(blocks_in work/ask) came=$(($(blocks_in work/ask) - $(blocks_in work/lacking)))
    seconds=$(($(date +%s) - start))
    line=$(printf '%-11s %s asked for, %s read' "$3" "$(plural "$asked" block blocks)" "$(grouped "$came")")
    [ "$files" -le "$old_files" ] || line="$line   +$(plural $((files - old_files)) file files)"
    [ "$seconds" -lt 60 ] || line="$line   $(lasted "$seconds")"
    say "$line"
    show_volume
}

# Once, what disc this is: the first line of the summary, in which no name can do anything to a terminal.
show_volume() {
    [ -z "$(get label)" ] || return 0
    case ${volume:-} in ok*) ;; *) return 0 ;; esac
    udf summary disc.tab > work/summary 2> work/error
    [ $? -le 1 ] || failed_command summary
    put label "$(head -n 1 work/summary)"
    say "$(get label)"
}

# The rounds: first what no drive of this name has tried, then what a quick pass left block by block, and at the end once, with retries,
# what failed in this drive. It ends, since each round reads a block or moves it to a later stage.
rounds() {
    while [ "$stop" = 0 ] && [ -f disc.tab ]; do
        wanted
        without work/needed "drives/$drive.failed" > work/untried
        without work/untried "drives/$drive.hard" > work/quick
        without work/needed "drives/$drive.retried" > work/late
        before=$known:$(blocks_in "drives/$drive.failed"):$(blocks_in "drives/$drive.hard"):$(blocks_in "drives/$drive.retried")
        if [ -s work/quick ]; then
            quick_round
        elif [ -s work/untried ]; then
            single_round single work/untried
        elif [ -s work/late ]; then
            say "Last try of what failed in this drive: $(plural "$(blocks_in work/late)" block blocks), $(plural "$retries" retry retries) each"
            single_round last work/late
        else
            return 0
        fi
        after=$known:$(blocks_in "drives/$drive.failed"):$(blocks_in "drives/$drive.hard"):$(blocks_in "drives/$drive.retried")
        [ "$after" != "$before" ] || [ "$stop" != 0 ] || fail "ddrescue did not try the blocks that it was asked for" "$(tail -n 1 work/ddrescue)"
    done
}

# A round by whole groups of blocks, since a drive reads a group for each block of it; what failed before is left out.
quick_round() {
    cp work/quick work/ask
    witnesses
    domain 16
    without work/domain "drives/$drive.failed" > work/some
    without work/some "drives/$drive.hard" > work/next
    add work/next < work/witnesses
    round=$((round + 1))
    take quick work/next "Round $round"
}

# single_round KIND FILE: a round of single blocks
single_round() {
    cp "$2" work/ask
    cp "$2" work/next
    witnesses
    add work/next < work/witnesses
    round=$((round + 1))
    take "$1" work/next "Round $round"
}

