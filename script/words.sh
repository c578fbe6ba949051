# Sourced by ./kaunorpi: what a verdict line says, in words. It judges nothing. What the line does not carry (which event
# it was, how much it takes, a capacity, a name) is looked up in the case file that was answered, and in its names file.
# shellcheck shell=bash

count_words=(no one two three four five six seven eight nine ten eleven twelve)

# in_words LINE CASE NAMES: the words of a verdict line about the file CASE. NAMES may be empty or not there.
in_words() {
    local LC_ALL=C line=$1 names=$3 frames=() rows=() place_names=() transition_names=() places=0 transitions=0 masks=0
    local kind=${1:0:4} number=0 at
    at=$((16#${line:4:8}))
    if [ "${line:0:2}" = 82 ]; then
        number=$((16#${line:2:2}))
        mapfile -n $((at + 1)) rows < <(tr '\000' '\001' < "$2")
    else
        mapfile rows < "$2"
    fi
    frames=("${rows[@]%$'\n'}")
    read_counts
    [[ ${frames[2]-} != 06* ]] || [ $((number > 0 && at <= 3)) -eq 1 ] || masks=1
    case $kind in
        8100) read_names "$names"; say_fired "$at" "${line:12}" ;;
        8101 | 8102) read_names "$names"; say_blocked "$kind" "$at" $((16#${line:12:2})) ;;
        *) say_refused "$number" "$at" ;;
    esac
}

# The model's counts, from the first line; it is not relied on where that line was refused.
read_counts() {
    [[ ${frames[0]-} =~ ^01([0-9A-F]{2})([0-9A-F]{2})$ ]] || return
    places=$((16#${BASH_REMATCH[1]})) transitions=$((16#${BASH_REMATCH[2]}))
}

# Whether place $1 is a pocket: its bit in the line of kind 06, if the file has one. masks is how many stand before the tokens.
is_pocket() { ((masks == 1 && ($(number_at 2 $((8 - $1 / 8)) 2) >> $1 % 8 & 1) == 1)); }

count() { printf '%s' "${count_words[$1]-$1}"; }

# The number of $3 digits at byte $2 of line $1; lines and bytes count from 0 here.
number_at() { printf '%d' $((16#${frames[$1]:2 * $2:$3})); }

# Weight $2 of the line of transition $1, those of what it takes before those of what it puts: two bytes each in a line of kind 07.
weight_at() {
    local row=$((3 + masks + $1)) bytes=1
    [[ ${frames[row]} != 07* ]] || bytes=2
    number_at $row $((2 + bytes * $2)) $((2 * bytes))
}

# The transition of the event at position $1: 64 events stand on a line, after the line's kind.
event_at() { number_at $((3 + masks + transitions + $1 / 64)) $((1 + $1 % 64)) 2; }

# say_fired EVENTS TOKENS
say_fired() {
    local p held=() text
    case $1 in
        0) printf 'the log has no events, so it can have happened. As at the start, ' ;;
        1) printf 'the one event can have happened. Afterwards ' ;;
        2) printf 'both events can have happened in this order. Afterwards ' ;;
        *) printf 'all %s events can have happened in this order. Afterwards ' "$(count "$1")" ;;
    esac
    for ((p = 0; p < places; p++)); do held+=("${place_names[p]} holds $((16#${2:8 * p:8}))"); done
    text=$(printf ', %s' "${held[@]:0:places - 1}")
    [ "$places" -eq 1 ] || printf '%s and ' "${text:2}"
    printf '%s.\n' "${held[places - 1]}"
}

# say_blocked KIND POSITION PLACE
say_blocked() {
    local t pocket='' before=''
    t=$(event_at "$2")
    printf 'event %d (%s) cannot have happened: ' $(($2 + 1)) "${transition_names[t]}"
    if [ "$1" = 8101 ]; then
        printf 'it takes %d from %s, which holds fewer. ' "$(weight_at "$t" "$3")" "${place_names[$3]}"
    else
        is_pocket "$3" && pocket=', a pocket,' before=' before anything leaves it'
        printf '%s%s would hold more than its capacity of %d%s. ' "${place_names[$3]}" "$pocket" "$(number_at 1 $((1 + 2 * $3)) 4)" "$before"
    fi
    case $2 in
        0) printf 'No event stands before it.\n' ;;
        1) printf 'The event before it can.\n' ;;
        *) printf 'The %s events before it can.\n' "$(count "$2")" ;;
    esac
}

# say_refused NUMBER LINE: the rule in document 01's words, and what the line shows.
say_refused() {
    local rule cause
    case $1 in
        1) rule='a place or transition count is outside 1 to 64' cause=$(cause_of_counts) ;;
        3) rule='65,535 tokens in a place, or tokens above its capacity' cause=$(read_names "$names"; cause_of_tokens) ;;
        4) rule='the log has more than 65,535 events' cause='' ;;
        5) rule='an event names no transition' cause=$(cause_of_event "$2") ;;
        11) rule='the line breaks the digit rules or lacks its line feed' cause=$(cause_of_digits "$2") ;;
        12) rule='unknown kind, wrong order, length or index, or frames missing at the end' cause=$(cause_of_frame "$2") ;;
        17) rule='a place or a transition has no arc' cause=$(read_names "$names"; cause_of_loose) ;;
        18) rule='a weight is over 4,095' cause=$(read_names "$names"; cause_of_weight $(($2 - masks - 4))) ;;
    esac
    printf 'the file is refused at line %d and nothing was played: %s (refusal %d).' "$2" "$rule" "$1"
    [ -z "$cause" ] || printf ' Likely cause: %s.' "$cause"
    printf '\n'
}

cause_of_counts() { printf 'the line says %d places and %d transitions' "$places" "$transitions"; }

# The first place whose tokens at the start are none, or too many.
cause_of_tokens() {
    local p tokens capacity
    for ((p = 0; p < places; p++)); do
        tokens=$(number_at $((2 + masks)) $((1 + 2 * p)) 4) capacity=$(number_at 1 $((1 + 2 * p)) 4)
        if ((tokens == 65535)); then
            printf '%s is to start with FFFF, which stands for no number of tokens' "${place_names[p]}"
            return
        elif ((tokens > capacity)); then
            printf '%s is to start with %d, and its capacity is %d' "${place_names[p]}" "$tokens" "$capacity"
            return
        fi
    done
}

# The first place that no transition has an arc with, else the first transition without one.
cause_of_loose() {
    local p t row width
    for ((p = 0; p < places; p++)); do
        for ((t = 0; t < transitions; t++)); do
            row=${frames[3 + masks + t]} width=2
            [[ $row != 07* ]] || width=4
            [[ ${row:4 + width * p:width}${row:4 + width * (places + p):width} =~ ^0*$ ]] || continue 2
        done
        printf 'no transition takes from %s or puts there' "${place_names[p]}"
        return
    done
    for ((t = 0; t < transitions; t++)); do
        [[ ${frames[3 + masks + t]:4} =~ ^0*$ ]] || continue
        printf '%s takes nothing and puts nothing' "${transition_names[t]}"
        return
    done
}

# The first weight of transition $1 that is over 4,095.
cause_of_weight() {
    local k weight
    for ((k = 0; k < 2 * places; k++)); do
        weight=$(weight_at "$1" "$k")
        ((weight > 4095)) || continue
        if ((k < places)); then printf '%s takes %d from %s' "${transition_names[$1]}" "$weight" "${place_names[k]}"
        else printf '%s puts %d into %s' "${transition_names[$1]}" "$weight" "${place_names[k - places]}"; fi
        return
    done
}

# The first event on line $1 that names no transition.
cause_of_event() {
    local k t events=$((${#frames[$1 - 1]} / 2 - 1))
    for ((k = 0; k < events; k++)); do
        t=$(number_at $(($1 - 1)) $((1 + k)) 2)
        ((t >= transitions)) || continue
        printf 'event %d is transition %d, and the model has transitions 0 to %d' $((($1 - 4 - masks - transitions) * 64 + k + 1)) "$t" $((transitions - 1))
        return
    done
}

# What keeps line $1 from being digits and a line feed, as far as it can be seen. A line may be very long, and its
# beginning tells enough.
cause_of_digits() {
    local row=${rows[$1 - 1]} text=${frames[$1 - 1]:0:600} found=() bare
    if [ "$1" -eq 1 ]; then
        case $text in
            $'\xEF\xBB\xBF'*) found+=('the file begins with a byte order mark (save it as plain text without one)') ;;
            $'\xFF\xFE'* | $'\xFE\xFF'*) printf 'the file has 16-bit characters (save it as plain text)'; return ;;
        esac
        text=${text#$'\xEF\xBB\xBF'}
    fi
    case $text in
        *$'\r') found+=('the lines end with carriage returns (save the file with line feeds alone)') ;;
        *$'\r'*) printf 'the lines end with carriage returns instead of line feeds'; return ;;
    esac
    text=${text%$'\r'}
    [[ $text != *[$' \t']* ]] || found+=('blanks in the line')
    bare=${text//[$' \t']/}
    [[ $bare != *[a-f]* ]] || found+=('lower case letters (write A to F)')
    if [[ $bare == *[!0-9A-Fa-f]* ]]; then found+=("$(wrong_character "$text")")
    elif [ ${#bare} -gt 516 ]; then found+=('more than 516 digits')
    elif [ -z "$text" ] && [ ${#found[@]} -eq 0 ]; then found+=('the line is empty')
    elif [ $((${#bare} % 2)) -eq 1 ]; then found+=('an odd number of digits'); fi
    [ ${#text} -gt 516 ] || [[ $row == *$'\n' ]] || found+=('the last line feed is missing')
    join_causes ${found[@]+"${found[@]}"}
}

# The first character of $1 that is no digit; it is shown only where it can be printed.
wrong_character() {
    local before=${1%%[!0-9A-Fa-f$' \t']*} one
    one=${1:${#before}:1}
    [[ $one == [[:graph:]] ]] && one=", \"$one\"," || one=''
    printf 'character %d%s is none of 0-9 and A-F' $((${#before} + 1)) "$one"
}

# Several causes, as one text.
join_causes() {
    [ $# -gt 0 ] || return
    printf '%s' "$1"
    shift
    [ $# -eq 0 ] || printf '; also: %s' "$@"
}

# What belongs on line $1, by the lines before it, sets wanted (the kind) and size (its bytes; for events the most). Where a
# line of kind 06 may stand, 03 is wanted; where 04 is, a line of kind 07 may stand, and is wanted if it does.
belongs() {
    local rank=$(($1 - masks))
    if [ $rank -le 3 ]; then
        wanted=0$rank size=$((1 + 2 * places))
        [ $rank -ne 1 ] || size=3
    elif [ $rank -le $((3 + transitions)) ]; then
        wanted=04 size=$((2 + 2 * places))
        [[ ${frames[$1 - 1]-} != 07* ]] || wanted=07 size=$((2 + 4 * places))
    else
        wanted=05 size=65
    fi
}

# Why line $1 is not the frame that belongs there.
cause_of_frame() {
    local text=${frames[$1 - 1]-} wanted size bytes
    bytes=$((${#text} / 2))
    belongs "$1"
    if [ "$1" -gt ${#frames[@]} ]; then
        [ ${#frames[@]} -gt 0 ] && printf 'the file ends after line %d' ${#frames[@]} || printf 'the file is empty'
        printf ', and a line of kind %s has to follow' "$wanted"
    elif [[ ${text:0:2} != 0[1-7] ]]; then
        printf 'the kind of the line, %s, is none of 01 to 07' "${text:0:2}"
    elif [ "${text:0:2}" = 06 ]; then
        cause_of_mask "$1" "$bytes"
    elif [ "${text:0:2}" != "$wanted" ]; then
        printf 'the kind of the line is %s, and a line of kind %s belongs there' "${text:0:2}" "$wanted"
    elif [ "$wanted" = 05 ]; then
        cause_of_events "$1" "$bytes"
    elif [ $bytes -ne "$size" ]; then
        printf 'the line has %d bytes, and %d belong there' $bytes "$size"
    elif [ $((16#${text:2:2})) -ne $(($1 - masks - 4)) ]; then
        printf 'the line is for transition %d, and transition %d belongs there' $((16#${text:2:2})) $(($1 - masks - 4))
    else
        printf 'the line has no weight over 255, and is to be one of kind 04 then'
    fi
}

# Why line $1, of kind 06 and $2 bytes, cannot stand where it does, or say what it says.
cause_of_mask() {
    local p
    if [ "$1" -eq 4 ] && [ "$masks" -eq 1 ]; then
        printf 'a line of kind 06 stands before it already'
    elif [ "$1" -ne 3 ]; then
        printf 'a line of kind 06 can only stand right after that of kind 02'
    elif [ "$2" -ne 9 ]; then
        printf 'the line has %d bytes, and 9 belong there' "$2"
    elif [[ ${frames[2]:2} =~ ^0*$ ]]; then
        printf 'the line makes no place a pocket, and is to be left out then'
    else
        for ((p = places; p < 63 && ($(number_at 2 $((8 - p / 8)) 2) >> p % 8 & 1) == 0; p++)); do :; done
        printf 'the line makes place %d a pocket, and the model has places 0 to %d' $p $((places - 1))
    fi
}

# Why line $1, of kind 05 and $2 bytes, cannot stand where it does.
cause_of_events() {
    case $2 in
        1) printf 'the line has no event' ;;
        [2-9] | [1-5]? | 6[0-5]) printf 'the line of events before it has fewer than 64, so the log had ended' ;;
        *) printf 'the line has more than 64 events' ;;
    esac
}

# Reads the names file $1, if there is one. A fault in it is told, and all names are numbers then.
read_names() {
    local text texts=() fault='' row=0 i
    if [ -f "$1" ] && [ -r "$1" ]; then mapfile -t texts < "$1"
    elif [ -n "$1" ] && [ -e "$1" ]; then fault='it cannot be read'; fi
    for text in "${texts[@]}"; do
        row=$((row + 1)) text=${text%$'\r'}
        [ $row -gt 1 ] || text=${text#$'\xEF\xBB\xBF'}
        take_name "$text" || { fault="line $row: $fault"; break; }
    done
    if [ -n "$fault" ]; then
        complain "$1: $fault; numbers are used instead of names"
        place_names=() transition_names=()
    fi
    for ((i = 0; i < places; i++)); do place_names[i]=${place_names[i]-place $i}; done
    for ((i = 0; i < transitions; i++)); do transition_names[i]=${transition_names[i]-transition $i}; done
}

# One line of a names file: a place or transition, its number, its name. Sets fault where it is not so.
take_name() {
    local kind number name most
    read -r kind number name <<< "$1"
    case $kind in
        '') return 0 ;;
        place) most=$places; local -n given=place_names ;;
        transition) most=$transitions; local -n given=transition_names ;;
        *) fault="${kind//[[:cntrl:]]/?} is neither place nor transition"; return 1 ;;
    esac
    if [[ ! $number =~ ^[0-9]{1,9}$ ]]; then
        fault="no number stands after $kind"
    elif ((10#$number >= most)); then
        fault="$kind $number is past the model's ${kind}s, 0 to $((most - 1))"
    elif [ -z "$name" ] || [[ $name == *[[:cntrl:]]* ]]; then
        fault="no name that can be printed stands after $kind $number"
    elif [ -n "${given[10#$number]-}" ]; then
        fault="$kind $number is named twice"
    else
        given[10#$number]=$name
    fi
    [ -z "$fault" ]
}
