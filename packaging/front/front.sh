#!/bin/sh
# Starts the program, which lies in ../libexec/bentzolu or, with a C library of its own, in ../lib/bentzolu, and adds what
# people want of it: help as wide as the terminal, aligned columns and colours, reasons of the system after faults, and the
# words of the Python package. Where standard output is no terminal, it has the program's bytes; --pretty and --color
# always ask for the form for people there too. On standard error each fault has its sentence; --no-explain takes it away.
self=$0
case $self in
    */*) ;;
    *) [ -e "./$self" ] && self=./$self || self=$(command -v -- "$self") ;;
esac
while [ -h "$self" ]; do
    folder=${self%/*}
    self=$(readlink "$self")
    case $self in
        /*) ;;
        *) self=$folder/$self ;;
    esac
done
name=${self##*/}
top=${self%/*}/..
own=$top/libexec/bentzolu
[ -d "$own" ] || own=$top/lib/bentzolu
for loader in "$own"/ld-*.so*; do
    [ -x "$loader" ] || loader=
done

# The program in place of this one, and beside it.
become() {
    if [ -n "$loader" ]; then
        exec "$loader" --argv0 "$name" --library-path "$own" "$own/$name" "$@"
    fi
    exec "$own/$name" "$@"
}

run() {
    if [ -n "$loader" ]; then
        "$loader" --argv0 "$name" --library-path "$own" "$own/$name" "$@"
    else
        "$own/$name" "$@"
    fi
}

# The Python package, or for new networks one file of it alone.
hand_on() {
    for python in python3 /usr/bin/python3; do
        if "$python" -c 'import importlib.util as it, sys; sys.exit(it.find_spec("bentzolu") is None)' 2> /dev/null; then
            exec "$python" -m bentzolu "$@"
        fi
    done
    if [ "$1" = generate ] && command -v python3 > /dev/null; then
        shift
        exec python3 "$own/$name.families.py" "$@"
    fi
    echo "$name: '$1' needs the Python package, which is not installed: run \`pip install ./python\` in the repository, or install the Debian package or the wheel" >&2
    exit 1
}

# Prints the completions for a shell.
complete_for() {
    case ${1:-} in
        bash) files=$top/share/bash-completion/completions/$name ;;
        zsh) files="$top/share/zsh/site-functions/_$name $top/share/zsh/vendor-completions/_$name" ;;
        fish) files=$top/share/fish/vendor_completions.d/$name.fish ;;
        *)
            echo "$name: completions is followed by bash, zsh or fish" >&2
            exit 2 ;;
    esac
    for file in $files; do
        [ ! -f "$file" ] || exec cat "$file"
    done
    echo "$name: the completions for $1 are not installed: there is no $file" >&2
    exit 1
}

# The words of `diff` that the program does not take: a network in another format, or a file with an order of the nodes.
diff_elsewhere() {
    before=''
    for word; do
        case $before:$word in
            *.gml | *.graphml | *.json | *.sndlib | *.csv | *.tsv | *.mtx | *.intra | *.weights | *.dot | *.gv | *.gexf | *.net | *.paj | *.pajek) return 0 ;;
            *.g6 | *.graph6 | *.s6 | *.sparse6 | *.edges | *.multiline | *:--numbering=*[./]* | --numbering:*[./]* | -n:*[./]*) return 0 ;;
        esac
        before=$word
    done
    return 1
}

case "${1:-} ${2:-}" in
    'diff '*) ! diff_elsewhere "$@" || hand_on "$@" ;;
    'agent '* | 'controller '* | 'fleet '* | 'lab '* | 'sweep '* | 'plot '* | 'convert '* | 'generate '* | 'xdp '[!t-]*) hand_on "$@" ;;
    'completions '*) complete_for "${2:-}" ;;
esac

# --color and --pretty are taken away; the other words are the program's.
color=auto
pretty=''
case " $* " in
    *' --color'* | *' --pretty '*)
        left=$#
        rest=''
        while [ "$left" -gt 0 ]; do
            word=$1
            shift
            left=$((left - 1))
            case $rest$word in
                --)
                    rest=rest
                    set -- "$@" -- ;;
                --pretty) pretty=yes ;;
                --color=*) color=${word#--color=} ;;
                --color)
                    color=${1:-nothing}
                    if [ "$left" -gt 0 ]; then
                        shift
                        left=$((left - 1))
                    fi ;;
                *) set -- "$@" "$word" ;;
            esac
        done
        case $color in
            auto | always | never) ;;
            *)
                echo "error: invalid value '$color' for '--color <WHEN>'" >&2
                echo '  [possible values: auto, always, never]' >&2
                exit 2 ;;
        esac ;;
esac

is_for_people=''
if { [ -t 1 ] || [ -n "$pretty" ] || [ "$color" = always ]; } && command -v awk > /dev/null; then
    is_for_people=yes
fi
is_colored=''
if [ -n "$is_for_people" ]; then
    case $color in
        always) is_colored=yes ;;
        auto) [ ! -t 1 ] || [ -n "${NO_COLOR:-}" ] || [ "${TERM:-dumb}" = dumb ] || is_colored=yes ;;
    esac
fi

# What the words ask for.
sub=${1:-}
help=''
output=''
is_text=yes
is_quiet=''
is_explained=''
is_output=''
[ "$sub" != help ] || help=long
for word; do
    if [ -n "$is_output" ]; then
        output=$word
        is_output=''
        continue
    fi
    case $word in
        --) break ;;
        --help) help=long ;;
        -h) help=${help:-short} ;;
        -o | --output) is_output=yes ;;
        --output=*) output=${word#--output=} ;;
        -o?*)
            output=${word#-o}
            output=${output#=} ;;
        --json | --svg) is_text='' ;;
        --quiet) is_quiet=yes ;;
        --explain | --no-explain) is_explained=yes ;;
    esac
done
[ "$output" != - ] || output=''

width() {
    { columns=$(stty size 2> /dev/null <&3); } 3>&1
    columns=${columns##* }
    [ "${columns:-0}" -gt 0 ] 2> /dev/null || columns=${COLUMNS:-80}
    [ "$columns" -gt 0 ] 2> /dev/null || columns=80
}

# A text of the program in a form for people, which is named.
show() {
    form=$1
    width
    printf '%s\n' "$2" | awk -v form="$form" -v color="$is_colored" -v width="$columns" -v name="$name" -v sub_="${3:-}" -f "$own/$name.awk"
}

# What a run prints, and its status, for `show`.
printed() {
    text=$(run "$@"; echo "status $?")
    status=${text##*status }
    text=${text%status *}
    text=${text%?} # the last end of a line
}

if [ -n "$is_for_people" ]; then
    case "$#:$sub" in
        1:--version | 1:-V)
            printed "$@"
            show version "$text
program $(sha256sum < "$own/$name" 2> /dev/null | cut -d ' ' -f 1)
$(cat "$own/$name.built" 2> /dev/null)"
            exit "$status" ;;
        0:*)
            if [ -t 0 ]; then
                printed --help
                show short "$text"
                exit 2
            fi ;;
    esac
    if [ -n "$help" ]; then
        printed "$@"
        [ "$status" = 0 ] || exit "$status"
        [ "$sub" != help ] || sub=${2:-}
        case $sub in
            -*) sub='' ;;
        esac
        show "$help" "$text" "$sub"
        exit 0
    fi
    if [ -n "$is_text" ] && [ -z "$output" ]; then
        case $sub in
            compare | stats | draw)
                if [ "$sub" != draw ] || [ -n "$is_colored" ]; then
                    printed "$@"
                    [ -z "$text" ] || show "$sub" "$text"
                    exit "$status"
                fi ;;
        esac
    fi
fi

# Each fault has its sentence, as on a terminal.
case $sub in
    plan | walk | stats | compare | diff | draw | prefixes | ranges | xdp | sim | live | check)
        if [ -z "$is_explained$is_quiet$help" ]; then
            shift
            set -- "$sub" --explain "$@"
            # That a trace is well needs no sentence.
            if [ "$sub" = check ] && [ ! -t 2 ]; then
                { faults=$(run "$@" 2>&1 >&3 3>&-); } 3>&1
                status=$?
                [ "$status" = 0 ] || [ -z "$faults" ] || printf '%s\n' "$faults" >&2
                exit "$status"
            fi
        fi ;;
esac

# In the system's words: why there is no room where this file is, and why nobody may write it; nothing where it may be written.
why_no_room() {
    left=$(LC_ALL=C df -Pk "$1" 2> /dev/null | {
        read -r _
        read -r _ _ _ left _
        echo "$left"
    })
    [ "${left:-1}" != 0 ] || echo 'No space left on device'
}

why_unwritable() {
    case $1 in
        /*/* | [!/]*/*) folder=${1%/*} ;;
        /*) folder=/ ;;
        *) folder=. ;;
    esac
    if [ -d "$1" ]; then
        echo 'Is a directory'
    elif [ -c "$1" ]; then
        [ "$1" != /dev/full ] || echo 'No space left on device'
    elif [ ! -p "$1" ]; then
        if [ ! -d "$folder" ] || [ ! -w "$folder" ]; then
            made=$(LC_ALL=C mktemp "$folder/.bentzolu.XXXXXX" 2>&1) && rm -f "$made" || echo "${made##*: }"
        else
            why_no_room "$folder"
        fi
    fi
}

reason=''
if [ -n "$output" ]; then
    reason=$(why_unwritable "$output")
elif [ -f /dev/fd/1 ] || { [ -c /dev/fd/1 ] && [ ! -t 1 ]; }; then
    file=$(readlink "/proc/$$/fd/1" 2> /dev/null)
    case $file in
        /dev/full) reason='No space left on device' ;;
        '' | /dev/*) ;;
        *) reason=$(why_no_room "$file") ;;
    esac
fi
[ -n "$reason" ] || become "$@"
run "$@"
status=$?
case "$is_quiet $* " in
    yes* | *' --no-explain '*) ;;
    *) [ "$status" != 1 ] || echo "$name: ${output:-standard output}: $reason" >&2 ;;
esac
exit "$status"
