# Completions of route for bash, which completions/make writes.

# The subcommands below a command, which is named by its words; the program has none.
_bentzolu_subcommands() {
    case ${1-} in
        '') echo 'plan walk stats compare diff draw prefixes ranges xdp sim live check help generate convert sweep lab agent controller fleet completions' ;;
        help) echo 'plan walk stats compare diff draw prefixes ranges xdp sim live check' ;;
    esac
}

# What stands at a place of a command, counted from 1: words and `<file>`.
_bentzolu_places() {
    case ${1-},$2 in
        plan,1) echo '<file>' ;;
        walk,1) echo '<file>' ;;
        stats,1) echo '<file>' ;;
        compare,1) echo '<file>' ;;
        diff,1) echo '<file>' ;;
        diff,2) echo '<file>' ;;
        draw,1) echo '<file>' ;;
        prefixes,1) echo '<file>' ;;
        ranges,1) echo '<file>' ;;
        xdp,1) echo table ;;
        xdp,3) echo '<file>' ;;
        sim,1) echo '<file>' ;;
        sim,2) echo '<file>' ;;
        live,1) echo '<file>' ;;
        live,2) echo '<file>' ;;
        check,1) echo '<file>' ;;
        check,2) echo '<file>' ;;
        check,3) echo '<file>' ;;
        generate,1) echo topology ;;
        convert,1) echo '<file>' ;;
        convert,2) echo '<file>' ;;
        sweep,1) echo '<file>' ;;
        sweep,2) echo '<file>' ;;
        lab,1) echo '<file>' ;;
        lab,2) echo '<file>' ;;
        agent,1) echo '<file>' ;;
        agent,2) echo '<file>' ;;
        controller,1) echo '<file>' ;;
        controller,2) echo '<file>' ;;
        fleet,1) echo '<file>' ;;
        fleet,2) echo '<file>' ;;
        completions,1) echo 'bash zsh fish' ;;
    esac
}

# The options of a command.
_bentzolu_options() {
    case ${1-} in
        '') echo '--help --version --color --pretty' ;;
        plan) echo '-f --format -k --kind --landmarks --stretch -r --root -n --numbering --threads --order --nodes --json -o --output --quiet --explain --no-explain --help --color --pretty' ;;
        walk) echo '-f --format -k --kind --landmarks --stretch -r --root -n --numbering --threads --from --to --json -o --output --quiet --explain --no-explain --help --color --pretty' ;;
        stats) echo '-f --format -k --kind --landmarks --stretch -r --root -n --numbering --threads --with --each --json -o --output --quiet --explain --no-explain --help --color --pretty' ;;
        compare) echo '-f --format -r --root --threads --json -o --output --quiet --explain --no-explain --help --color --pretty' ;;
        diff) echo '-f --format -k --kind --landmarks --stretch -r --root -n --numbering --threads --json -o --output --quiet --explain --no-explain --help --color --pretty' ;;
        draw) echo '-f --format -k --kind --landmarks --stretch -r --root -n --numbering --threads --from --to --node --svg -o --output --quiet --explain --no-explain --help --color --pretty' ;;
        prefixes) echo '-f --format -k --kind --landmarks --stretch -r --root -n --numbering --threads --disjoint --json -o --output --quiet --explain --no-explain --help --color --pretty' ;;
        ranges) echo '-f --format -k --kind --landmarks --stretch -r --root -n --numbering --threads --json -o --output --quiet --explain --no-explain --help --color --pretty' ;;
        xdp) echo '-f --format -k --kind --landmarks --stretch -r --root -n --numbering --threads --node --binary -o --output --quiet --explain --no-explain --help --color --pretty' ;;
        sim) echo '-f --format -k --kind --landmarks --stretch -r --root -n --numbering --capacity --packets --restamps --steps --json -o --output --quiet --explain --no-explain --help --color --pretty' ;;
        live) echo '-f --format -k --kind --landmarks --stretch -r --root -n --numbering --capacity --packets --restamps --json -o --output --quiet --explain --no-explain --help --color --pretty' ;;
        check) echo '-f --format -k --kind --landmarks --stretch -r --root -n --numbering --capacity --packets --whole --json -o --output --quiet --explain --no-explain --help --color --pretty' ;;
    esac
}

# What an option of a command takes: words, `<file>` and `<node>`; `<any>` is a word of which nothing is known.
_bentzolu_values() {
    case ${2-},$1 in
        ,--color) echo 'auto always never' ;;
        plan,-f | plan,--format) echo 'adjlist edgelist' ;;
        plan,-k | plan,--kind) echo 'tree shortest compact landmark' ;;
        plan,--landmarks) echo '<any>' ;;
        plan,--stretch) echo '<any>' ;;
        plan,-r | plan,--root) echo '<node>' ;;
        plan,-n | plan,--numbering) echo 'depth-first tour keep keep,tour keep,depth-first <file>' ;;
        plan,--threads) echo '<any>' ;;
        plan,--nodes) echo '<any>' ;;
        plan,-o | plan,--output) echo '<file>' ;;
        plan,--color) echo 'auto always never' ;;
        walk,-f | walk,--format) echo 'adjlist edgelist' ;;
        walk,-k | walk,--kind) echo 'tree shortest compact landmark' ;;
        walk,--landmarks) echo '<any>' ;;
        walk,--stretch) echo '<any>' ;;
        walk,-r | walk,--root) echo '<node>' ;;
        walk,-n | walk,--numbering) echo 'depth-first tour keep keep,tour keep,depth-first <file>' ;;
        walk,--threads) echo '<any>' ;;
        walk,--from) echo '<node>' ;;
        walk,--to) echo '<node>' ;;
        walk,-o | walk,--output) echo '<file>' ;;
        walk,--color) echo 'auto always never' ;;
        stats,-f | stats,--format) echo 'adjlist edgelist' ;;
        stats,-k | stats,--kind) echo 'tree shortest compact landmark' ;;
        stats,--landmarks) echo '<any>' ;;
        stats,--stretch) echo '<any>' ;;
        stats,-r | stats,--root) echo '<node>' ;;
        stats,-n | stats,--numbering) echo 'depth-first tour keep keep,tour keep,depth-first <file>' ;;
        stats,--threads) echo '<any>' ;;
        stats,--with) echo '<any>' ;;
        stats,--each) echo 'links nodes' ;;
        stats,-o | stats,--output) echo '<file>' ;;
        stats,--color) echo 'auto always never' ;;
        compare,-f | compare,--format) echo 'adjlist edgelist' ;;
        compare,-r | compare,--root) echo '<node>' ;;
        compare,--threads) echo '<any>' ;;
        compare,-o | compare,--output) echo '<file>' ;;
        compare,--color) echo 'auto always never' ;;
        diff,-f | diff,--format) echo 'adjlist edgelist' ;;
        diff,-k | diff,--kind) echo 'tree shortest compact landmark' ;;
        diff,--landmarks) echo '<any>' ;;
        diff,--stretch) echo '<any>' ;;
        diff,-r | diff,--root) echo '<node>' ;;
        diff,-n | diff,--numbering) echo 'depth-first tour keep' ;;
        diff,--threads) echo '<any>' ;;
        diff,-o | diff,--output) echo '<file>' ;;
        diff,--color) echo 'auto always never' ;;
        draw,-f | draw,--format) echo 'adjlist edgelist' ;;
        draw,-k | draw,--kind) echo 'tree shortest compact landmark' ;;
        draw,--landmarks) echo '<any>' ;;
        draw,--stretch) echo '<any>' ;;
        draw,-r | draw,--root) echo '<node>' ;;
        draw,-n | draw,--numbering) echo 'depth-first tour keep keep,tour keep,depth-first <file>' ;;
        draw,--threads) echo '<any>' ;;
        draw,--from) echo '<node>' ;;
        draw,--to) echo '<node>' ;;
        draw,--node) echo '<node>' ;;
        draw,-o | draw,--output) echo '<file>' ;;
        draw,--color) echo 'auto always never' ;;
        prefixes,-f | prefixes,--format) echo 'adjlist edgelist' ;;
        prefixes,-k | prefixes,--kind) echo 'tree shortest compact landmark' ;;
        prefixes,--landmarks) echo '<any>' ;;
        prefixes,--stretch) echo '<any>' ;;
        prefixes,-r | prefixes,--root) echo '<node>' ;;
        prefixes,-n | prefixes,--numbering) echo 'depth-first tour keep keep,tour keep,depth-first <file>' ;;
        prefixes,--threads) echo '<any>' ;;
        prefixes,-o | prefixes,--output) echo '<file>' ;;
        prefixes,--color) echo 'auto always never' ;;
        ranges,-f | ranges,--format) echo 'adjlist edgelist' ;;
        ranges,-k | ranges,--kind) echo 'tree shortest compact landmark' ;;
        ranges,--landmarks) echo '<any>' ;;
        ranges,--stretch) echo '<any>' ;;
        ranges,-r | ranges,--root) echo '<node>' ;;
        ranges,-n | ranges,--numbering) echo 'depth-first tour keep keep,tour keep,depth-first <file>' ;;
        ranges,--threads) echo '<any>' ;;
        ranges,-o | ranges,--output) echo '<file>' ;;
        ranges,--color) echo 'auto always never' ;;
        xdp,-f | xdp,--format) echo 'adjlist edgelist' ;;
        xdp,-k | xdp,--kind) echo 'tree shortest compact landmark' ;;
        xdp,--landmarks) echo '<any>' ;;
        xdp,--stretch) echo '<any>' ;;
        xdp,-r | xdp,--root) echo '<node>' ;;
        xdp,-n | xdp,--numbering) echo 'depth-first tour keep keep,tour keep,depth-first <file>' ;;
        xdp,--threads) echo '<any>' ;;
        xdp,--node) echo '<node>' ;;
        xdp,-o | xdp,--output) echo '<file>' ;;
        xdp,--color) echo 'auto always never' ;;
        sim,-f | sim,--format) echo 'adjlist edgelist' ;;
        sim,-k | sim,--kind) echo 'tree shortest compact landmark' ;;
        sim,--landmarks) echo '<any>' ;;
        sim,--stretch) echo '<any>' ;;
        sim,-r | sim,--root) echo '<node>' ;;
        sim,-n | sim,--numbering) echo 'depth-first tour keep keep,tour keep,depth-first' ;;
        sim,--capacity) echo '<any>' ;;
        sim,--packets) echo '<any>' ;;
        sim,--restamps) echo '0 1 2 3' ;;
        sim,-o | sim,--output) echo '<file>' ;;
        sim,--color) echo 'auto always never' ;;
        live,-f | live,--format) echo 'adjlist edgelist' ;;
        live,-k | live,--kind) echo 'tree shortest compact landmark' ;;
        live,--landmarks) echo '<any>' ;;
        live,--stretch) echo '<any>' ;;
        live,-r | live,--root) echo '<node>' ;;
        live,-n | live,--numbering) echo 'depth-first tour keep keep,tour keep,depth-first' ;;
        live,--capacity) echo '<any>' ;;
        live,--packets) echo '<any>' ;;
        live,--restamps) echo '0 1 2 3' ;;
        live,-o | live,--output) echo '<file>' ;;
        live,--color) echo 'auto always never' ;;
        check,-f | check,--format) echo 'adjlist edgelist' ;;
        check,-k | check,--kind) echo 'tree shortest compact landmark' ;;
        check,--landmarks) echo '<any>' ;;
        check,--stretch) echo '<any>' ;;
        check,-r | check,--root) echo '<node>' ;;
        check,-n | check,--numbering) echo 'depth-first tour keep keep,tour keep,depth-first' ;;
        check,--capacity) echo '<any>' ;;
        check,--packets) echo '<any>' ;;
        check,-o | check,--output) echo '<file>' ;;
        check,--color) echo 'auto always never' ;;
    esac
}

# The nodes that begin so of the first word that is a file: of an edge list the first two words of a line, else all of it.
_bentzolu_nodes() {
    local file words
    for file in "${COMP_WORDS[@]:2}"; do
        [ -f "$file" ] || continue
        case " ${COMP_WORDS[*]} $file " in
            *edgelist* | *.wel\ *) words=2 ;;
            *) words=32768 ;;
        esac
        head -c 1048576 -- "$file" | sed 's/#.*//' | FRONT=${1-} awk -v most="$words" '
            { for (i = 1; i <= NF && i <= most; i++) if (index($i, ENVIRON["FRONT"]) == 1) print $i }' | LC_ALL=C sort -u
        return
    done
}

_bentzolu() {
    local word=${COMP_WORDS[COMP_CWORD]} before=${COMP_WORDS[COMP_CWORD - 1]} command='' values='' place=0 is_value='' it
    for it in "${COMP_WORDS[@]:1:COMP_CWORD-1}"; do
        case $place," $(_bentzolu_subcommands "$command") " in
            0,*" $it "*)
                command=${command:+$command }$it
                continue ;;
            0,*) place=1 ;;
        esac
        if [ "$it" = = ]; then
            is_value=yes
        elif [ -n "$is_value" ]; then
            is_value=
        elif [[ $it = -* ]]; then
            [ -z "$(_bentzolu_values "$it" "$command")" ] || is_value=yes
        else
            place=$((place + 1))
        fi
    done
    COMPREPLY=()
    # Readline makes a word of the `=` between an option and its value.
    if [ "$word" = = ]; then
        word=
    elif [ "$before" = = ]; then
        before=${COMP_WORDS[COMP_CWORD - 2]}
    fi
    case $before in
        -*) values=$(_bentzolu_values "$before" "$command") ;;
    esac
    if [ -z "$values" ]; then
        case $word in
            -*) values=$(_bentzolu_options "$command") ;;
            *) values="$(_bentzolu_subcommands "$command") $(_bentzolu_places "$command" "$((place > 0 ? place : 1))")" ;;
        esac
    fi
    for it in $values; do
        case $it in
            '<file>')
                compopt -o filenames 2> /dev/null
                while IFS= read -r it; do COMPREPLY+=("$it"); done < <(compgen -f -- "$word") ;;
            '<node>') while IFS= read -r it; do COMPREPLY+=("$it"); done < <(_bentzolu_nodes "$word") ;;
            '<any>') ;;
            "$word"*) COMPREPLY+=("$it") ;;
        esac
    done
}

complete -F _bentzolu route
