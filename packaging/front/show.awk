# Forms for people of what the program prints: `form` is version, short, long, compare, stats or draw. `color` is set where
# colours are wanted, `width` is that of the terminal, `name` is the program's name, and `sub_` the subcommand of a help text.

BEGIN {
    bold = color ? "\033[1m" : ""
    faint = color ? "\033[2m" : ""
    good = color ? "\033[32m" : ""
    warn = color ? "\033[33m" : ""
    plain = color ? "\033[0m" : ""
    width = width < 40 ? 40 : width > 100 ? 100 : width
    split("", lines)
}

{ lines[++count] = $0 }

END {
    if (form == "version") version()
    else if (form == "compare") compare()
    else if (form == "stats") stats()
    else if (form == "draw") draw()
    else if (form == "short") short_help()
    else long_help()
}

function spaces(many, made) {
    made = ""
    while (length(made) < many) made = made " "
    return made
}

# A text with spaces up to a width, after it or before it.
function left(text, many) { return text spaces(many - length(text)) }
function right(text, many) { return spaces(many - length(text)) text }

# A whole number with commas.
function grouped(number, made) {
    made = ""
    while (length(number) > 3) {
        made = "," substr(number, length(number) - 2) made
        number = substr(number, 1, length(number) - 3)
    }
    return number made
}

# A ratio as `8/3` with decimals.
function ratio(text, parts) {
    if (split(text, parts, "/") != 2 || parts[2] == 0) return text
    return sprintf("%.2f", parts[1] / parts[2])
}

# Texts of help

# Where the second column of a line begins, if it has two; else 0.
function second_column(line, lead, rest, gap) {
    lead = match(line, /[^ ]/)
    if (lead < 2) return 0
    rest = substr(line, lead)
    if (substr(line, lead, 2) == "$ " || !(gap = match(rest, /   *[^ ]/))) return 0
    return lead + gap + RLENGTH - 2
}

# Prints words of a text from a column on, after what already stands in the line.
function print_words(start, text, hang, words, many, i, line, is_first) {
    many = split(text, words, " ")
    line = start
    is_first = 1
    for (i = 1; i <= many; i++) {
        if (!is_first && length(line) + 1 + length(words[i]) > width) {
            print painted(line)
            line = spaces(hang) words[i]
        } else {
            line = line (is_first ? "" : " ") words[i]
        }
        is_first = 0
    }
    print painted(line)
}

# A heading, as `Options:`, is bold.
function painted(line) {
    return line ~ /^[A-Z][A-Za-z ]*:$/ ? bold line plain : line
}

function print_wrapped(line, at, lead) {
    if (length(line) <= width) {
        print painted(line)
        return
    }
    at = second_column(line)
    lead = match(line, /[^ ]/) - 1
    if (at && at + 24 <= width) print_words(substr(line, 1, at - 1), substr(line, at), at - 1)
    else if (at) {
        sub(/ *$/, "", line)
        print painted(trimmed(substr(line, 1, at - 1)))
        print_words(spaces(lead + 4), substr(line, at), lead + 4)
    } else if (line ~ /^Usage: /) print_words("", line, 11)
    else print_words(spaces(lead), substr(line, lead + 1), lead + (line ~ /^ *\$ / ? 6 : 0))
}

function trimmed(text) {
    sub(/ *$/, "", text)
    return text
}

# Lines of a paragraph are one line again.
function joined(i, line, paragraph) {
    paragraph = ""
    for (i = 1; i <= count; i++) {
        line = lines[i]
        if (line ~ /^[^ ]/ && paragraph != "" && line !~ /^(Usage|MEAN)/) {
            paragraph = paragraph " " line
        } else if (line ~ /^[^ ]/ && line !~ /:$/ && length(line) > 60) {
            if (paragraph != "") print_wrapped(paragraph)
            paragraph = line
        } else {
            if (paragraph != "") print_wrapped(paragraph)
            paragraph = ""
            print_wrapped(line)
        }
    }
    if (paragraph != "") print_wrapped(paragraph)
}

# The examples of a subcommand, one in a line.
function examples_of(which) {
    if (which == "plan") return name " plan net.adjlist\n" name " plan --kind compact --numbering tour net.edgelist\n" name " generate topology grid 8 8 | " name " plan -"
    if (which == "walk") return name " walk --from Seattle --to Houston net.edgelist"
    if (which == "stats") return name " stats --kind tree net.adjlist\n" name " stats --json net.adjlist | jq .bits"
    if (which == "compare") return name " compare net.edgelist\n" name " generate topology fattree 8 | " name " compare -"
    if (which == "diff") return name " diff --kind compact --numbering keep net.adjlist new.adjlist"
    if (which == "draw") return name " draw --color always net.adjlist | dot -Tsvg > net.svg\n" name " draw --node Houston --svg -o houston.svg net.edgelist"
    if (which == "prefixes") return name " prefixes --kind compact net.adjlist"
    if (which == "ranges") return name " ranges net.adjlist"
    if (which == "xdp") return name " xdp table 1 --node c net.adjlist"
    if (which == "sim" || which == "live") return "printf 'inject a d\\ninstall shortest a\\ninject a d\\ndrain\\n' > net.script\n" name " " which " --kind tree net.adjlist net.script"
    if (which == "check") return name " check net.adjlist net.script net.trace"
    if (which == "") return "printf 'a b c\\nb d e\\nc f\\n' > net.adjlist\n" name " plan net.adjlist\n" name " compare net.adjlist\n" name " help plan"
    return ""
}

function print_examples(which, made, many, i) {
    many = split(examples_of(which), made, "\n")
    if (!many) return
    print "\n" bold "Examples:" plain
    for (i = 1; i <= many; i++) print_wrapped("  $ " made[i])
}

# What this script has beside the program.
function print_further() {
    print "\n" bold "Further commands, of the Python package:" plain
    print_wrapped("  generate    Print a network of a family: ring, grid, torus, fattree, random and others")
    print_wrapped("  convert     Convert a network in another format, as GML or GraphML, to an edge list")
    print_wrapped("  sweep       Make the plans for all failures of a kind")
    print_wrapped("  lab         Change a plan under real packets in network namespaces of Linux, as root")
    print_wrapped("  agent, controller, fleet, xdp")
    print_wrapped("              Forward packets on many machines")
    print_wrapped("  completions Print the completions for bash, zsh or fish")
}

function long_help() {
    joined()
    if (sub_ == "") print_further()
    print "\n" bold "On a terminal:" plain
    print_wrapped("  --color <WHEN>  Use colours: auto, always or never [default: auto, which is never where NO_COLOR is set]")
    print_wrapped("  --pretty        Print the form for people, with aligned columns, where no terminal is, too")
    print_examples(sub_)
    print "\n" bold "Exit status:" plain
    print_wrapped("  0  Done")
    print_wrapped("  1  An input was refused or an output not written; for check, there is a finding")
    print_wrapped("  2  The words were not understood")
    print_wrapped("  3  Memory or a thread was refused")
}

# The first part of what an option does.
function brief(text) {
    sub(/ *[[(].*$/, "", text)
    sub(/[;:] .*$/, "", text)
    return text
}

function short_help(i, line, at, is_inside, head) {
    is_inside = 1
    for (i = 1; i <= count; i++) {
        line = lines[i]
        if (line ~ /^(Printed lines|Lines of a script|A row is wrong|Example)/) break
        at = second_column(line)
        if (at) {
            head = trimmed(substr(line, 1, at - 1))
            line = substr(line, 1, at - 1) brief(substr(line, at))
        }
        print_wrapped(line)
    }
    print ""
    print_wrapped("More, with examples: " name (sub_ == "" ? "" : " " sub_) " --help")
}

# Figures

function compare(i, many, cells, rows, columns, widths, c, row, heads, least, bits, line, text) {
    split(lines[1], cells, " ")
    print bold grouped(cells[2]) " nodes, " grouped(cells[3]) " links" plain "\n"
    columns = split("Kind|Numbering|Intervals|Longest row|Bits|Paths|Worst path|Deadlock", heads, "|")
    for (c = 1; c <= columns; c++) widths[c] = length(heads[c])
    least = -1
    for (i = 3; i <= count; i++) {
        split(lines[i], cells, " ")
        row = i - 2
        for (c = 1; c <= columns; c++) {
            text = cells[c]
            if (c == 1 && text == "tables") text = "full tables"
            else if (c > 2 && c < 6) text = text == "-" ? text : grouped(text)
            else if (c == 6 || c == 7) text = ratio(text)
            else if (c == 8) text = text == "cycle" ? "possible" : text == "acyclic" ? "none" : text
            rows[row, c] = text
            if (length(text) > widths[c]) widths[c] = length(text)
        }
        bits[row] = cells[5]
        if (least < 0 || cells[5] + 0 < bits[least] + 0) least = row
    }
    line = ""
    for (c = 1; c <= columns; c++) line = line (c > 1 ? "  " : "") (c < 3 || c == 8 ? left(heads[c], widths[c]) : right(heads[c], widths[c]))
    print bold trimmed(line) plain
    many = count - 2
    for (row = 1; row <= many; row++) {
        line = ""
        for (c = 1; c <= columns; c++) {
            text = c < 3 || c == 8 ? left(rows[row, c], widths[c]) : right(rows[row, c], widths[c])
            if (c == 8) text = (rows[row, c] == "none" ? good : rows[row, c] == "possible" ? warn : faint) trimmed(text) plain
            else if (row == least && c == 5) text = good text plain
            line = line (c > 1 ? "  " : "") text
        }
        print line
    }
    print ""
    printf "%s", faint
    print_words("", "Paths: their mean length over the shortest ones. Worst path: the longest detour. Deadlock: whether links could wait for one another in a ring, where full queues hold packets back.", 0)
    printf "%s", plain
}

function place_of(what, rest) {
    print left(what, 13) rest
}

function stats(i, key, words, many, value, walks, links, rest) {
    for (i = 1; i <= count; i++) {
        many = split(lines[i], words, " ")
        value[words[1]] = lines[i]
        sub(/^[^ ]* /, "", value[words[1]])
    }
    split(value["stats"], words, " ")
    print bold words[1] " plan of " grouped(words[2]) " nodes and " grouped(value["links"]) " links" plain "\n"
    for (i = 2; i <= count; i++) {
        many = split(lines[i], words, " ")
        key = words[1]
        rest = lines[i]
        sub(/^[^ ]* /, "", rest)
        if (key == "starts") place_of("Intervals", bold grouped(words[2]) plain "; full tables have " grouped(value["entries"]) " entries")
        else if (key == "greatest-row") place_of("Longest row", grouped(words[3]) " intervals, at " words[2])
        else if (key == "walks") place_of("Paths", ratio(words[2] "/" value["distances"]) " times as long as the shortest, in the mean")
        else if (key == "worst") place_of("Worst path", ratio(words[4] "/" words[5]) " times: " words[2] " to " words[3] ", " grouped(words[4]) " for " grouped(words[5]))
        else if (key == "compactness") place_of("Longest port", words[4] " intervals, of " words[2] " to " words[3])
        else if (key == "bits") place_of("Bits", bold grouped(words[2]) plain "; full tables have " grouped(words[3]))
        else if (key == "dependencies" || key == "together") print_deadlock(key == "together" ? "Both plans" : "Deadlock", rest)
        else if (key == "landmarks") print_words(left("Landmarks", 13), rest, 13)
        else if (key == "stretch") place_of("Bound", "no path above " words[2] " percent of the distance")
        else if (key != "links" && key != "entries" && key != "distances") print lines[i]
    }
}

function print_deadlock(what, rest) {
    if (rest == "acyclic") place_of(what, good "none possible" plain)
    else {
        sub(/^cycle */, "", rest)
        place_of(what, warn "possible" plain ": in a lossless network these links could wait for one another:")
        print_words(spaces(13), rest, 13)
    }
}

# The program, and how it was built.
function version(i, words, value, rest) {
    print bold lines[1] plain
    for (i = 2; i <= count; i++) {
        split(lines[i], words, " ")
        rest = lines[i]
        sub(/^[^ ]* */, "", rest)
        value[words[1]] = rest
    }
    place_of("commit", value["commit"] == "" ? "not known" : value["commit"])
    place_of("kit", value["kit"] == "" ? "not known" : value["kit"])
    rest = value["proved"] == "" ? "not known" : value["proved"]
    if (value["sha256"] != "" && value["program"] != "" && value["sha256"] != value["program"]) rest = "no: the program was replaced after it was installed"
    place_of("proved", (rest ~ /^yes/ ? good : warn) rest plain)
    place_of("sha256", value["program"] == "" ? "not known" : value["program"])
}

# Drawings

# A name of Graphviz, in quotes, as text of a label in HTML.
function html(text) {
    gsub(/\\"/, "\"", text)
    gsub(/\\\\/, "\\", text)
    gsub(/&/, "\\&amp;", text)
    gsub(/</, "\\&lt;", text)
    gsub(/>/, "\\&gt;", text)
    return text
}

function draw(i, line, at, label, hues, many, link) {
    many = split("#1f5fc0 #a84a00 #17703f #8a2f8f #7a5c00 #006d75 #b0224a #4a4a9c", hues, " ")
    for (i = 1; i <= count; i++) {
        line = lines[i]
        if (line ~ /" -- "/) {
            link = link % many + 1
            sub(/\[/, "[color=\"" hues[link] "\", labelfontcolor=\"" hues[link] "\", ", line)
        } else if (match(line, /\[label="[^\n]* [0-9]+"\];$/)) {
            at = RSTART
            label = substr(line, at + 8, length(line) - at - 10)
            match(label, / [0-9]+$/)
            line = substr(line, 1, at - 1) "[label=<" html(substr(label, 1, RSTART - 1)) "<br/><b>" substr(label, RSTART + 1) "</b>>];"
        }
        print line
        if (i == 1) {
            print "  node [shape=box, style=\"rounded,filled\", fillcolor=\"#eaf1fb\", color=\"#1f5fc0\", fontname=\"Helvetica\", fontsize=11];"
            print "  edge [fontname=\"Helvetica\", fontsize=10, fontcolor=\"#555555\", penwidth=1.5, labeldistance=1.8];"
        }
    }
}
