#!/bin/sh
# Installs the built program, its manual page and its completions, or removes them. See ./install.sh --help.
set -eu

usage() {
    cat <<'TEXT'
Usage: ./install.sh PREFIX [--name NAME] [--uninstall]

Install the program that `(cd crates/route && rt run < stdin)` proved and built:

  PREFIX/bin/NAME                                       a script that runs the program, with help and columns
                                                        for people, or the Python package
  PREFIX/libexec/bentzolu/NAME                          the program,
  PREFIX/libexec/bentzolu/NAME.awk                      its forms for people,
  PREFIX/libexec/bentzolu/NAME.families.py              families of networks,
  PREFIX/libexec/bentzolu/NAME.built                    of which commit and by which kit it was built
  PREFIX/share/man/man1/NAME.1                          its manual page
  PREFIX/share/bash-completion/completions/NAME         completions for bash,
  PREFIX/share/zsh/site-functions/_NAME                 zsh
  PREFIX/share/fish/vendor_completions.d/NAME.fish      and fish
  PREFIX/share/doc/bentzolu                             the page lab.html, and the folder examples

  --name NAME   install the program by this name (default: `bentzolu`, which the Python
                package looks for). net-tools has another program `route`.
  --uninstall   remove these files, if the manual page there is this program's
  --help        print this text

PREFIX is for instance /usr/local or ~/.local; missing folders are made.
TEXT
}

refuse() {
    echo "install.sh: $1" >&2
    exit "$2"
}

prefix=''
name=bentzolu
act=install
while [ $# -gt 0 ]; do
    case $1 in
        -h | --help)
            usage
            exit 0 ;;
        --name)
            [ $# -ge 2 ] || refuse '--name needs a name' 2
            name=$2
            shift ;;
        --name=*) name=${1#--name=} ;;
        --uninstall) act=uninstall ;;
        -*) refuse "unknown option $1; see ./install.sh --help" 2 ;;
        *)
            [ -z "$prefix" ] || refuse 'more than one PREFIX was given; see ./install.sh --help' 2
            prefix=$1
            [ -n "$prefix" ] || refuse 'the PREFIX is empty' 2 ;;
    esac
    shift
done
[ -n "$prefix" ] || refuse 'no PREFIX was given, such as /usr/local or ~/.local; see ./install.sh --help' 2
case $name in
    '' | -* | *[!A-Za-z0-9_-]*) refuse "the name '$name' has something other than letters, digits, _ and -" 2 ;;
esac

inner=$prefix/libexec/bentzolu
manual=$prefix/share/man/man1/$name.1
bash=$prefix/share/bash-completion/completions/$name
zsh=$prefix/share/zsh/site-functions/_$name
fish=$prefix/share/fish/vendor_completions.d/$name.fish
doc=$prefix/share/doc/bentzolu

if [ "$act" = uninstall ]; then
    grep -qs '^\.TH .* "Bentzolu[ "]' "$manual" ||
        refuse "nothing was removed: $manual is not the manual page of this program" 1
    for file in "$prefix/bin/$name" "$inner/$name" "$inner/$name.awk" "$inner/$name.families.py" "$inner/$name.built" "$bash" "$zsh" "$fish" "$manual"; do
        [ ! -e "$file" ] || { rm -f "$file" && echo "$file"; }
    done
    # What several names share goes with the last of them, and empty folders go too.
    if rmdir "$inner" 2> /dev/null; then
        for file in "$doc/lab.html" "$doc/examples"; do
            [ ! -e "$file" ] || { rm -rf "$file" && echo "$file"; }
        done
    fi
    for folder in "$doc" "$prefix/libexec" "${bash%/*}" "${zsh%/*}" "${fish%/*}" "${manual%/*}"; do
        while [ "$folder" != "$prefix" ] && rmdir "$folder" 2> /dev/null; do
            folder=${folder%/*}
        done
    done
    exit 0
fi

here=$(cd "$(dirname "$0")" && pwd)
program=$here/crates/route/out/route
if [ ! -f "$program" ] || [ ! -x "$program" ]; then
    refuse "the program is not built (crates/route/out/route): first run (cd crates/route && rt run < stdin)" 1
fi

# What the program calls itself by that name.
case $name in
    bentzolu*) own=bentzolu ;;
    *) own=route ;;
esac

# Writes a file with the program's name in place of `route`, where that is a word: `renamed FROM TO`.
renamed() {
    mkdir -p "$(dirname "$2")"
    upper=$(printf %s "$name" | tr '[:lower:]' '[:upper:]')
    sed -E -e "s/^\.TH ROUTE /.TH $upper /" -e "s/^route: /$own: /" \
        -e "s/(^|[ \"'(]|\\\\fB)route(\$|[ \"')]|\\\\)/\1$name\2/g" -e "s/(^|[ \"'(]|\\\\fB)route(\$|[ \"')]|\\\\)/\1$name\2/g" "$1" > "$2"
    chmod 644 "$2"
    echo "$2"
}

# Of which commit the program is, by which kit, and whether it is the one that was linked of these sources once they were
# proved. The sources are those here, or in the folder of the variable BENTZOLU_SOURCES.
built() {
    sources=${BENTZOLU_SOURCES:-$here}
    commit=$(git -C "$sources" log -1 --format='%h of %cs' 2> /dev/null || :)
    [ -z "$commit" ] || [ -z "$(git -C "$sources" status --porcelain -- crates 2> /dev/null)" ] || commit="$commit, and changes"
    echo "commit ${commit:-not known}"
    echo "kit $(rt version 2> /dev/null || echo 'not known')"
    if ! cmp -s "$program" "$sources/crates/route/out/route" || [ ! -s "$sources/crates/route/out/route.stamp" ]; then
        echo 'proved not known: it is another program than the one that rt linked in crates/route/out'
    elif [ -n "$(find "$sources/crates" -path '*/src/*.rt' -newer "$sources/crates/route/out/route" 2> /dev/null | head -n 1)" ]; then
        echo 'proved not known: sources are newer than the program'
    else
        echo 'proved yes: rt links a program only once all its functions are proved'
    fi
    sum=$(sha256sum < "$program" 2> /dev/null || :)
    echo "sha256 ${sum%% *}"
}

# A program that runs may not be overwritten, so the new one is put beside it and takes its place.
mkdir -p "$prefix/bin" "$inner" "$doc"
cp "$here/packaging/front/front.sh" "$prefix/bin/.$name.new"
cp "$program" "$inner/.$name.new"
for file in "$prefix/bin" "$inner"; do
    chmod 755 "$file/.$name.new"
    mv -f "$file/.$name.new" "$file/$name"
    echo "$file/$name"
done
cp "$here/packaging/front/show.awk" "$inner/$name.awk"
cp "$here/python/bentzolu/families.py" "$inner/$name.families.py"
built > "$inner/$name.built"
for file in "$inner/$name.awk" "$inner/$name.families.py" "$inner/$name.built"; do
    chmod 644 "$file"
    echo "$file"
done
renamed "$here/docs/route.1" "$manual"
renamed "$here/completions/route.bash" "$bash"
renamed "$here/completions/_route" "$zsh"
renamed "$here/completions/route.fish" "$fish"
cp "$here/docs/lab.html" "$doc/lab.html"
rm -rf "$doc/examples"
cp -R "$here/examples" "$doc/examples"
chmod -R u+w,go+rX "$doc/lab.html" "$doc/examples"
echo "$doc/lab.html"
echo "$doc/examples"
