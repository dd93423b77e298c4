# What bin/package and bin/install share: the files that an installed aea has. Not run by itself; who reads it has read
# bin/program.bash, and has a function `sums`, which prints what doc/aea/sums is to have.

# The tools beside the program, and the packages of Python that some of them use, each a folder of modules.
tools=(frames guard look salvage scrub session)
modules=(aea_formats aea_looks aea_sessions)

# Places a file: its rights, its path, and its bytes, which are the input.
place() {
    mkdir -p "${2%/*}" && cat >"$2" && chmod "$1" "$2"
}

# A text of the package, whose marks become what they stand for below the folder $1.
text() {
    sed -e "s|@PREFIX@|$1|g" -e "s|@VERSION@|${version:-}|g" -e "s|@LIBC@|${libc:-}|g" "$2"
}

# A tool as it is installed: with its interpreter, which is Python $1 or bash, and with its name there.
tool() {
    local shell='/usr/bin/env bash'
    [ "$1" = /usr/bin/python3 ] && shell=/bin/bash
    sed -e "1s|^#!.*python3|#!$1|" -e "1s|^#!.*bash|#!$shell|" -E -e 's,bin/(frames|guard|look|salvage|scrub|session)\b,aea-\1,g' "$2"
}

# All files below $1, for a system where the program $5 is $2/bin/aea and Python is $3; the pages packed where $4 is gzip.
lay_out() {
    local page name
    place 755 "$1/bin/aea" <"$5"
    for name in "${tools[@]}"; do
        tool "$3" "$top/bin/$name" | place 755 "$1/bin/aea-$name"
    done
    for page in "${modules[@]/%//*.py}"; do
        for name in "$top"/bin/$page; do
            tool "$3" "$name" | place 644 "$1/lib/python3/dist-packages/${page%%/*}/${name##*/}"
        done
    done
    for page in "$top"/docs/aea.1 "$top"/package/*.[18]; do
        if [ "$4" = gzip ]; then
            gzip -9n <"$page" | place 644 "$1/share/man/man${page##*.}/${page##*/}.gz"
        else
            place 644 "$1/share/man/man${page##*.}/${page##*/}" <"$page"
        fi
    done
    for name in "$top"/package/*.service "$top"/package/*.timer; do
        text "$2" "$name" | place 644 "$1/lib/systemd/system/${name##*/}"
    done
    for name in aea "${tools[@]/#/aea-}"; do
        place 644 "$1/share/bash-completion/completions/$name" <"$top/package/aea.bash"
    done
    for name in "$top"/docs/*.md "$top"/docs/*.svg "$top/package/copyright"; do
        place 644 "$1/share/doc/aea/${name##*/}" <"$name"
    done
    sums | place 644 "$1/share/doc/aea/sums"
}
