# What ./bale, ./build, c/build and checks/run know of a build; each reads this file. `top` is the
# repository's folder. A build is recorded in crates/bale/out/built: the sum of the sources that it
# was made of, the toolchain, and rt's own stamp on the program.

program=$top/crates/bale/out/bale
stamp=$top/crates/bale/out/bale.stamp
record=$top/crates/bale/out/built

# The sum of files and folders, by names and contents: a checkout back and forth changes nothing.
sum_of() { # files and folders..
    find "$@" -type f -print0 2>/dev/null | LC_ALL=C sort -z | xargs -0 sha256sum | sha256sum
}

# The sources: all that a proof reads.
sources() {
    (cd "$top" && sum_of crates.txt HANDLES crates/*/src crates/*/specs crates/*/proofs)
}

# A crate and those that it stands on, each as `NAME SIZE`, by the bytes of its sources.
stands_on() { # crate
    (
        cd "$top" || exit 1
        sed 's/#.*//' crates.txt
        find crates/*/src crates/*/specs crates/*/proofs -type f -printf '%s %p\n' 2>/dev/null
    ) | awk -v crate="$1" '
        function reach(name, list, many, i) {
            if (!(name in below) || name in reached) return
            reached[name]
            many = split(below[name], list)
            for (i = 1; i <= many; i++) reach(list[i])
        }
        /:/ { name = $1; sub(/:.*/, "", name); sub(/[^:]*:/, ""); below[name] = $0; next }
        { split($2, path, "/"); size[path[2]] += $1 }
        END { reach(crate); for (name in reached) print name, size[name] + 0 }'
}

# The sum of what the library for C is made of: the sources of bale_c and of what it stands on.
library_sources() {
    # shellcheck disable=SC2046
    (cd "$top" && sum_of crates.txt $(stands_on bale_c | sort | sed 's,\([^ ]*\) .*,crates/\1/src crates/\1/specs crates/\1/proofs,'))
}

# The file that has the toolchain's identity, where rt is found.
kit_id() {
    local rt
    rt=$(command -v rt) || return 0
    echo "$(dirname "$(dirname "$(readlink -f "$rt")")")/KIT-ID"
}

# The toolchain's identity, or nothing where rt is not found.
toolchain() {
    local id
    id=$(kit_id)
    [ -n "$id" ] || return 0
    if [ -r "$id" ]; then cat "$id"; else rt version; fi
}

# The one line that a command prints of files, out of a record of its last call if none of them has
# changed since, by names, sizes, inodes and times of change. Files that changed in the last two
# seconds may change again without another time, so nothing is recorded of them.
remember() { # record, command, files and folders..
    local seen was="" line=""
    seen=$(cd "$top" && find "${@:3}" -printf '%p %s %i %C@\n' 2>/dev/null | sha256sum)
    { read -r was && read -r line; } 2>/dev/null <"$1"
    if [ "$was" != "$seen" ] || [ -z "$line" ]; then
        line=$($2)
        if [ -d "${1%/*}" ] && [ -z "$(cd "$top" && find "${@:3}" -newerct '2 seconds ago' -print -quit 2>/dev/null)" ]; then
            printf '%s\n' "$seen" "$line" >"$1.$$" && mv "$1.$$" "$1"
        fi 2>/dev/null
    fi
    echo "$line"
}

# Whether the program is there, proved and built from these sources by this toolchain.
is_current() {
    [ -x "$program" ] && [ -r "$record" ] && [ -r "$stamp" ] || return 1
    local was_made_of was_made_by had_stamp by
    { read -r was_made_of && read -r was_made_by && read -r had_stamp; } <"$record"
    [ "$had_stamp" = "$(sha256sum <"$stamp")" ] || return 1
    [ "$was_made_of" = "$(cd "$top" && remember "$record.sources" sources crates.txt HANDLES crates/*/src crates/*/specs crates/*/proofs)" ] ||
        return 1
    by=$(toolchain | head -n 1)
    [ -z "$by" ] || [ "$was_made_by" = "$by" ]
}

# A child of this script runs in a process group of its own, which ends with this script, also
# where that is killed: `watcher` reads the groups' numbers from a pipe, and the pipe's end with no
# number 0 as its last line is the end of this script.
child=
watcher=

watch() {
    [ -z "$watcher" ] || return 0
    exec {watcher}> >(
        exec >/dev/null 2>&1
        trap '' HUP INT QUIT TERM TSTP
        group=0
        while read -r line; do group=$line; done
        [ "$group" != 0 ] || exit
        kill -TERM -- "-$group" && sleep 2 && kill -KILL -- "-$group"
    )
}

# Starts a command as `child`.
start() { # command..
    watch
    trap 'end_child; exit 129' HUP
    trap 'end_child; exit 130' INT
    trap 'end_child; exit 131' QUIT
    trap 'end_child; exit 143' TERM
    trap 'pause' TSTP
    set -m
    "$@" <&0 {watcher}>&- &
    child=$!
    set +m
    echo "$child" >&"$watcher"
}

# Ctrl-Z stops the child too, until this script goes on.
pause() {
    [ -z "$child" ] || kill -STOP -- "-$child" 2>/dev/null
    kill -STOP $$
    [ -z "$child" ] || kill -CONT -- "-$child" 2>/dev/null
}

end_child() {
    [ -n "$child" ] || return
    kill -CONT -- "-$child" 2>/dev/null
    kill -TERM -- "-$child" 2>/dev/null
    wait "$child"
    over
}

over() {
    child=
    echo 0 >&"$watcher"
}

# Waits for the child, and says each second on a terminal, else every ten, what the command put into
# `doing`. Returns the child's status.
await() { # command, which is called with the seconds as its last word
    local began=$SECONDS last=$SECONDS status never doing="" shown=""
    exec {never}<> <(:)
    while kill -0 "$child" 2>/dev/null; do
        read -rt 0.2 -u "$never"
        "$@" $((SECONDS - began))
        [ -n "$doing" ] || continue
        if [ -t 2 ]; then
            [ "$SECONDS" = "$last" ] || printf '\r\033[K%s' "$doing" >&2
            last=$SECONDS shown=1
        elif [ $((SECONDS - last)) -ge 10 ]; then
            echo "$doing" >&2
            last=$SECONDS
        fi
    done
    exec {never}<&-
    [ -z "$shown" ] || printf '\r\033[K' >&2
    wait "$child"
    status=$?
    over
    return "$status"
}
