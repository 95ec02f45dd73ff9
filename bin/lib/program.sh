# shellcheck shell=sh disable=SC2154
# What the scripts in bin/ share: to prove and link a program of these sources if there is none of them as they stand,
# and to run it.
#
# A script sets these and then sources this file:
#   name    the program's name, in crates.txt and below crates/
#   usage   what -h says
#   takes   what it takes besides options: the word for its input, which is standard input or one file; or the
#           number of files whose names the program is given
#
# Ends with 0 when the program has done its work, with 1 when it complained (a read or a write has failed), and
# with 2 when there was no program to run or nothing to run it on.
set -u

refuse() { # TEXT: what stands in the way, in one line
    printf '%s: %s\n' "$name" "$1" >&2
    exit 2
}

root=$(dirname "$(dirname "$(readlink -f -- "$0")")")
program=$root/crates/$name/out/$name
notes=$root/target/run     # what the scripts keep: a lock, and of each program the two files below
log=$notes/$name.log       # what its last check said
passed=$notes/$name.passed # the sources and the program that its last check has passed

# Finds the kit's rt, on the path or by RATTLE_HOME.
find_rt() {
    rt=$(command -v rt) || rt=${RATTLE_HOME:-}/bin/rt
    [ -x "$rt" ]
}

# The program's crate, the crates that its line in crates.txt names, those that theirs name, and so on. Some are
# the kit's, which have no folder here.
own_crates() {
    awk -v name="$name" '
        { sub(/#.*/, "") }
        split($0, line, ":") == 2 { split(line[1], words, " "); needs[words[1]] = line[2] }
        END {
            crates[count = 1] = name
            seen[name]
            for (i = 1; i <= count; i++) {
                print crates[i]
                more = split(needs[crates[i]], below, " ")
                for (j = 1; j <= more; j++)
                    if (!(below[j] in seen)) {
                        seen[below[j]]
                        crates[++count] = below[j]
                    }
            }
        }' crates.txt
}

# Names the program's sources by their bytes, without what rt makes of them. Their times would not do: a file that is
# edited while a check runs is older than the program and not in it.
sources() {
    (
        cd "$root" || exit
        set -- crates.txt
        for crate in $(own_crates); do
            [ ! -d "crates/$crate" ] || set -- "$@" "crates/$crate"
        done
        find "$@" -regex 'crates/[^/]*/out' -prune -o -type f -exec sha256sum {} +
    ) | LC_ALL=C sort | sha256sum
}

# Whether a check has passed the program that stands in its crate's out/, made of the sources as they stand.
is_current() {
    [ -x "$program" ] && [ -f "$passed" ] &&
        [ "$(sources && sha256sum <"$program")" = "$(cat "$passed")" ]
}

# Proves and links the program, again if the sources have changed meanwhile. rt runs what it has linked, here on
# nothing: a program that takes files gets as many empty ones. It has to end well on that.
prove_and_link() {
    printf '%s: proving and linking the program; from nothing this takes some minutes\n' "$name" >&2
    set --
    case $takes in
    [0-9]*) while [ $# -lt "$takes" ]; do set -- "$@" /dev/null; done ;;
    esac
    until
        before=$(sources)
        (cd "$root/crates/$name" && "$rt" run -- "$@") >"$log" 2>&1 </dev/null || return 1
        [ "$(sources)" = "$before" ]
    do :; done
    { printf '%s\n' "$before" && sha256sum <"$program"; } >"$passed"
}

# One build at a time, of whatever program: who comes second waits, and may then find the program there.
build() {
    find_rt || refuse 'the program has to be proved and linked, and there is no Rattle kit: put its rt on the path or set RATTLE_HOME'
    command -v flock >/dev/null || refuse 'the program has to be proved and linked, and flock is missing (it comes with util-linux)'
    mkdir -p "$notes" 2>/dev/null
    { [ -d "$notes" ] && [ -w "$notes" ]; } || refuse "cannot write to $notes"
    (flock 9 && { is_current || prove_and_link 9>&-; }) 9>"$notes/lock" ||
        refuse "the program was not proved and linked; $log says why"
}

# Runs the program. Its answers go straight on. What it complains of is caught, for it may complain and end with 0;
# where it ends with another status, an error that it said is enough, and else the status is told.
run() { # WORD..: the program's arguments
    # so that the program is told of a reader that has gone, and can say it
    trap '' PIPE
    complaint=''
    { complaint=$("$program" "$@" 2>&1 >&3 3>&-); } 3>&1
    status=$?
    [ "$status" -eq 0 ] || { [ "$status" -eq 1 ] && [ -n "$complaint" ]; } || complaint="${complaint:+$complaint
}$name: the program ended with status $status"
    [ -z "$complaint" ] || printf '%s\n' "$complaint" >&2
    [ -z "$complaint" ]
}

case $#:${1:-} in
1:-h | 1:--help)
    printf '%s\n' "$usage"
    exit 0
    ;;
esac
[ "${1:-}" != -- ] || shift
case $takes:$# in
[0-9]*) [ $# -eq "$takes" ] || refuse "it takes $takes files, and not $#; $name -h says which" ;;
*:0 | *:1) ;;
*) refuse "one $takes at a time: $name < $takes, or $name $takes" ;;
esac
for file; do
    [ -e "$file" ] || refuse "there is no file $file"
    [ ! -d "$file" ] || refuse "$file is a directory"
    [ -r "$file" ] || refuse "cannot read $file"
done
case $takes:$# in
[0-9]*) ;;
*:1)
    exec <"$1"
    shift
    ;;
esac
{ true 3>&1; } 2>/dev/null || refuse 'standard output is closed'
[ "$(uname -m)" = x86_64 ] || refuse "the program is for x86-64, and this machine is another, $(uname -m)"

is_current || build
run "$@" || exit 1
