#!/bin/sh
# Runs the program with the words and the standard input given, and ends with its status. `orc test [NAME..]` tests it instead:
# over examples/, with its exit statuses and the tools of contrib/ (.ci/test). `orc which` prints the path of the program.
#
# It runs the program that was built here, where that is of the sources that stand here, else the one of dist/, where that is.
# Where neither is, it builds one, if standard error is a terminal: .ci/build proves what it builds, says how far it is, and
# takes nothing of the input. What starts no program ends with status 125, which the program never has, and says why.
#
# Two files go with a program: SOURCES, a line `CHECKSUM  PATH` for each file that it was made of, and PROGRAM, the lines
# `CHECKSUM  orc`, `CHECKSUM  SOURCES` and the toolchain's. That of dist/ is unpacked once, to a folder of the user's own.
# To read all sources takes some tenths of a second. So a file is left in that folder once they were found as they must be, named
# by a checksum of what the system knows of each of them, when it was changed last among that: later calls look at that alone.
readonly none=125

# Says why no program is started, and ends.
no_program() {
    printf 'orc: NotStarted\n%s\n' "$1" >&2
    exit "$none"
}

# Ends where one of these commands isn't there.
need() {
    for tool; do
        command -v "$tool" >/dev/null || no_program "The command $tool, which is needed for this, isn't on the PATH."
    done
}

# What the program is started with: the one place where it stands.
settings() {
    # Typedefs, or nodes and groupings, of modules are followed 2,000 one inside another, each on up to 1,400 bytes of the stack.
    ulimit -S -s 65536 2>/dev/null
    # A write past a limit of a file's length fails, as on a full disk. Else its signal would end the program with nothing said.
    trap '' XFSZ
    # Trees are many small pieces all over the memory: in pages of two megabytes, which the C library asks the kernel
    # for, most of them are found sooner. Of each small size it keeps a hundred pieces that are let go at hand (seven if not told),
    # and joins others with their neighbours at once (no fast bins), as else it would, now and then, for all such pieces
    # together. What the caller set stays, and a kernel without such pages gives the usual ones.
    export GLIBC_TUNABLES="${GLIBC_TUNABLES:-glibc.malloc.hugetlb=1:glibc.malloc.mxfast=0:glibc.malloc.tcache_count=100}"
}

# Starts the program, or its tests, or prints its path, and ends with the status of that.
start() {
    if [ "$*" = which ]; then
        printf '%s\n' "$program"
        exit
    fi
    settings
    if [ "${1-}" = test ]; then
        shift
        need python3
        exec "$top/.ci/test" --program "$program" "$@"
    fi
    exec "$program" "$@"
}

# Does something with each folder in which a program of dist/ may stand, until it goes well.
in_places() {
    "$1" "$top/crates/orc/out/shipped" && return
    case ${XDG_CACHE_HOME-} in /*) "$1" "$XDG_CACHE_HOME/orc" && return ;; esac
    case ${HOME-} in /*) "$1" "$HOME/.cache/orc" && return ;; esac
    shared=${TMPDIR:-/tmp}
    case $shared in /*) ;; *) shared=/tmp ;; esac
    user=$(id -u)
    # (where others may take a folder away, they could put another one in its place)
    case $(stat -L -c '%a %u' -- "$shared" 2>/dev/null) in
    [1357]???" 0" | [1357]???" $user" | *[0145][0145]" 0" | *[0145][0145]" $user") "$1" "$shared/orc-$user" ;;
    *) false ;;
    esac
}

# Whether it is a folder, and no link, of the user's own and closed to others.
is_own() {
    [ -d "$1" ] && [ -O "$1" ] && [ ! -h "$1" ] && case $(stat -c %a -- "$1" 2>/dev/null) in 700 | ?700) ;; *) false ;; esac
}

# Makes such a folder where there is nothing of its name, and says whether there is one then.
is_made() {
    [ -d "$1" ] || (umask 077 && mkdir -p -- "${1%/*}" && mkdir -- "$1") 2>/dev/null
    is_own "$1"
}

# Gives, as one checksum, what the system knows of each source, of the list and of what goes with it; nothing where it says
# nothing, as where the list is too long for the words of a command.
state_of() {
    known=$(cd "$top/" && set -f && LC_ALL=C stat -c '%d %i %s %.9Z' "$1/SOURCES" "$1/PROGRAM" $(cut -b 67- "$1/SOURCES") 2>/dev/null)
    state=${known:+$(printf '%s' "$known" | sha256sum)}
    state=${state%% *}
}

# Reads what goes with the program of a folder: its checksum, that of the list, and what the system knows of its sources.
is_there() {
    sum= listed=
    [ -r "$top/$1/SOURCES" ] && { read -r sum _ && read -r listed _; } 2>/dev/null <"$top/$1/PROGRAM" || return 1
    case $sum$listed in *[!0-9a-f]*) return 1 ;; esac
    [ ${#sum} = 64 ] && [ ${#listed} = 64 ] && state_of "$1"
}

# Gives what the system knows of the program itself, in a word.
stand_of() {
    stand=$(LC_ALL=C stat -c '%d-%i-%s-%.9Z' -- "$1" 2>/dev/null)
}

# Whether the program that was built is known to be whole and of these sources, by what is left in this folder.
is_known_built() {
    [ -n "$state" ] && is_own "$1" && [ -e "$1/known-$state-$stand" ]
}

# Whether the program of dist/ is known to be that, and stands in this folder.
is_known_shipped() {
    program=$1/orc-$sum
    [ -x "$program" ] && stand_of "$program" && is_known_built "$1"
}

# Whether a program is known to be of other sources, and why.
is_known_old() {
    [ -n "$state" ] && is_own "$1" && { read -r why <"$1/old-$state"; } 2>/dev/null
}

# Leaves a file of this name in a folder, with a line.
leave() {
    (cd "$1/" && set -- known-* old-* && [ $# -gt 64 ] && rm -f -- "$@")
    printf '%s\n' "${3-}" >"$1/$2"
} 2>/dev/null

leave_known() {
    [ -n "$state" ] && is_made "$1" && leave "$1" "known-$state-$stand"
}

leave_old() {
    [ -n "$state" ] && is_made "$1" && leave "$1" "old-$state" "$why"
}

# Whether each source is as the list of a folder says, which is the list that its program was made with.
is_of_these() {
    found=$(sha256sum <"$top/$1/SOURCES")
    if [ "$found" != "$listed  -" ]; then
        why="$1/SOURCES isn't the list that $1/PROGRAM names."
        return 1
    fi
    # (no word that GNU's alone knows; that no line is passed over is known by the list's own checksum)
    lines=$(cd "$top/" && LC_ALL=C sha256sum -c "$1/SOURCES" 2>/dev/null) && return
    lines=${lines%%: FAILED*}
    why="${lines##*
} isn't the source that the program of $1/ was made of."
    return 1
}

# Starts the program that was built here, where it is whole and of these sources.
start_built() {
    program=$top/crates/orc/out/orc
    [ -x "$program" ] && is_there crates/orc/out || return
    stand_of "$program"
    in_places is_known_built && start "$@"
    in_places is_known_old && return
    why="crates/orc/out/orc isn't the program that crates/orc/out/PROGRAM names."
    found=$(sha256sum <"$program")
    [ "$found" = "$sum  -" ] || return
    if is_of_these crates/orc/out; then
        in_places leave_known
        start "$@"
    fi
    in_places leave_old
}

# Starts the program of dist/, where it is whole and of these sources, and unpacks it first where it wasn't.
start_shipped() {
    why="There is no whole dist/ here."
    is_there dist && [ -r "$top/dist/orc.gz" ] || return
    # (of another machine sh would take the program for a script)
    [ "$machine" = "Linux x86_64" ] && in_places is_known_shipped && start "$@"
    in_places is_known_old && return
    need gzip mktemp mkdir mv rm chmod
    if ! is_of_these dist; then
        in_places leave_old
        return
    fi
    [ "$machine" = "Linux x86_64" ] || no_program "The program of dist/ is for Linux on x86-64, and this is $machine. It can be built from the sources where the toolchain is: $top/.ci/build"
    whole=$(gzip -dc <"$top/dist/orc.gz" 2>/dev/null | sha256sum)
    [ "$whole" = "$sum  -" ] || no_program "$top/dist/orc.gz is damaged: unpacked it hasn't the checksum that dist/PROGRAM names. \`git checkout -- dist\` brings it back, and $top/.ci/build makes the program from its sources."
    # (the folder of what is built is made as the toolchain makes it, for others too)
    mkdir "$top/crates/orc/out" 2>/dev/null
    tried=
    in_places is_unpacked && start "$@"
    no_program "${cannot:-The program of dist/ is to be unpacked once, and no folder was found for it that can be written, is closed to other users, and from which a program may be started:$tried. Set XDG_CACHE_HOME to one.}"
}

# Unpacks the program to a folder, tries there whether it can be started, and says whether it is there then.
is_unpacked() {
    [ -z "$cannot" ] || return
    tried="$tried $1"
    is_made "$1" || return
    program=$1/orc-$sum
    found=$({ sha256sum <"$program"; } 2>/dev/null)
    if [ "$found" = "$sum  -" ] && [ -x "$program" ]; then
        is_started "$program" || return
    else
        unpack "$1"
        [ -x "$program" ] || return
    fi
    stand_of "$program"
    leave_known "$1"
    true
}

# Unpacks the program to a file beside it, and gives that its name where it is whole and can be started.
unpack() {
    new=$(mktemp "$1/new.XXXXXX" 2>/dev/null) || return
    trap 'rm -f -- "$new"' EXIT
    trap 'exit 129' HUP
    trap 'exit 130' INT
    trap 'exit 143' TERM
    { gzip -dc <"$top/dist/orc.gz" >"$new" && chmod 700 "$new"; } 2>/dev/null
    found=$(sha256sum <"$new")
    # (else the folder is full)
    if [ "$found" = "$sum  -" ] && is_started "$new"; then
        # (what was unpacked before goes, but for a few that other checkouts may have)
        (cd "$1/" && set -- orc-* && [ $# -gt 3 ] && rm -f -- "$@")
        # (what a kill left an hour ago goes too, where there is a `find`)
        find "$1/" -name 'new.*' -mmin +60 -exec rm -f -- {} + 2>/dev/null
        mv -f -- "$new" "$program"
    else
        rm -f -- "$new"
    fi
    trap - EXIT HUP INT TERM
}

# Whether a program can be started; if not, and not for want of the right, says why.
is_started() {
    said=$("$1" --version 2>&1 </dev/null)
    started=$?
    # (an older sh takes what the kernel can't start for a script, and may end with 2 as well)
    case $started.$said in
    "2.orc: Usage"*) return ;;
    126.*[Ff]ormat*) cannot="The program of dist/ can't be started here: $said" ;;
    126.*) ;;
    127.*) cannot="The program of dist/ can't be started here: there is no C library of GNU for x86-64 (/lib64/ld-linux-x86-64.so.2), as on Alpine, for one." ;;
    *GLIBC_*) cannot="The program of dist/ can't be started here: it needs the C library of GNU (glibc) in version 2.34 or later, and this one is older." ;;
    *) cannot="The program of dist/ can't be started here: status $started. $said" ;;
    esac
    return 1
}

need readlink uname stat cut id sha256sum
top=$(readlink -f -- "$0") || no_program "The folder of $0 can't be found."
top=${top%/*}
machine=$(uname -sm)
cannot=
start_built "$@"
start_shipped "$@"
if [ "${1-}" = test ] && [ $# -gt 1 ] && command -v python3 >/dev/null; then
    # (programs of tables may be built all the same)
    shift
    exec "$top/.ci/test" --without "$why" "$@"
fi
for tool in rt python3; do
    command -v "$tool" >/dev/null || no_program "$why $top/.ci/build proves the sources that stand here, and builds the program of them: it needs the command $tool, which isn't on the PATH."
done
[ -t 2 ] || no_program "$why $top/.ci/build proves the sources that stand here, and builds the program of them."
"$top/.ci/build" </dev/null || no_program "No program is built of the sources that stand here: above is why."
start_built "$@"
no_program "The sources changed while the program was built."
