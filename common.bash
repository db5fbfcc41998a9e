# What the bash programs beside `scid_shell` share. They read it; it is no program. Each has a text `help`, whose first line is its usage.
# shellcheck shell=bash
set -u
export LC_ALL=C
me=${0##*/}
# shellcheck disable=SC2034
program=$(dirname "$(readlink -f "${BASH_SOURCE[0]}")")/scid_shell
REFUSED=64

say() {
    printf '%s: %s\n' "$me" "$*" >&2
}

# Ends before anything was done.
refuse() {
    say "$*"
    exit "$REFUSED"
}

usage() {
    # shellcheck disable=SC2154
    printf '%s\n%s --help tells more\n' "${help%%$'\n'*}" "$me" >&2
    exit "$REFUSED"
}

# Answers `--help` as the single word.
answer_help() {
    [ "$#" = 1 ] && [ "$1" = --help ] || return 0
    printf '%s\n' "$help"
    exit
}

# Refuses a name that no base can have, or that has its ending.
check_name() {
    case $1 in
        "" | -*) usage ;;
        *.si4 | *.sn4 | *.sg4) [ -e "$1.si4" ] || refuse "a base is named without the ending of its files: ${1%.s?4}" ;;
    esac
}

# Refuses a base that is not there.
check_base() {
    check_name "$1"
    [ -e "$1.si4" ] || refuse "no base $1: there is no $1.si4"
}

# A folder of this run, which goes as it ends.
make_room() {
    room=$(mktemp -d) || refuse "no folder for what is kept during the run"
    trap 'rm -rf "$room"' EXIT
}

# A word of 128 random bits: no text that stood before can have it.
random_word() {
    od -An -N16 -tx1 /dev/urandom | tr -d ' \n'
}
