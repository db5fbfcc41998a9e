# Completion of words for the programs, which bash loads from share/bash-completion/completions.
# shellcheck shell=bash
_pondlater() {
    local word=${COMP_WORDS[COMP_CWORD]} options="--help --version" keys="" name
    case ${COMP_WORDS[0]##*/} in
        scid_shell) options+=" --create --strict --desk" ;;
        scid_page) options+=" --depth --least --only --from --side --names --replace" ;;
        scid_mend) options+=" --back --fronts --loose" ;;
        scid_import) options="--help --create --again --piece" ;;
        scid_export)
            options="--help --board"
            keys="white= black= player= event= site= round= result= year= welo= belo= plies= eco= deleted= mark="
            ;;
        scid_eco) options="--help" ;;
        scid_board) options="--help --create" ;;
        scid_run) options="--help --create --strict" ;;
    esac
    COMPREPLY=()
    if [[ $word == -* ]]; then
        mapfile -t COMPREPLY < <(compgen -W "$options" -- "$word")
        return
    fi
    # A base is named without the ending of its files.
    while IFS= read -r name; do COMPREPLY+=("${name%.si4}"); done < <(compgen -f -X '!*.si4' -- "$word")
    while IFS= read -r name; do
        [[ $name == *.s[ing]4 || $name == *.imported ]] || COMPREPLY+=("$name")
    done < <(compgen -f -- "$word")
    if [ -n "$keys" ]; then
        while IFS= read -r name; do COMPREPLY+=("$name"); done < <(compgen -W "$keys" -- "$word")
        [[ ${COMPREPLY[0]:-} != *= ]] || compopt -o nospace 2>/dev/null
    fi
}
complete -o filenames -F _pondlater scid_shell scid_mend scid_page scid_moves scid_import scid_export scid_eco scid_run scid_board
