# Completion of the command line of xls, for bash.

# Of the table of commands, by tools/make_man.
_xls_commands='dump sheets check formulas refs hidden books comments links styles props vba macros csv remake stream streams'

_xls_options() {
    case $1 in
        dump) echo '--files-from --null --out --force --skip-existing --json --exact --as-shown --quiet --codepage --password-file --password --help' ;;
        sheets | refs) echo '--files-from --null --out --force --skip-existing --json --exact --codepage --password-file --password --help' ;;
        check | formulas) echo '--files-from --null --out --force --skip-existing --json --codepage --password-file --password --help' ;;
        hidden | books | comments | links | styles) echo '--files-from --null --out --force --skip-existing --json --quiet --codepage --password-file --password --help' ;;
        props | vba) echo '--files-from --null --out --force --skip-existing --help' ;;
        macros) echo '--files-from --null --out --force --skip-existing --json --help' ;;
        csv) echo '--files-from --null --out --force --skip-existing --sheet --number --all --delimiter --bom --as-shown --from-a1 --skip-hidden --exact --quiet --codepage --password-file --password --help' ;;
        remake | stream) echo '--password-file --password --help' ;;
        streams) echo '--help' ;;
    esac
}
# End.

# The names of the sheets of the first workbook among the words, in quotes where they need them.
_xls_sheets() {
    local word name
    for word in "${COMP_WORDS[@]:2}"; do
        if [[ -f $word ]]; then
            "$1" sheets -- "$word" 2> /dev/null | cut -f2 | while IFS= read -r name; do printf '%q\n' "$name"; done
            return
        fi
    done
}

# Files of workbooks, and folders.
_xls_files() {
    local IFS=$'\n'
    compopt -o filenames
    mapfile -t COMPREPLY < <(compgen -d -- "$1"; compgen -f -X '!*.[xX][lL][sStTaAwW]' -- "$1")
}

_xls() {
    local word=${COMP_WORDS[COMP_CWORD]} before=${COMP_WORDS[COMP_CWORD - 1]} command=dump
    if ((COMP_CWORD > 1)) && [[ " $_xls_commands " == *" ${COMP_WORDS[1]} "* ]]; then
        command=${COMP_WORDS[1]}
    fi
    COMPREPLY=()
    case $before in
        --files-from | --password-file)
            compopt -o filenames
            mapfile -t COMPREPLY < <(compgen -f -- "$word")
            return ;;
        --out)
            compopt -o filenames
            mapfile -t COMPREPLY < <(compgen -d -- "$word")
            return ;;
        --codepage)
            mapfile -t COMPREPLY < <(compgen -W '1200 1252 28591 65001' -- "$word")
            return ;;
        --delimiter)
            mapfile -t COMPREPLY < <(compgen -W 'tab' -- "$word")
            return ;;
        --sheet)
            mapfile -t COMPREPLY < <(_xls_sheets "$1" | grep -F -- "$word")
            return ;;
        --number | --password) return ;;
    esac
    if [[ $word == -* ]]; then
        local options
        options=$(_xls_options "$command")
        ((COMP_CWORD > 1)) || options="$options --version"
        mapfile -t COMPREPLY < <(compgen -W "$options" -- "$word")
        return
    fi
    _xls_files "$word"
    if ((COMP_CWORD == 1)); then
        mapfile -t -O "${#COMPREPLY[@]}" COMPREPLY < <(compgen -W "$_xls_commands help version" -- "$word")
    fi
}

complete -F _xls xls
