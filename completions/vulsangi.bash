# Completions of vulsangi for bash. The install puts it where bash-completion finds it; else: source completions/vulsangi.bash

_vulsangi() {
    local current=${COMP_WORDS[COMP_CWORD]} before=${COMP_WORDS[COMP_CWORD - 1]} word
    local IFS=$'\n'
    COMPREPLY=()
    case $before in
        --explain)
            return
            ;;
        -f | --format)
            if [[ ${COMP_WORDS[1]} = check ]]; then
                mapfile -t COMPREPLY < <(compgen -W $'text\njson\nsarif' -- "$current")
                return
            fi
            mapfile -t COMPREPLY < <(compgen -W $'terminal\nhtml\nclasses\ncss\nlatex' -- "$current")
            return
            ;;
        --color)
            mapfile -t COMPREPLY < <(compgen -W $'auto\nalways\nnever' -- "$current")
            return
            ;;
        -l | --language)
            # a name may have spaces
            while IFS= read -r word; do
                COMPREPLY+=("$(printf '%q' "$word")")
            done < <(compgen -W "$(vulsangi -L 2> /dev/null | sed 's/   *.*//')" -- "$current")
            return
            ;;
        --theme | --light | --dark)
            mapfile -t COMPREPLY < <(
                compgen -W "$(vulsangi --list-themes --color never 2> /dev/null)" -- "$current"
                compgen -f -- "$current"
            )
            return
            ;;
        --grammars)
            mapfile -t COMPREPLY < <(compgen -d -- "$current")
            return
            ;;
        --file-name | -r | --line-range | -H | --highlight-line)
            return
            ;;
    esac
    case $current in
        -*)
            mapfile -t COMPREPLY < <(compgen -W $'-l\n--language\n--file-name\n--strict\n-r\n--line-range\n-n\n--number
-H\n--highlight-line\n-f\n--format\n-o\n--output\n--fragment\n--color\n--theme\n--light\n--dark\n--grammars
-L\n--list-languages\n--list-themes\n-h\n--help\n-V\n--version' -- "$current")
            ;;
        *)
            mapfile -t COMPREPLY < <(
                [[ $COMP_CWORD -ne 1 ]] || compgen -W 'check convert scopes test' -- "$current"
                compgen -f -- "$current"
            )
            ;;
    esac
}

complete -o filenames -F _vulsangi vulsangi
