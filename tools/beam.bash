# Completion of bash for beam and ./beam.

_beam() {
    local word=${COMP_WORDS[COMP_CWORD]} first=1
    [ "${COMP_WORDS[1]}" = --unproved ] && first=2
    COMPREPLY=()
    if [ "$COMP_CWORD" -le "$first" ]; then
        local words="run check why progress make trial"
        [ "$first" -eq 1 ] && words="$words rehearse prove --unproved --help --version"
        mapfile -t COMPREPLY < <(compgen -W "$words" -- "$word")
    elif [ "${COMP_WORDS[COMP_CWORD - 1]}" = --schedulers ]; then
        mapfile -t COMPREPLY < <(compgen -W "1 2 3 4 5 6 7 8 9 10 11 12 13 14 15 16" -- "$word")
    elif [[ ${COMP_WORDS[first]} == make || ${COMP_WORDS[first]} == trial ]]; then
        _beam_option "${COMP_WORDS[first]}" $((COMP_CWORD - first)) "$word"
    else
        _beam_files "${COMP_WORDS[first]}" $((COMP_CWORD - first)) "$word"
    fi
}

# The option of a form that makes a script, at a place behind its first word.
_beam_option() {
    local option=
    case $1.$2 in
        *.1) option=--seed ;;
        *.3) option=--size ;;
        trial.5) option=--schedulers ;;
    esac
    mapfile -t COMPREPLY < <(compgen -W "$option" -- "$3")
}

# The files that a form may take at a place behind its first word, and the option of run.
_beam_files() {
    local ending=
    case $1.$2 in
        prove.1)
            mapfile -t COMPREPLY < <(compgen -W "--anyway" -- "$3")
            return
            ;;
        run.1)
            mapfile -t COMPREPLY < <(compgen -W "--schedulers" -- "$3")
            ending=script
            ;;
        rehearse.1)
            mapfile -t COMPREPLY < <(compgen -W "--times --schedulers --keep --json --limit --jobs" -- "$3")
            ending=script
            ;;
        run.3 | check.1 | why.1) ending=script ;;
        check.2 | why.2) ending=report ;;
        progress.1) ending=events ;;
        *) return ;;
    esac
    compopt -o filenames 2>/dev/null
    local file
    while IFS= read -r file; do
        COMPREPLY+=("$file")
    done < <(compgen -f -X "!*.$ending" -- "$3"; compgen -d -- "$3")
}

complete -F _beam beam ./beam
