# shellcheck shell=bash
# What a shell completes behind `hstore`: the image as a file, the words, and what is known of their arguments. `hstore
# --install` puts it where bash looks for it. `bin/texts hstore write` writes the words, which are those of help.
_hstore() {
    local words='format format2 run session check scrub wipe upgrade dump load big mirror' choices='' files='' at=$COMP_CWORD
    local -a its=("${COMP_WORDS[@]}")
    [[ $at = 1 || ${its[1]} != --quiet ]] || its=("${its[@]:1}") at=$((at - 1))
    case "$at ${its[1]} ${its[2]-}" in
        '1 '*) choices='help --help --version --quiet --install --uninstall' files=-f ;;
        '2 help '*) choices="$words" ;;
        '2 --install '* | '2 --uninstall '*) files=-d ;;
        '2 -h '* | '2 --help '* | '2 --version '*) ;;
        '2 '*) choices="$words" ;;
        '3 '*' mirror') files=-f ;;
        '3 '*' format' | '3 '*' format2') choices='64 256 1024 4096 16384 65536' ;;
        '4 '*' format' | '4 '*' format2') choices='1 2 3 4 5 6 7 8' ;;
        '5 '*' format' | '5 '*' format2') choices='sha256 ruler' ;;
    esac
    # shellcheck disable=SC2086
    mapfile -t COMPREPLY < <(
        compgen -W "$choices" -- "${COMP_WORDS[COMP_CWORD]}"
        [ -z "$files" ] || compgen $files -- "${COMP_WORDS[COMP_CWORD]}"
    )
}
complete -o filenames -F _hstore hstore
