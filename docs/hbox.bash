# shellcheck shell=bash
# What a shell completes behind `hbox`: the words, their options, folders and files. `hstore --install` puts it where
# bash looks for it. `bin/texts hbox write` writes the words, which are those of help.
_hbox() {
    local words='create extract ls get rm mv mkdir attr compare check info map pack unpack' choices='' files='' common='--help --escaped --quiet --verbose --wait'
    local taken='--skip --no-mode --no-links --mtime --no-mtime'
    case "$COMP_CWORD ${COMP_WORDS[1]} ${COMP_WORDS[COMP_CWORD - 1]}" in
        '1 '*) choices="$words help --help --version" ;;
        '2 help '*) choices="$words" ;;
        *' create --draw') choices='ruler sha256' ;;
        *' create --seed') choices='random -' ;;
        *' create --slots' | *' create --height') ;;
        *' create '*) choices="--slots --height --draw --seed --empty --dry-run $taken $common" files=-f ;;
        *' ls '*) choices="-l -R -0 $common" files=-f ;;
        *' compare '*) choices="-0 $taken $common" files=-f ;;
        *' get --paths0-from' | *' rm --paths0-from') files=-f ;;
        *' attr -d') ;;
        *' rm '*) choices="-r -f --paths0-from $common" files=-f ;;
        *' get '*) choices="--paths0-from $common" files=-f ;;
        *' mv '*) choices="-f $common" files=-f ;;
        *' mkdir '*) choices="-p $common" files=-f ;;
        *' attr '*) choices="-d --hex $common" files=-f ;;
        *' extract '*) choices="$taken $common" files=-f ;;
        *' pack '* | *' unpack '*) choices="$taken $common" files=-d ;;
        *' check --digest') ;;
        *' check '*) choices="--digest $common" files=-f ;;
        *' info '* | *' map '*) choices="$common" files=-f ;;
    esac
    # shellcheck disable=SC2086
    mapfile -t COMPREPLY < <(
        compgen -W "$choices" -- "${COMP_WORDS[COMP_CWORD]}"
        [ -z "$files" ] || compgen $files -- "${COMP_WORDS[COMP_CWORD]}"
    )
}
complete -o filenames -F _hbox hbox
