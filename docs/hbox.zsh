#compdef hbox
# What a shell completes behind `hbox`, as docs/hbox.bash does. `hstore --install` puts it where zsh looks for it.
# `bin/texts hbox write` writes the words. .ci/brought tries it where there is a zsh.
local -a its=(create extract ls get rm mv mkdir attr compare check info map pack unpack)
local -a common=(--help --escaped --quiet --verbose --wait)
local -a taken=(--skip --no-mode --no-links --mtime --no-mtime)
if ((CURRENT == 2)); then
    compadd -a its
    compadd -- help --help --version
    return
fi
case "$words[2] $words[CURRENT-1]" in
    'help '*) ((CURRENT > 3)) || compadd -a its ;;
    'create --draw') compadd -- ruler sha256 ;;
    'create --seed') compadd -- random - ;;
    'create --slots' | 'create --height') ;;
    'create '*)
        compadd -- --slots --height --draw --seed --empty --dry-run
        compadd -a taken
        compadd -a common
        _files
        ;;
    'ls '*)
        compadd -- -l -R -0
        compadd -a common
        _files
        ;;
    'compare '*)
        compadd -- -0
        compadd -a taken
        compadd -a common
        _files
        ;;
    'get --paths0-from' | 'rm --paths0-from') _files ;;
    'attr -d') ;;
    'rm '*)
        compadd -- -r -f --paths0-from
        compadd -a common
        _files
        ;;
    'get '*)
        compadd -- --paths0-from
        compadd -a common
        _files
        ;;
    'mv '*)
        compadd -- -f
        compadd -a common
        _files
        ;;
    'mkdir '*)
        compadd -- -p
        compadd -a common
        _files
        ;;
    'attr '*)
        compadd -- -d --hex
        compadd -a common
        _files
        ;;
    'extract '* | 'pack '* | 'unpack '*)
        compadd -a taken
        compadd -a common
        _files
        ;;
    'check --digest') ;;
    'check '*)
        compadd -- --digest
        compadd -a common
        _files
        ;;
    'info '* | 'map '*)
        compadd -a common
        _files
        ;;
esac
