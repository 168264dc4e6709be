#compdef hstore
# What a shell completes behind `hstore`, as docs/hstore.bash does. `hstore --install` puts it where zsh looks for it.
# `bin/texts hstore write` writes the words. .ci/brought tries it where there is a zsh.
local -a its=(format format2 run session check scrub wipe upgrade dump load big mirror)
if [[ $CURRENT -gt 2 && $words[2] = --quiet ]]; then
    shift words
    ((CURRENT--))
fi
case $CURRENT in
    2)
        compadd -- help --help --version --quiet --install --uninstall
        _files
        ;;
    3)
        case $words[2] in
            help) compadd -a its ;;
            --install | --uninstall) _files -/ ;;
            -h | --help | --version) ;;
            *) compadd -a its ;;
        esac
        ;;
    4)
        [[ $words[3] != format(2|) ]] || compadd 64 256 1024 4096 16384 65536
        [[ $words[3] != mirror ]] || _files
        ;;
    5) [[ $words[3] != format(2|) ]] || compadd 1 2 3 4 5 6 7 8 ;;
    6) [[ $words[3] != format(2|) ]] || compadd sha256 ruler ;;
esac
