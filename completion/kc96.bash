# Completion of kc96's words for bash: the commands, the options that a command takes, that do not stand yet and that go with those
# that do, and files.

# Offers the folders and the files whose names begin as a word does: those that end as a kind does, or all where none is given. Names
# come from globs and not from lines, so that one with a newline stays whole.
_kc96_files() {
    local begins=$1 kind=$2 home= file options
    begins=${begins#[\"\']}
    [[ $1 == \'* ]] || begins=${begins//\\/}
    if [[ $begins == "~/"* ]]; then
        home=$HOME
        begins=$HOME${begins#"~"}
    fi
    options=$(shopt -p nullglob failglob)
    shopt -s nullglob
    shopt -u failglob
    for file in "$begins"*; do
        if [[ -z $kind || -d $file || $file == *."$kind" ]]; then
            [[ -z $home ]] || file="~${file#"$home"}"
            COMPREPLY+=("$file")
        fi
    done
    eval "$options"
}

# Whether a word stands on the line already, beside the one that is completed.
_kc96_stands() {
    local at
    for at in "${!COMP_WORDS[@]}"; do
        [[ $at -eq $COMP_CWORD || ${COMP_WORDS[at]} != "$1" ]] || return 0
    done
    return 1
}

_kc96() {
    local word=${COMP_WORDS[COMP_CWORD]} before=${COMP_WORDS[COMP_CWORD - 1]} command=${COMP_WORDS[1]}
    local options files option left=
    COMPREPLY=()
    if [ "$COMP_CWORD" -eq 1 ]; then
        mapfile -t COMPREPLY < <(compgen -W 'run asm lib link hex dis debug vcd check bound gen explain --help --version' -- "$word")
        return
    fi
    case $command in
    run) options='--states --lives --profile --cover --stim --analog --reg --code --data --stack' files='a96' ;;
    asm) options='--out --list' files='a96' ;;
    lib) options='--out' files='obj' ;;
    link) options='--out --lib --lines --map --reg --code --data --stack' files='obj' ;;
    hex) options='--states --lives --profile --stim --analog' files='hex' ;;
    dis) options='' files='hex' ;;
    vcd) options='--out --stim --analog --clock' files='trace' ;;
    check) options='--stim --clock' files='trace' ;;
    bound) options='--to --notes --map --lines --entered --latency --worst' files='hex' ;;
    debug) options='--lives --stim --analog --lines' files='hex' ;;
    *) return ;;
    esac
    case $before in
    --stim | --analog | --out | --lib | --list | --lines | --map | --notes | --profile | --cover)
        compopt -o filenames
        _kc96_files "$word"
        return
        ;;
    --states | --lives | --clock | --to | --reg | --code | --data | --stack) return ;;
    esac
    for option in $options; do
        _kc96_stands "$option" && continue
        left="$left $option"
    done
    if [[ $word == -* ]]; then
        mapfile -t COMPREPLY < <(compgen -W "$left" -- "$word")
        return
    fi
    compopt -o filenames 2>/dev/null
    # Files of the command's kind and folders; any file where none is of that kind.
    _kc96_files "$word" "$files"
    [ "${#COMPREPLY[@]}" -gt 0 ] || _kc96_files "$word"
}
complete -F _kc96 kc96
