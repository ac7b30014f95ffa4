# Completion of capnp_canon for bash: its commands, options and files. tests/completion.py compares it with `--help`.
_capnp_canon() {
    local word=${COMP_WORDS[COMP_CWORD]} before=${COMP_WORDS[COMP_CWORD - 1]} command='' ended='' at
    COMPREPLY=()
    case $before in
    --nesting | --at | --depth) return ;;
    --words | --bytes) COMPREPLY=($(compgen -W none -- "$word")) && return ;;
    esac
    for ((at = 1; at < COMP_CWORD; at++)); do
        case ${COMP_WORDS[at]} in
        canon | check | size | digest | validate | show | diff) command=${command:-${COMP_WORDS[at]}} ;;
        --) ended=yes ;;
        esac
    done
    local options='--packed --from-flat --nesting --words --progress --no-progress --help --version'
    case $command in
    canon) options="--flat --pack --hex --at $options" ;;
    check | diff) options="--quiet --flat $options" ;;
    validate) options="--schema --quiet --flat $options" ;;
    size) options="--flat --at $options" ;;
    digest) options="--check --quiet --flat --at $options" ;;
    show) options="--json --values --color --depth --bytes --flat --at $options" ;;
    *) options="--flat --pack --hex --quiet --check --schema --at --json --values --color --depth --bytes $options" ;;
    esac
    if [[ $word == -* && ! $ended ]]; then
        COMPREPLY=($(compgen -W "$options" -- "$word"))
    elif [[ $command ]]; then
        compopt -o filenames 2>/dev/null
        local IFS=$'\n'
        COMPREPLY=($(compgen -f -- "$word"))
    else
        COMPREPLY=($(compgen -W 'canon check size digest validate show diff' -- "$word"))
    fi
}
complete -F _capnp_canon capnp_canon
