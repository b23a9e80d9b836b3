# Completions of dfc and dfc_view for bash.

_dfc() {
    local word=${COMP_WORDS[COMP_CWORD]} command=${COMP_WORDS[1]} options
    if [ "$COMP_CWORD" -eq 1 ]; then
        options='regions graph fire trace store forks regen run sample'
    else
        case $command in
        fire | trace | store) options='limit= picks= data= checked' ;;
        forks) options='nodes limit= picks= data= checked' ;;
        run) options='limit= data= checked' ;;
        regions | graph | regen) options='checked' ;;
        esac
    fi
    COMPREPLY=($(compgen -W "$options" -- "$word"))
    # A number follows the equals sign.
    case ${COMPREPLY[0]} in *=) compopt -o nospace ;; esac
}

_dfc_view() {
    local word=${COMP_WORDS[COMP_CWORD]} command=${COMP_WORDS[1]} options=
    if [ "$COMP_CWORD" -eq 1 ]; then
        options='chart rounds page deps independent check names run lower dot json profile --help -h --version'
    else
        COMPREPLY=($(compgen -f -- "$word"))
        case $command in
        rounds | page | profile | run) options='--wide limit= picks= data= checked forks' ;;
        json) options='--trace --wide limit= picks= data= checked forks' ;;
        dot) options='--regions --lines --wide checked' ;;
        deps) options='--json --wide checked' ;;
        check | names) options='--wide' ;;
        lower) options='--map' ;;
        *) options='--wide checked' ;;
        esac
        [ "$COMP_CWORD" -eq 2 ] && options="$options --help"
    fi
    COMPREPLY+=($(compgen -W "$options" -- "$word"))
    # A number follows the equals sign.
    case ${COMPREPLY[0]} in *=) compopt -o nospace ;; esac
}

complete -F _dfc dfc
complete -F _dfc_view dfc_view
