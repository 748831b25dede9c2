# Completion of xabatch in bash: commands, options and file names. Read by the package bash-completion from
# PREFIX/share/bash-completion/completions/xabatch, or by 'source xabatch.bash'.
#
# Commands and options are those that the tool's own help names, so they are of its version.

# The usage in the help of a command, or of all: everything before the first empty line.
_xabatch_usage() {
    "${COMP_WORDS[0]/#\~/$HOME}" help "$@" 2> /dev/null | sed '/^$/q'
}

_xabatch() {
    local current="${COMP_WORDS[COMP_CWORD]}" command="${COMP_WORDS[1]}" words=""
    COMPREPLY=()
    if [ "$COMP_CWORD" -eq 1 ] || { [ "$COMP_CWORD" -eq 2 ] && [ "$command" = help ]; }; then
        words="$(_xabatch_usage | sed -n 's/^[usage: ]*xabatch \([a-z-]*\).*/\1/p')"
    elif [ "$COMP_CWORD" -eq 2 ] && [ "$command" = names ] && [[ "$current" != -* ]]; then
        words="$(_xabatch_usage names | sed -n 's/^[usage: ]*xabatch names \([a-z]*\).*/\1/p')"
    elif [[ "$current" == -* ]]; then
        words="$(_xabatch_usage "$command" | grep -o -e '--[a-z-]*') --help"
    else
        mapfile -t COMPREPLY < <(compgen -f -- "$current")
        return
    fi
    mapfile -t COMPREPLY < <(compgen -W "$words" -- "$current")
}

complete -o filenames -F _xabatch xabatch
