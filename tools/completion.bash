# Completion of avsserve's arguments for bash. tools/install.sh puts it where bash finds it; or, in ~/.bashrc:
#
#     source tools/completion.bash

_avsserve() {
    local word=${COMP_WORDS[COMP_CWORD]} before=${COMP_WORDS[COMP_CWORD - 1]} command=${COMP_WORDS[1]-}
    COMPREPLY=()
    if [ "$COMP_CWORD" = 1 ]; then
        mapfile -t COMPREPLY < <(compgen -W "render info selftest session replay" -- "$word")
        return
    fi
    # A number comes there.
    case $command:$before in
    selftest:* | render:--cache | render:--threads | session:--cache | replay:--cache | *:=) return ;;
    esac
    if [[ $command = session || $command = replay ]] && [[ $word = -* ]]; then
        mapfile -t COMPREPLY < <(compgen -W "--cache" -- "$word")
        return
    fi
    if [ "$command" = render ] && [[ $word = -* ]]; then
        mapfile -t COMPREPLY < <(compgen -W "--cache --threads --report --journal --plain" -- "$word")
        return
    fi
    compopt -o filenames 2>/dev/null
    # After the script comes the list of a session, or the journal of a replay, which may be any file.
    if [[ $command = session || $command = replay ]] && [ "$COMP_CWORD" -gt 2 ] && [[ $before = *.avs ]]; then
        mapfile -t COMPREPLY < <(compgen -f -- "$word")
        return
    fi
    # Scripts, and folders on the way to them.
    mapfile -t COMPREPLY < <(compgen -f -X '!*.avs' -- "$word"; compgen -d -- "$word")
}

complete -F _avsserve avsserve
