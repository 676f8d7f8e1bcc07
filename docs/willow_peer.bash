# Completions of willow_peer for bash: the commands, the options that a command still takes, values that are fixed, and names
# of files in place. Read it by `. docs/willow_peer.bash`, or install it as `willow_peer` among the completions of bash.

# The options of each command.
declare -gA _willow_peer_options=(
    [join]="--namespace"
    [show]="--newest"
    [key]="--name --height"
    [grant]="--namespace --mode --user --key"
    [delegate]="--key --to --subspace --under --from --until"
    [write]="--key --path --time --length --digest --subspace"
    [meet]="--left --right --left-cap --right-cap --left-out --right-out --subspace --under --from --until --newest --bytes"
    [sync]="--image --cap --key --to --subspace --under --from --until --newest --bytes --follow"
    [serve]="--image --cap --key --at --links --log --subspace --under --from --until --newest --bytes --follow"
    [watch]="--image --subspace --under --from --until"
    [gen]="--rows"
    [drill]="--rows"
)

# The files of the current folder whose names may stand as values.
_willow_peer_names() {
    local name
    for name in *; do
        [[ -f $name && $name =~ ^[A-Za-z0-9][A-Za-z0-9._-]{0,127}$ ]] && echo "$name"
    done
}

# Those of them that are key files, as signers.
_willow_peer_signers() {
    local name magic
    for name in $(_willow_peer_names); do
        magic=
        IFS= read -r -N 4 magic 2> /dev/null < "$name"
        [[ $magic == WKY1 ]] && echo "lms:$name"
    done
}

# The values that an option of a command may have, one a line.
_willow_peer_values() {
    case $2 in
    --height) printf '%s\n' 5 10 ;;
    --mode) printf '%s\n' read write ;;
    --subspace) [[ $1 == write ]] || echo any ;;
    --until) echo none ;;
    --follow) echo yes ;;
    --key) echo open:; _willow_peer_signers ;;
    --image | --cap | --log | --left | --right | --left-cap | --right-cap | --left-out | --right-out) _willow_peer_names ;;
    esac
}

_willow_peer() {
    local line=${COMP_LINE:0:COMP_POINT} word words left option
    # The words as the program gets them: bash parts those of COMP_WORDS at each colon too.
    read -r -a words <<< "$line"
    local current=
    [[ $line == *[[:space:]] ]] || { current=${words[-1]}; unset 'words[-1]'; }
    local command=${words[1]:-} before=${words[-1]}
    COMPREPLY=()
    if [[ $before =~ ^[0-9]*[\<\>]+$ ]]; then
        compopt -o filenames 2> /dev/null
        mapfile -t COMPREPLY < <(compgen -f -- "$current")
    elif ((${#words[@]} == 1)); then
        mapfile -t COMPREPLY < <(compgen -W "${!_willow_peer_options[*]}" -- "$current")
    elif [[ $before == --* ]]; then
        mapfile -t COMPREPLY < <(compgen -W "$(_willow_peer_values "$command" "$before")" -- "$current")
    else
        for option in ${_willow_peer_options[$command]:-}; do
            for word in "${words[@]}"; do
                [[ $word == "$option" ]] && continue 2
            done
            left+=" $option"
        done
        mapfile -t COMPREPLY < <(compgen -W "$left" -- "$current")
    fi
    # What stands in front of a colon is there already. Behind `open:` its digits follow at once.
    [[ ${COMPREPLY[*]} == open: ]] && compopt -o nospace 2> /dev/null
    if [[ $current == *:* && $COMP_WORDBREAKS == *:* ]]; then
        COMPREPLY=("${COMPREPLY[@]#"${current%"${current##*:}"}"}")
    fi
}

complete -F _willow_peer willow_peer
