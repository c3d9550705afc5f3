# bash's completion of lrcman: its words, and what stands behind each of them.
_lrcman() {
    local word=${COMP_WORDS[COMP_CWORD]} first=${COMP_WORDS[1]} words=
    if [ "$COMP_CWORD" -eq 1 ]; then
        words="run check resume image show may-stop may-lose recover recover6 recipe recipe6 matrix matrix6"
    elif [ "$first" = show ] && [ "$COMP_CWORD" -eq 2 ]; then
        words="status stripes nodes leases work fragments domains health capacity"
    elif [ "$first" = may-stop ] || [ "$first" = may-lose ] || [ "${COMP_WORDS[2]}" = domains ]; then
        words="fault upgrade"
    fi
    mapfile -t COMPREPLY < <(compgen -W "$words" -- "$word")
}
# (-o default completes the names of files behind < and >)
complete -o default -F _lrcman lrcman
