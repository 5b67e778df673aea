# Sourced by the scripts that look at many things: counts what passed and what failed.
passed=0
failed=0
left_out=()

tally() { # what was looked at, and the status of the look
    if [ "$2" -eq 0 ]; then
        passed=$((passed + 1))
    else
        failed=$((failed + 1))
        printf 'failed: %s\n' "$1"
    fi
}

# Whether the tools of a part are here. Without one the part fails, unless SITEMESH_ALLOW_MISSING names the tool: then it
# is left out.
have() { # the part, then its tools
    local part=$1 tool
    shift
    for tool in "$@"; do
        [ -n "$(command -v "$tool")" ] && continue
        if [[ " ${SITEMESH_ALLOW_MISSING:-} " == *" $tool "* ]]; then
            left_out+=("$part ($tool is not here)")
        else
            tally "$part: $tool is not here" 1
        fi
        return 1
    done
}

# The last line of every such script, and before it what was left out; the status is 0 only where nothing failed.
tell_tally() {
    [ "${#left_out[@]}" -eq 0 ] || printf 'left out: %s\n' "${left_out[@]}"
    printf '%d passed, %d failed\n' "$passed" "$failed"
    [ "$failed" -eq 0 ]
}
