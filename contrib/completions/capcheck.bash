# Completion in bash for capcheck, capcheck-truss, capcheck-annotate and capcheck-whatif. Commands and options are those that
# `--help` lists. Where nothing is offered here, bash completes file names.

# The options of a program, or of one of its commands: those at the head of a line of its help.
_capcheck_options() {
    "$@" --help 2>/dev/null </dev/null | awk '/^ +-/ {
        sub(/^ +/, ""); sub(/  .*/, "")
        count = split($0, words, /[ ,]+/)
        for (at = 1; at <= count; at++) {
            sub(/[=\[].*/, "", words[at])
            if (words[at] ~ /^--?[A-Za-z][A-Za-z-]*$/) print words[at]
        }
    }'
}

# The commands of capcheck: what its help lists, and help itself.
_capcheck_commands() {
    "$1" --help 2>/dev/null </dev/null | awk '/^Commands:/ { on = 1; next } !/^  / { on = 0 } on && /^  [a-z]/ && $1 != "help" { print $1 }'
    echo help
}

# The command that was typed, if any: the first word that is neither an option nor the value of one.
_capcheck_command() {
    local at
    for ((at = 1; at < COMP_CWORD; at++)); do
        case ${COMP_WORDS[at]} in
            -p|--profile|-s|--start|=) ((at++));;
            -*) ;;
            *) echo "${COMP_WORDS[at]}"; return;;
        esac
        [[ ${COMP_WORDS[at]} == = ]] && ((at++))
    done
}

_capcheck() {
    local word=${COMP_WORDS[COMP_CWORD]} before=${COMP_WORDS[COMP_CWORD - 1]}
    local program=${COMP_WORDS[0]/#\~/$HOME} command offered=
    [[ $before == = ]] && before=${COMP_WORDS[COMP_CWORD - 2]}
    [[ $word == = ]] && word=
    [[ ${program##*/} == capcheck ]] && command=$(_capcheck_command)
    case $before in
        -p|--profile) offered="1 2";;
        --format) offered="text html json gcc";;
        --kernel) offered="12 13 14 15";;
        -s|--start|-o|--output|--capcheck|--pid) ;;
        *)
            if [[ $word == -* ]]; then
                offered=$(_capcheck_options "$program" ${command:+"$command"})
            elif [[ ${program##*/} == capcheck && ( -z $command || $command == help ) ]]; then
                offered=$(_capcheck_commands "$program")
            fi;;
    esac
    COMPREPLY=($(compgen -W "$offered" -- "$word"))
}

complete -o default -F _capcheck capcheck capcheck-truss capcheck-annotate capcheck-whatif
