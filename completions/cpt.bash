# Completion of cpt's commands, options and files for bash: . completions/cpt.bash
_cpt() {
    local word=${COMP_WORDS[COMP_CWORD]} before=${COMP_WORDS[COMP_CWORD-1]} command=${COMP_WORDS[1]}
    local commands="solve prove check trim explain-cert validate explain tighten ground export validate-task validate-json bench" kinds=() ending
    COMPREPLY=()
    if ((COMP_CWORD == 1)); then
        mapfile -t COMPREPLY < <(compgen -W "$commands" -- "$word")
        return
    fi
    case $command in
        solve) kinds=(pddl pddl) ;;
        prove) kinds=(pddl pddl) ;;
        check) kinds=(pddl pddl cert) ;;
        trim) kinds=(pddl pddl cert) ;;
        explain-cert) kinds=(pddl pddl cert) ;;
        validate) kinds=(pddl pddl plan) ;;
        explain) kinds=(pddl pddl plan) ;;
        tighten) kinds=(pddl pddl plan) ;;
        ground) kinds=(pddl pddl) ;;
        export) kinds=(pddl pddl) ;;
        validate-task) kinds=(task plan) ;;
        validate-json) kinds=(json json) ;;
    esac
    [[ $command == bench ]] && return
    if ((COMP_CWORD - 1 > ${#kinds[@]})); then
        # Options stand behind the names, and each has its number as the next word.
        case $command:$before in
            *:--max | *:--nodes | *:--cert) ;;
            solve:*) mapfile -t COMPREPLY < <(compgen -W "--max --nodes" -- "$word") ;;
            prove:*) mapfile -t COMPREPLY < <(compgen -W "--max --nodes --cert" -- "$word") ;;
        esac
        return
    fi
    ending=${kinds[COMP_CWORD-2]}
    mapfile -t COMPREPLY < <(compgen -f -X "!*.$ending" -- "$word"; compgen -d -S / -- "$word")
    # Where no file has the usual ending, any file will do.
    ((${#COMPREPLY[@]})) || mapfile -t COMPREPLY < <(compgen -f -- "$word")
    [[ ${COMPREPLY[0]} == */ ]] && compopt -o nospace
}
complete -F _cpt cpt ./cpt ../cpt ../../cpt
