# completion of ocl_check for bash
_ocl_check() {
    local word=${COMP_WORDS[COMP_CWORD]} place=0 at options kinds
    if [ "$COMP_CWORD" = 1 ]; then
        mapfile -t COMPREPLY < <(compgen -W "judge compile verify bound desk --help --version" -- "$word")
        return
    fi
    case ${COMP_WORDS[1]} in
        judge) options="--text --budget" kinds=(json json file) ;;
        compile) options="" kinds=(json file file) ;;
        verify) options="" kinds=(json file) ;;
        bound) options="" kinds=(json json file) ;;
        desk) options="" kinds=(json json file file) ;;
        *) return ;;
    esac
    for ((at = 2; at < COMP_CWORD; at++)); do
        case ${COMP_WORDS[at]} in
            --budget)
                ((++at))
                if [ "${COMP_WORDS[at]}" = = ]; then ((++at)); fi
                ;;
            -?*) ;;
            *) ((++place)) ;;
        esac
    done
    COMPREPLY=()
    # (the value of an option is none of the words)
    if ((at > COMP_CWORD)); then
        at=${COMP_WORDS[COMP_CWORD - 1]}
        if [ "$at" = = ]; then at=${COMP_WORDS[COMP_CWORD - 2]}; fi
        case $at in
            *) ;;
        esac
        return
    fi
    if [[ $word == -* ]]; then
        mapfile -t COMPREPLY < <(compgen -W "$options --help" -- "$word")
        return
    fi
    compopt -o filenames 2>/dev/null
    case ${kinds[place]} in
        json)
            mapfile -t COMPREPLY < <(compgen -f -X '!*.json' -- "$word")
            if ((${#COMPREPLY[@]})); then
                mapfile -t -O "${#COMPREPLY[@]}" COMPREPLY < <(compgen -d -- "$word")
            else
                mapfile -t COMPREPLY < <(compgen -f -- "$word")
            fi
            ;;
        file) mapfile -t COMPREPLY < <(compgen -f -- "$word") ;;
    esac
}
complete -F _ocl_check ocl_check
