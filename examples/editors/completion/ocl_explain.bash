# completion of ocl_explain for bash
_ocl_explain() {
    local word=${COMP_WORDS[COMP_CWORD]} place=0 at options kinds
    if [ "$COMP_CWORD" = 1 ]; then
        mapfile -t COMPREPLY < <(compgen -W "judge compile verify bound desk eval examples list schema show summary test why --help --version" -- "$word")
        return
    fi
    case ${COMP_WORDS[1]} in
        judge) options="--text --budget --format --json --rule --why --max --lines --also --search" kinds=(json json file) ;;
        compile) options="--also --search" kinds=(json file file) ;;
        verify) options="" kinds=(json file) ;;
        bound) options="" kinds=(json json file) ;;
        desk) options="" kinds=(json json file file) ;;
        eval) options="" kinds=(json json word word) ;;
        examples) options="--rule --verdict --others-hold --seed --tries --objects" kinds=(json file file) ;;
        list) options="" kinds=(file json) ;;
        schema) options="" kinds=(json) ;;
        show) options="" kinds=(file json) ;;
        summary) options="--csv" kinds=(file) ;;
        test) options="--accept" kinds=(file json file) ;;
        why) options="--lines --max" kinds=(json json file word word) ;;
        *) return ;;
    esac
    for ((at = 2; at < COMP_CWORD; at++)); do
        case ${COMP_WORDS[at]} in
            --also|--budget|--csv|--format|--lines|--max|--objects|--rule|--seed|--tries|--verdict)
                ((++at))
                if [ "${COMP_WORDS[at]}" = = ]; then ((++at)); fi
                ;;
            -?*) ;;
            *) ((++place)) ;;
        esac
    done
    COMPREPLY=()
    # (the value of an option is none of the words)
    if ((at > COMP_CWORD)); then
        at=${COMP_WORDS[COMP_CWORD - 1]}
        if [ "$at" = = ]; then at=${COMP_WORDS[COMP_CWORD - 2]}; fi
        case $at in
            --verdict) mapfile -t COMPREPLY < <(compgen -W "holds fails undecided" -- "$word") ;;
            --format) mapfile -t COMPREPLY < <(compgen -W "text json github junit sarif html" -- "$word") ;;
            --csv) mapfile -t COMPREPLY < <(compgen -W "deliveries rules" -- "$word") ;;
            --also) mapfile -t COMPREPLY < <(compgen -f -- "$word") ;;
        esac
        return
    fi
    if [[ $word == -* ]]; then
        mapfile -t COMPREPLY < <(compgen -W "$options --help" -- "$word")
        return
    fi
    compopt -o filenames 2>/dev/null
    case ${kinds[place]} in
        json)
            mapfile -t COMPREPLY < <(compgen -f -X '!*.json' -- "$word")
            if ((${#COMPREPLY[@]})); then
                mapfile -t -O "${#COMPREPLY[@]}" COMPREPLY < <(compgen -d -- "$word")
            else
                mapfile -t COMPREPLY < <(compgen -f -- "$word")
            fi
            ;;
        file) mapfile -t COMPREPLY < <(compgen -f -- "$word") ;;
    esac
}
complete -F _ocl_explain ocl_explain
