# completions of zkc for bash
_zkc() {
    local word=${COMP_WORDS[COMP_CWORD]} before=${COMP_WORDS[COMP_CWORD-1]}
    COMPREPLY=()
    if [ "$COMP_CWORD" = 1 ]; then
        COMPREPLY=($(compgen -W 'build pp list run interp explain show check verify frames symbols image size lsp -h --help -V --version' -- "$word"))
        return
    fi
    case ${COMP_WORDS[1]}:$before in
    build:--stack) return ;;
    list:--stack) return ;;
    run:--max) return ;;
    run:--at) return ;;
    run:--stack) return ;;
    interp:--stack) return ;;
    interp:--max) return ;;
    explain:--color) COMPREPLY=($(compgen -W 'auto always never' -- "$word")); return ;;
    explain:--stack) return ;;
    explain:--max) return ;;
    explain:--errors) return ;;
    show:--stack) return ;;
    check:--stack) return ;;
    verify:--stack) return ;;
    verify:--effort) return ;;
    frames:--stack) return ;;
    symbols:--stack) return ;;
    esac
    case ${COMP_WORDS[1]} in
    build) case $word in -*) COMPREPLY=($(compgen -W '--stack -o --listing --plain -I -D -U --depend --depend-file --depend-target --depend-phony -S -E --list-files -h --help' -- "$word")) ;; *) mapfile -t COMPREPLY < <(compgen -f -- "$word") ;; esac ;;
    pp) case $word in -*) COMPREPLY=($(compgen -W '--lines -o -I -D -U --list-files -h --help' -- "$word")) ;; *) mapfile -t COMPREPLY < <(compgen -f -- "$word") ;; esac ;;
    list) case $word in -*) COMPREPLY=($(compgen -W '--stack --labels --abi --source -o -I -D -U -h --help' -- "$word")) ;; *) mapfile -t COMPREPLY < <(compgen -f -- "$word") ;; esac ;;
    run) case $word in -*) COMPREPLY=($(compgen -W '--max --trace --trace-file --at --map --stack -I -D -U -h --help' -- "$word")) ;; *) mapfile -t COMPREPLY < <(compgen -f -- "$word") ;; esac ;;
    interp) case $word in -*) COMPREPLY=($(compgen -W '--stack --max --trace --trace-file --json -I -D -U -h --help' -- "$word")) ;; *) mapfile -t COMPREPLY < <(compgen -f -- "$word") ;; esac ;;
    explain) [ "$COMP_CWORD" = 2 ] && { COMPREPLY=($(compgen -W 'build interp pp' -- "$word")); return; }; case $word in -*) COMPREPLY=($(compgen -W '--json --sarif --color --stack --max --errors -I -D -U -h --help' -- "$word")) ;; *) mapfile -t COMPREPLY < <(compgen -f -- "$word") ;; esac ;;
    show) [ "$COMP_CWORD" = 2 ] && { COMPREPLY=($(compgen -W 'tokens tree typed tac flat passes items' -- "$word")); return; }; case $word in -*) COMPREPLY=($(compgen -W '--json --stack -o -I -D -U -h --help' -- "$word")) ;; *) mapfile -t COMPREPLY < <(compgen -f -- "$word") ;; esac ;;
    check) case $word in -*) COMPREPLY=($(compgen -W '--warn --werror --json --sarif --stack -I -D -U -h --help' -- "$word")) ;; *) mapfile -t COMPREPLY < <(compgen -f -- "$word") ;; esac ;;
    verify) case $word in -*) COMPREPLY=($(compgen -W '-o --json --sarif --stack --effort -I -D -U -h --help' -- "$word")) ;; *) mapfile -t COMPREPLY < <(compgen -f -- "$word") ;; esac ;;
    frames) case $word in -*) COMPREPLY=($(compgen -W '--stack --sizes -I -D -U -h --help' -- "$word")) ;; *) mapfile -t COMPREPLY < <(compgen -f -- "$word") ;; esac ;;
    symbols) case $word in -*) COMPREPLY=($(compgen -W '--stack -o -I -D -U -h --help' -- "$word")) ;; *) mapfile -t COMPREPLY < <(compgen -f -- "$word") ;; esac ;;
    image) case $word in -*) COMPREPLY=($(compgen -W '--bin --ihex --memh -h --help' -- "$word")) ;; *) mapfile -t COMPREPLY < <(compgen -f -- "$word") ;; esac ;;
    size) case $word in -*) COMPREPLY=($(compgen -W '-h --help' -- "$word")) ;; *) mapfile -t COMPREPLY < <(compgen -f -- "$word") ;; esac ;;
    lsp) case $word in -*) COMPREPLY=($(compgen -W '--stdio -h --help' -- "$word")) ;; *) mapfile -t COMPREPLY < <(compgen -f -- "$word") ;; esac ;;
    esac
}
complete -o filenames -F _zkc zkc
