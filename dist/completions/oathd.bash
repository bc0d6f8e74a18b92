# bash completion for oathd(8)
_oathd() {
    local cur prev words cword split command options= files=
    local commands='lines sim cluster init serve export audit migrate floors level gates unlock roster status drain check new-key new-cluster secret version help'
    _init_completion -s || return
    if ((cword == 1)); then
        COMPREPLY=($(compgen -W "$commands --help --version" -- "$cur"))
        return
    fi
    case $prev in
        --key | --cluster | --clients | --floors | --operator) _filedir; return ;;
        --members)
            [[ ${words[1]} != floors ]] || COMPREPLY=($(compgen -W '1 2 3 4 5 6 7 8 9' -- "$cur"))
            return ;;
        --node | --members-were) COMPREPLY=($(compgen -W '1 2 3 4 5 6 7 8 9' -- "$cur")); return ;;
        --look-ahead | --skew | --range | --drift | --moment | --turns | --lost | --since | --log-to) return ;;
    esac
    command=${words[1]}
    case $command in
        lines | sim) options='--cluster --look-ahead --skew --range --drift --moment --key' ;;
        cluster) options='--cluster --look-ahead --skew --range --drift --moment --key' files=yes ;;
        init) options='--node --cluster --skew --drift --moment --lost --anew --floors --since --begins' files=yes ;;
        serve)
            options='--node --cluster --members --key --look-ahead --skew --range --drift --clients --plain-lines'
            options+=' --turns --forever --log --log-to --reload' files=yes ;;
        export | audit | gates | unlock) options='--node --cluster' files=yes ;;
        roster) options='--node --cluster --drop-retired' files=yes ;;
        migrate) options='--node --cluster --members-were' files=yes ;;
        floors) options='--node --members --cluster' files=yes ;;
        level) options='--node --floors --cluster' files=yes ;;
        status) options='--cluster --operator --node' ;;
        drain) options='--operator --node' ;;
        check) options='--cluster' files=yes ;;
        secret) options='--stdin' ;;
        new-key | new-cluster | version) ;;
        help) ((cword == 2)) && COMPREPLY=($(compgen -W "$commands" -- "$cur")); return ;;
        *) return ;;
    esac
    if [[ $cur == -* ]]; then
        COMPREPLY=($(compgen -W "$options --help" -- "$cur"))
    elif [[ $files ]]; then
        _filedir
    fi
}
complete -F _oathd oathd
