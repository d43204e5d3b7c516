# Completes the words of bayou in bash.
_bayou() {
    local word=${COMP_WORDS[COMP_CWORD]} before=${COMP_WORDS[COMP_CWORD - 1]} command='' words
    [ "$COMP_CWORD" -lt 2 ] || command=${COMP_WORDS[1]}
    case $command in
        '') words='run net audit check serve connect key renew export import web help -h --help -V --version' ;;
        run) words='--json -h --help' ;;
        audit) words='--explain --all --json --picture -h --help' ;;
        check) words='--json -h --help' ;;
        net) words='--dir -h --help' ;;
        serve)
            words='--id --servers --dir --listen --peer --key --every --limit --connections --idle'
            words+=' --until-input-ends --new --restore --without --anyone -h --help'
            ;;
        connect) words='--server --servers --session --key --state --book --log --wait --timeout --json -h --help' ;;
        key) words='--name -h --help' ;;
        renew) words='--id --servers --dir --to --at --servers-then --without --full -h --help' ;;
        export) words='--server --servers --key --timeout --dir --id -h --help' ;;
        import) words='--server --servers --key --state --wait --timeout -h --help' ;;
        web) words='--server --servers --session --key --state --name --listen --timeout -h --help' ;;
        help) words='run net audit check serve connect key renew export import web help' ;;
        *) words='' ;;
    esac
    COMPREPLY=()
    if [[ $command$before == @(net|serve|renew|export)--dir || $command$before == renew--to ]]; then
        mapfile -t COMPREPLY < <(compgen -d -- "$word")
    elif [[ $command$before == @(serve|export|web)--key || $command$before == web--state ]]; then
        mapfile -t COMPREPLY < <(compgen -f -- "$word")
    elif [[ $word == -* || -z $command || $command == @(help|serve|renew|export|web) ]]; then
        mapfile -t COMPREPLY < <(compgen -W "$words" -- "$word")
    else
        mapfile -t COMPREPLY < <(compgen -f -- "$word")
    fi
}
complete -o filenames -F _bayou bayou
