# Completions of deparohi for bash.
_deparohi() {
    local word=${COMP_WORDS[COMP_CWORD]} before=${COMP_WORDS[COMP_CWORD - 1]} command=${COMP_WORDS[1]} every="--explain --quiet --help"
    local import="--imported --container --cores --ram --environment --allow-outside --leave-javascript --force-docker-as-hint"
    if [ "$COMP_CWORD" -eq 1 ]; then
        COMPREPLY=($(compgen -W "run plan check record demo help --help --version" -- "$word"))
        return
    fi
    case $before in
    --work | --outdir | --archive | --cache | --imported)
        mapfile -t COMPREPLY < <(compgen -d -- "$word")
        return
        ;;
    --record)
        mapfile -t COMPREPLY < <(compgen -f -- "$word")
        return
        ;;
    --slots)
        COMPREPLY=($(compgen -W "all" -- "$word"))
        return
        ;;
    --container)
        COMPREPLY=($(compgen -W "docker podman apptainer" -- "$word"))
        return
        ;;
    --launcher)
        COMPREPLY=($(compgen -c -- "$word"))
        return
        ;;
    --environment)
        COMPREPLY=($(compgen -v -- "$word"))
        return
        ;;
    --retries | --budget | --base | --rate | --forget | --cores | --ram)
        COMPREPLY=()
        return
        ;;
    esac
    if [ "${word#-}" = "$word" ]; then
        mapfile -t COMPREPLY < <(compgen -f -- "$word")
        return
    fi
    case $command in
    run) every="--work --outdir --slots --parallel --retries --launcher --record --archive --cache --budget --trust-times --base --rate --prefer-kept --verbose --progress --progress-json --keep --keep-failed --validate --template --print-command $import $every" ;;
    plan) every="--dot --work --outdir --slots --parallel --retries --launcher --record --archive --cache --budget --trust-times --base --rate --prefer-kept $import $every" ;;
    record) every="--long --check --remove --forget --budget $every" ;;
    help) every="" ;;
    esac
    COMPREPLY=($(compgen -W "$every" -- "$word"))
}
complete -o filenames -F _deparohi deparohi
