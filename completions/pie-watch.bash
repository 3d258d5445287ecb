# Completion of pie-watch for bash. Install it as /usr/share/bash-completion/completions/pie-watch, or source it.
_pie_watch() {
    local word=${COMP_WORDS[COMP_CWORD]} subcommand=${COMP_WORDS[1]:-} words devices options
    local sums='--queue --namespaces --labels --anyway --verbose --help'
    devices=$(ls /sys/class/net)
    options='--queue --all --every --output --rate-estimator --compact --drops --no-addresses --namespaces --rotate --segments --resume-every --duration --trigger
        --after --ring --anyway --force --verbose --help --version'
    case ${COMP_WORDS[COMP_CWORD - 1]} in
        --trigger | -t) words="drop" ;;
        --queue | -q | --every | -n | --output | -o | --rotate | --segments | --resume-every | --duration | -d | --after | --ring | -r | --labels | --most) words= ;;
        *)
            case $subcommand in
                serve) words="$sums --most :9464 $devices" ;;
                top) words="$sums --no-addresses --ring $devices" ;;
                text) words='--output --force --help' ;;
                *) words="$options $devices" ;;
            esac
            [ "$COMP_CWORD" != 1 ] || words="serve top text $words"
            ;;
    esac
    COMPREPLY=($(compgen -W "$words" -- "$word"))
}
complete -o default -F _pie_watch pie-watch
