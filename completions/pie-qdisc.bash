# Completion of pie-qdisc for bash. Install it as /usr/share/bash-completion/completions/pie-qdisc, or source it.
_pie_qdisc() {
    local word=${COMP_WORDS[COMP_CWORD]} words devices
    local values='limit_bytes target tupdate max_burst alpha beta mean_pkt dq_threshold rate overhead quantum'
    devices=$(ls /sys/class/net)
    case "$COMP_CWORD ${COMP_WORDS[1]:-}" in
        '1 '*) words='attach change show record detach verify --pins --version' ;;
        '2 show') words="$devices --json" ;;
        '2 verify') words= ;;
        '2 '*) words=$devices ;;
        *' attach') words="mq parent fq limit flows $values on_off dq_rate_estimator bytemode random uncapped decay_half" ;;
        *' change') words="parent $values" ;;
        *' show') words='parent --json' ;;
        *' record') words='parent -o --flow --seconds --ring' ;;
        *' detach') words=parent ;;
    esac
    COMPREPLY=($(compgen -W "$words" -- "$word"))
}
complete -o default -F _pie_qdisc pie-qdisc
