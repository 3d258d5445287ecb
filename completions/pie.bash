# Completion of pie for bash. Install it as /usr/share/bash-completion/completions/pie, or source it.
_pie() {
    local word=${COMP_WORDS[COMP_CWORD]} subcommand=${COMP_WORDS[1]:-} words
    if [ "$COMP_CWORD" = 1 ]; then
        words='run audit explain cut migrate storm params what-if advise help --help --version'
    else
        case $subcommand in
            run) words='--count --progress --output --force --help' ;;
            audit) words='--joined --json --queue --progress --help' ;;
            migrate) words='--progress --output --force --help' ;;
            explain) words='--event --tag --lost --marked --all --queue --from --to --summary --every --full --flows --digest --csv --json --wall --progress --output --force --help' ;;
            cut) words='--from --to --event --around --last --every --progress --output --force --help' ;;
            storm) words='--senders --packets --burst --seed --load --changes --folds --profile --delay --picking --step --size --decay --count --help' ;;
            params) words='--rate --target --tupdate --limit --alpha --beta --ecn --bytemode --mtu --dq_rate_estimator --no_derandomization \
                --no_cap_drop_adjustment --decay --overhead --mpu --linklayer --help' ;;
            what-if) words='--from --target --tupdate --max_burst --alpha --beta --mean_pkt --limit --mark_ecnth --dq_threshold --csv --json \
                --progress --output --force --help' ;;
            advise) words='--rate --rtt --flows --overhead --ecn --help' ;;
            help) words='run audit explain cut migrate storm params what-if advise help' ;;
            *) words='' ;;
        esac
        # A word that is no option is a file: without a reply, bash offers files.
        [[ $word == -* || $subcommand == help ]] || words=''
    fi
    COMPREPLY=($(compgen -W "$words" -- "$word"))
}
complete -o default -F _pie pie
