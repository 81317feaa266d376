# Completions of fedbundle for bash. Made by tools/manual.py.
_fedbundle() {
    local word=${COMP_WORDS[COMP_CWORD]} before=${COMP_WORDS[COMP_CWORD - 1]} words
    COMPREPLY=()
    if [ "$COMP_CWORD" -eq 1 ]; then
        COMPREPLY=($(compgen -W 'canon config new report list diff graph status bundle explain observe merge migrate reseed polls distrust serve pull replica stop help --help --version' -- "$word"))
        return
    fi
    case $before in
        --at|--audit|--config|--polls|--previous|--read-socket|--socket|--state|--to|--with)
            compopt -o filenames 2>/dev/null
            COMPREPLY=($(compgen -f -- "$word"))
            return
            ;;
        --allow|--domain|--endpoint|--every|--expires-within|--format|--health|--health-host|--key|--listen|--most-bytes|--most-receipts|--most-records|--most-request-bytes|--now|--peer|--peer-quiet|--peers|--public-key|--sessions|--wait) return ;;
    esac
    case ${COMP_WORDS[1]} in
        canon) words='--domain --format --verbose --help' ;;
        config) words='--config --with --format --wait --verbose --at --help' ;;
        new) words='--config --state --wait --most-receipts --most-records --verbose --help' ;;
        report) words='--config --state --format --new --wait --most-receipts --most-records --verbose --at --help' ;;
        list) words='--config --state --domain --keys --format --new --wait --most-receipts --most-records --verbose --at --help' ;;
        diff) words='--config --state --with --new --wait --most-receipts --most-records --verbose --at --help' ;;
        graph) words='--config --state --domain --new --wait --most-receipts --most-records --verbose --at --help' ;;
        status) words='--config --state --format --now --expires-within --peer-quiet --polls --new --wait --most-receipts --most-records --verbose --at --help' ;;
        bundle) words='--config --state --domain --format --wait --most-receipts --most-records --verbose --at --help' ;;
        explain) words='--config --state --domain --short --format --wait --most-receipts --most-records --verbose --at --help' ;;
        observe) words='--config --state --domain --endpoint --key --wait --most-receipts --most-records --verbose --at --help' ;;
        merge) words='--config --state --wait --most-bytes --most-receipts --most-records --verbose --at --help' ;;
        migrate) words='--config --state --to --records-only --wait --most-receipts --most-records --verbose --at --help' ;;
        reseed) words='--config --state --allow --floors --wait --most-receipts --most-records --verbose --at --help' ;;
        polls) words='--config --state --now --format --wait --most-receipts --most-records --verbose --at --help' ;;
        distrust) words='--config --state --domain --key --public-key --unknown-key --known --dry-run --new --wait --most-receipts --most-records --verbose --at --help' ;;
        serve) words='--config --state --listen --sessions --most-receipts --most-records --verbose --help' ;;
        pull) words='--config --state --peer --sums --wait --most-bytes --most-receipts --most-records --verbose --help' ;;
        replica) words='--config --previous --state --socket --read-socket --listen --health --health-host --audit --listen-anywhere --peers --every --peer-quiet --expires-within --most-bytes --most-receipts --most-records --most-request-bytes --new --verbose --help' ;;
        stop) words='--wait --verbose --at --help' ;;
        help) words='canon config new report list diff graph status bundle explain observe merge migrate reseed polls distrust serve pull replica stop help' ;;
        *) return ;;
    esac
    COMPREPLY=($(compgen -W "$words" -- "$word"))
}
complete -F _fedbundle fedbundle
