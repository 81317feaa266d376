#!/bin/sh
# Compares what `fedbundle canon` prints for each bundle of examples/, and `fedbundle report` for the receipts, with the stored
# texts, and the key ids in them with the SHA-256 of the certificates. What canon.py and report.py print is compared, too. The
# program is the one that ./fedbundle runs, or the one that $FEDBUNDLE names. The exit status is 1 if
# something differs.
oracle=$(dirname -- "$(readlink -f -- "$0")")
program=$("$oracle/../../fedbundle" --which) || exit 1
cd -- "$oracle/../../examples" || exit 1
ended=0

# tell WHAT STATUS: prints whether the two are the same, by the status of their comparison.
tell() {
    if [ "$2" -eq 0 ]; then
        echo "same:    $1"
    else
        echo "differs: $1"
        ended=1
    fi
}

# A line for each certificate of a domain, as canon prints it, in sorted order.
key_lines() {
    for certificate in "$1"-*.pem; do
        openssl x509 -in "$certificate" -outform DER | sha256sum | sed 's/^\([0-9a-f]*\).*/key \1/'
    done | sort
}

for domain in a.example b.example; do
    "$program" canon --domain "$domain" <"$domain.json" | diff "$domain.canon" -
    tell "$domain, fedbundle canon" $?

    [ "$(key_lines "$domain")" = "$(grep '^key ' "$domain.canon" | sort)" ]
    tell "$domain, SHA-256 of the certificates by openssl" $?

    python3 "$oracle/canon.py" "$domain" <"$domain.json" | diff "$domain.canon" -
    tell "$domain, canon.py" $?
done
"$program" report --config config.json <receipts.jsonl | diff receipts.report -
tell "receipts, fedbundle report" $?

# A line for each certificate here, and for each key that a receipt names.
ids_of_certificates() {
    for certificate in *.pem; do
        openssl x509 -in "$certificate" -outform DER | sha256sum | cut -d' ' -f1
    done
}
unknown=$(sed 's/.*"key":"\([0-9a-f]*\)".*/\1/' receipts.jsonl | sort -u | grep -vxF "$(ids_of_certificates)")
[ -z "$unknown" ]
tell "receipts, SHA-256 of the certificates by openssl" $?

python3 "$oracle/report.py" config.json <receipts.jsonl | diff receipts.report -
tell "receipts, report.py" $?
exit "$ended"
