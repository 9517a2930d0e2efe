#!/bin/bash
for (( ; ; )); do
    words=(--wide --budget 25600 --keep best.plan --cert first.new)
    [ -e joined.cert ] && words+=(--from joined.cert)
    [ -e best.plan ] && words+=(--start best.plan)
    ttplan solve k.toml "${words[@]}" > k.out
    status=$?
    case $status in 0 | 10 | 11) mv first.new first.cert ;; esac
    [ $status -eq 11 ] || exit $status
    rm -f part-*
    "$@"
    ttplan join k.toml first.cert part-*.cert --cert joined.new && mv joined.new joined.cert || exit
    best=$(grep -H '^delay ' best.plan part-*.plan 2> /dev/null | sort -t' ' -k2n | head -1 | cut -d: -f1)
    [ -n "$best" ] && cp "$best" best.new && mv best.new best.plan
done
