# Lines `family|runner|instructions` as a table, with our count as part of the better LEMON model's.
BEGIN { print "\nInstructions of one call (callgrind): book 0 of a family; LEMON: the run alone" }
{
    if (!($1 in seen)) { seen[$1] = 1; family[++families] = $1 }
    if (!($2 in known)) { known[$2] = 1; runner[++runners] = $2 }
    n[$1, $2] = $3
    if ($2 ~ /^LEMON/ && (!($1 in better) || $3 + 0 < better[$1] + 0)) better[$1] = $3
}
END {
    printf "  %-50s", "family"
    for (r = 1; r <= runners; r++) printf " | %s", runner[r]
    print " | ours / better LEMON"
    for (f = 1; f <= families; f++) {
        printf "  %-50s", family[f]
        for (r = 1; r <= runners; r++) printf " %11d", n[family[f], runner[r]]
        if (family[f] in better) printf " %8.3f", n[family[f], "ours"] / better[family[f]]
        print ""
    }
}
