# Cells of beside.c's tables, after / before: the geometric mean of each cell over all tables, and medians by kind and operation.
BEGIN { FS = " *[|] *" }

function ratio(cell) {
    sub(/.*= /, "", cell)
    return log(cell)
}

/^[|] (queue|stack) / {
    row = $2 " | " $3 " | " $4 " | " $5
    if (!(row in tables)) { rows[++count] = row; kind[row] = $2 }
    tables[row]++
    put[row] += ratio($6)
    take[row] += ratio($7)
}

function median(of, values,    at, to, n, sorted, value) {
    for (at = 1; at <= count; at++) {
        if (kind[rows[at]] != of) { continue }
        value = values[rows[at]]
        for (to = ++n; to > 1 && sorted[to - 1] > value; to--) { sorted[to] = sorted[to - 1] }
        sorted[to] = value
    }
    return sorted[int(n / 2) + 1]
}

END {
    if (!count) { print "no tables"; exit 1 }
    print "After / before, time per call.\n\n| kind | w | n | held | put | take |\n|---|---:|---:|---:|---:|---:|"
    for (at = 1; at <= count; at++) {
        row = rows[at]
        put[row] = exp(put[row] / tables[row])
        take[row] = exp(take[row] / tables[row])
        printf "| %s | %.3f | %.3f |\n", row, put[row], take[row]
    }
    printf "\nMedians: queue put %.3f, queue take %.3f, stack put %.3f, stack take %.3f\n",
        median("queue", put), median("queue", take), median("stack", put), median("stack", take)
}
