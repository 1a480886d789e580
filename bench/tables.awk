# The tables of docs/BENCHMARK.md: `part` says which. Lines are 'OPERATION INSTANCE ASSOC TEXT BUDGET OURS BASELINE', for the part `stack`
# 'INSTANCE SEALING OPENING SEALING OPENING', first of the short text and then of the long one. For the part `times` a request has several
# lines, and lines 'NAME=VALUE' stand before them. For the parts `bytes`, `long` and `linear` lines are 'OPERATION INSTANCE TEXT
# INSTRUCTIONS'; `linear` prints no table: its exit status is 0 if the cost is linear in the text.

BEGIN {
    instances = split("ISAP-A-128a ISAP-A-128 ISAP-K-128a ISAP-K-128 Spook-128-512-su", name)
    spook = 5
    split("8 8 18 18 32", block)
    split("12 12 16 20", hash)
    split("6 12 8 12", encrypt)
    split("151 1548 143 1548", rekey)
    split("0 16", assocs)
    split("0 16 64 256 1024 4096", texts)
    split("1 8 64 4294967295", budgets)
    split("4096 65536 1048576", lengths)
    aim = 1.5
    apart = 1.1
    percent = 2
}

part == "stack" {
    stack = stack "| " $1 " " name[$1] " | " spelled($2) " | " spelled($4) " | " spelled($3) " | " spelled($5) " |\n"
    next
}

part == "bytes" || part == "long" || part == "linear" {
    spent[$1, $2, $3] = $4
    next
}

part == "times" {
    if ($0 !~ /=/) {
        widen("ours", key($1, $2, $3, $4, $5), $6)
        widen("baseline", key($1, $2, $3, $4, $5), $7)
        widen("ratio", key($1, $2, $3, $4, $5), $7 > 0 ? $6 / $7 : 0)
    }
    next
}

{
    ours[$1, $2, $3, $4, $5] = $6
    baseline[$1, $2, $3, $4, $5] = $7
}

END {
    if (part == "stand")
        stand()
    else if (part == "rounds")
        a_round()
    else if (part == "whole")
        whole()
    else if (part == "slices")
        slices()
    else if (part == "kept")
        kept()
    else if (part == "times")
        times()
    else if (part == "stack")
        printf "| Instance | sealing 4,096 | 1,048,576 | opening 4,096 | 1,048,576 |\n|---|---|---|---|---|\n%s", stack
    else if (part == "bytes")
        each_byte()
    else if (part == "long")
        long_calls()
    else if (part == "linear")
        exit far()
}

# A number with commas between its thousands.
function spelled(n,    digits, s) {
    digits = sprintf("%d", n)
    for (s = ""; length(digits) > 3; digits = substr(digits, 1, length(digits) - 3))
        s = "," substr(digits, length(digits) - 2) s
    return digits s
}

# The blocks of a string, a last short one counted.
function blocks(i, bytes) {
    return int((bytes + block[i] - 1) / block[i])
}

function sealing_rounds(i, a, m) {
    if (i == spook)
        return 24 + 12 * (1 + blocks(i, a) + blocks(i, m))
    return hash[i] * (int(a / block[i]) + int(m / block[i]) + 4) + 2 * rekey[i] + encrypt[i] * blocks(i, m)
}

# With a right tag: Spook then walks a second time, if there is text.
function opening_rounds(i, a, m) {
    if (i == spook && m > 0)
        return sealing_rounds(i, a, m) + 12 + 12 * (blocks(i, a) + blocks(i, m))
    return sealing_rounds(i, a, m)
}

function ratio(k) {
    return ours[k] / baseline[k]
}

# What a job costs: ours, the baseline's and how many times that ours is.
function cost(k) {
    return sprintf("%s | %s | %.2f", spelled(ours[k]), spelled(baseline[k]), ratio(k))
}

function key(operation, i, a, m, budget) {
    return operation SUBSEP i SUBSEP a SUBSEP m SUBSEP budget
}

# Where we stand at 4,096 bytes, in words, and where we are furthest from the baseline.
function stand(    i, all, met, missed) {
    for (i = 1; i <= instances; i++) {
        all = all (i > 1 ? (i < instances ? ", " : " and ") : "") sprintf("%.2f", ratio(key(1, i, 0, 4096, 0)))
        if (ratio(key(1, i, 0, 4096, 0)) <= aim)
            met = met (met ? ", " : "") i
        else
            missed = missed (missed ? ", " : "") i
    }
    printf "The aim is that sealing 4,096 bytes takes at most %.1f times the baseline's instructions in each instance.\n", aim
    printf "It takes %s times in instances 1 to %d. ", all, instances
    printf "The aim is met in %s, and missed in %s.\n", met ? met : "none", missed ? missed : "none"
    furthest()
}

function furthest(    k, worst, f) {
    for (k in ours)
        if (k !~ /^[34]/ && (worst == "" || ratio(k) > ratio(worst)))
            worst = k
    split(worst, f, SUBSEP)
    printf "Of whole calls it is furthest from the baseline when %s %s bytes with %s of associated data in instance %s: %.2f times.\n", \
        direction(f[1]), spelled(f[4]), f[3], f[2], ratio(worst)
}

# Instructions a round of sealing 4,096 bytes, all that is not a round counted in.
function a_round(    i, k, r) {
    print "| Instance | rounds | ours | a round | baseline | a round | ours/baseline |\n|---|---|---|---|---|---|---|"
    for (i = 1; i <= instances; i++) {
        k = key(1, i, 0, 4096, 0)
        r = sealing_rounds(i, 0, 4096)
        printf "| %d %s | %s | %s | %.1f | %s | %.1f | %.2f |\n", i, name[i], spelled(r), spelled(ours[k]), ours[k] / r, \
            spelled(baseline[k]), baseline[k] / r, ratio(k)
    }
}

function whole_row(i, a, m) {
    printf "| %d | %s | %s | %s | %s | %s |\n", a, spelled(m), \
        spelled(sealing_rounds(i, a, m)), cost(key(1, i, a, m, 0)), spelled(opening_rounds(i, a, m)), cost(key(2, i, a, m, 0))
}

function whole(    i, x, y) {
    for (i = 1; i <= instances; i++) {
        printf "%sInstance %d, %s:\n\n", (i > 1 ? "\n" : ""), i, name[i]
        print "| a | m | sealing: rounds | ours | baseline | ratio | opening: rounds | ours | baseline | ratio |"
        print "|---|---|---|---|---|---|---|---|---|---|"
        for (x = 1; x <= 2; x++)
            for (y = 1; y <= 6; y++)
                whole_row(i, assocs[x], texts[y])
    }
}

# The four budgets for one length.
function slices_row(i, m,    x, k, r) {
    r = sealing_rounds(i, 16, m)
    printf "| %d %s | %s | %s ", i, name[i], spelled(m), spelled(r)
    for (x = 1; x <= 4; x++) {
        k = key(3, i, 16, m, budgets[x])
        printf "| %s (%.2f) ", spelled(ours[k]), ratio(k)
    }
    printf "| %s |\n", spelled((ours[key(3, i, 16, m, 1)] - ours[key(3, i, 16, m, budgets[4])]) / (r - 1))
}

function slices(    i, y) {
    print "| Instance | m | rounds | budget 1 | 8 | 64 | all | a slice more |\n|---|---|---|---|---|---|---|---|"
    for (i = 1; i <= instances; i++)
        for (y = 1; y <= 6; y++)
            slices_row(i, texts[y])
}

# The record handed in and out, and kept, for each of three budgets.
function kept(    i, x) {
    print "| Instance | rounds | budget 1: in and out | kept | 8: in and out | kept | 64: in and out | kept |\n|---|---|---|---|---|---|---|---|"
    for (i = 1; i <= instances; i++) {
        printf "| %d %s | %s ", i, name[i], spelled(sealing_rounds(i, 16, 64))
        for (x = 1; x <= 3; x++)
            printf "| %s | %s ", spelled(ours[key(3, i, 16, 64, budgets[x])]), spelled(ours[key(4, i, 16, 64, budgets[x])])
        print "|"
    }
}

# The lowest and the highest of what the lines of a request say.
function widen(what, k, value) {
    if (!((what, k) in low) || value < low[what, k])
        low[what, k] = value
    if (!((what, k) in high) || value > high[what, k])
        high[what, k] = value
}

# The text, if the lines of a request are close enough to carry it.
function carried(what, k, text) {
    return low[what, k] > 0 && high[what, k] <= apart * low[what, k] ? text : "not steady"
}

# The least time, to three digits.
function least(what, k,    unit) {
    for (unit = 1; low[what, k] >= 1000 * unit; unit *= 10)
        continue
    return carried(what, k, spelled(int(low[what, k] / unit + 0.5) * unit))
}

# What a job takes. The ratio of the least times lies between those of the lines.
function taken(k) {
    return least("ours", k) " | " least("baseline", k) " | " carried("ratio", k, \
        sprintf("%.2f (%.2f to %.2f)", low["ours", k] / low["baseline", k], low["ratio", k], high["ratio", k]))
}

function times(    i, y) {
    print "| Instance | m | sealing: ours | baseline | ratio | opening: ours | baseline | ratio |\n|---|---|---|---|---|---|---|---|"
    for (i = 1; i <= instances; i++)
        for (y = 1; y <= 6; y++)
            printf "| %d %s | %s | %s | %s |\n", i, name[i], spelled(texts[y]), taken(key(1, i, 0, texts[y], 0)), taken(key(2, i, 0, texts[y], 0))
}

function direction(operation) {
    return operation == 1 ? "sealing" : "opening"
}

# What a byte of a text of m bytes costs: what the call takes more than one with an empty text.
function a_byte(operation, i, m) {
    return (spent[operation, i, m] - spent[operation, i, 0]) / m
}

# By how many percent the dearest byte of the three lengths is above the cheapest; 100 if a count is missing.
function spread(operation, i,    x, b, cheapest, dearest) {
    for (x = 1; x <= 3; x++) {
        b = a_byte(operation, i, lengths[x])
        cheapest = x == 1 || b < cheapest ? b : cheapest
        dearest = b > dearest ? b : dearest
    }
    return spent[operation, i, 0] > 0 && cheapest > 0 ? 100 * (dearest / cheapest - 1) : 100
}

function bytes_row(operation, i,    x) {
    printf "| %d %s | %s ", i, name[i], direction(operation)
    for (x = 1; x <= 3; x++)
        printf "| %.2f ", a_byte(operation, i, lengths[x])
    printf "| %.2f %% |\n", spread(operation, i)
}

function each_byte(    i) {
    print "| Instance | call | m = 4,096 | 65,536 | 1,048,576 | apart |\n|---|---|---|---|---|---|"
    for (i = 1; i <= instances; i++) {
        bytes_row(1, i)
        bytes_row(2, i)
    }
}

# The whole calls, each with its plain quotient of instructions and bytes.
function long_row(operation, i,    x) {
    printf "| %d %s | %s | %s ", i, name[i], direction(operation), spelled(spent[operation, i, 0])
    for (x = 1; x <= 3; x++)
        printf "| %s (%.2f) ", spelled(spent[operation, i, lengths[x]]), spent[operation, i, lengths[x]] / lengths[x]
    print "|"
}

function long_calls(    i) {
    print "| Instance | call | m = 0 | 4,096 | 65,536 | 1,048,576 |\n|---|---|---|---|---|---|"
    for (i = 1; i <= instances; i++) {
        long_row(1, i)
        long_row(2, i)
    }
}

# Whether the three are too far apart, and a message if they are.
function too_far(operation, i) {
    if (spread(operation, i) <= percent)
        return 0
    printf "bench: %s in instance %d costs %.2f, %.2f and %.2f instructions a byte at 4,096, 65,536 and 1,048,576: %.2f %% apart\n", \
        direction(operation), i, a_byte(operation, i, lengths[1]), a_byte(operation, i, lengths[2]), a_byte(operation, i, lengths[3]), \
        spread(operation, i) > "/dev/stderr"
    return 1
}

function far(    i, rows) {
    for (i = 1; i <= instances; i++)
        rows += too_far(1, i) + too_far(2, i)
    return rows > 0
}
