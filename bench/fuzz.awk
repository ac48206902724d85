# Writes one random script for fuzz.sh, from the number seed. Every other one has no line that is wrong; the others have some. With
# clock=1 it begins with a clock line; with plan=1 it has no sales, fixes and cancels.
function pick(n) { return int(rand() * n) }
function one_of(list,    items, n) { n = split(list, items, "|"); return items[pick(n) + 1] }
function odd(text) {
    if (good || pick(40) > 0) return text
    return one_of("|-|0|00|-0|4294967296|99999999999999|\303\274|\377|=|:|@|" text text "|x" text "|\t" text "|-" text)
}
function serial() { return pick(12) > 0 ? ++last[till] : 1 + pick(9) }
function number() { return one_of("A|B|ZZ/1|A") "-" (1 + pick(1 + made)) }
function lines(    classes, n, i, text) {
    n = split("21|10|4|0|21+|10+|4+|S2|N1|N2|E1|E6", classes, "|")
    i = pick(n)
    text = ""
    do {
        text = text " " odd(classes[i % n + 1]) ":" odd(pick(30) > 0 ? pick(90000) - 10000 : pick(9) 999999999)
        i++
    } while (pick(3) == 0 && i < n)
    return text
}
function options(    text) {
    text = ""
    if (pick(3) == 0) text = text " to=" odd("c" (1 + pick(4)))
    if (pick(4) == 0) text = text " rect=" odd(one_of("S|I"))
    while (pick(4) == 0) text = text " ref=" odd(number()) "@" odd(one_of("01-01-2025|31-12-2024|15-06-2025"))
    return text
}
function invoice() { return odd(one_of("F1|F2|F3|R1|R2|R3|R4|R5|F2|F2|F2")) options() lines() }
function command() {
    till = 1 + pick(pick(9) > 0 ? 4 : 64)
    if (pick(9) < 6) {
        made++
        return "sale " odd(till) " " odd(serial()) " " odd(one_of("A|B|ZZ/1")) " " (pick(2) ? "F2 21:" (1 + pick(90000)) : invoice())
    }
    if (pick(2)) return "fix " odd(till) " " odd(serial()) " " odd(number()) " " invoice()
    return "cancel " odd(till) " " odd(serial()) " " odd(number())
}
function planned(    sort) {
    sort = pick(4)
    call += 1 + pick(3)
    if (sort == 0) return "link " odd(call) " " odd(one_of("lost|taken|stale|again"))
    if (sort == 1) return "link " odd(call) " late " odd(1 + pick(5))
    return one_of("vet|warn") " " odd(one_of("A|B|ZZ/1") "-" (++judged)) " " odd(1) " " odd(1 + pick(5000))
}
BEGIN {
    srand(seed)
    good = seed % 2
    if (clock) print "clock " (1735722000 + pick(40000000)) " " pick(100)
    for (i = 1; i < 5; i++) print "customer " odd("c" i) " " odd("B12345674") " " odd("Bar Sol")
    if (pick(3) == 0) print "wait " odd(pick(90))
    for (i = pick(pick(9) > 0 ? 30 : 300); i > 0; i--) {
        if (!good && pick(40) == 0) print one_of("|# a comment|sale|clock 1 1|\r|  |\377\376|link 1|fix 1 1")
        else if (plan || pick(8) == 0) print planned()
        else print command() (pick(80) == 0 ? "\r" : "")
    }
}
