# How many letters are to be left out, put in, replaced or turned round to come from a word to another; 3
# where it is more than 2.
function distance(from, to,    i, j, m, n, d) {
    m = length(from)
    n = length(to)
    if (m > n + 2 || n > m + 2) return 3
    for (i = 0; i <= m; i++) d[i, 0] = i
    for (j = 0; j <= n; j++) d[0, j] = j
    for (i = 1; i <= m; i++) for (j = 1; j <= n; j++) {
        d[i, j] = least(d[i - 1, j] + 1, d[i, j - 1] + 1, d[i - 1, j - 1] + (substr(from, i, 1) != substr(to, j, 1)))
        if (i > 1 && j > 1 && substr(from, i, 1) == substr(to, j - 1, 1) && substr(from, i - 1, 1) == substr(to, j, 1))
            d[i, j] = least(d[i, j], d[i - 2, j - 2] + 1, 3)
    }
    return d[m, n] > 2 ? 3 : d[m, n]
}

function least(one, two, three) {
    if (two < one) one = two
    return three < one ? three : one
}
