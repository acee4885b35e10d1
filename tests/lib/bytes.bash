# Bytes and tables for the tests, in hexadecimal digits.

hex() { printf '%02x' "$@"; }

bytes() { # DIGITS..: the bytes that they stand for; spaces do not count
    local digits=$*
    printf '%b' "$(sed 's/../\\x&/g' <<<"${digits// /}")"
}

times() { # COUNT BYTE
    local i
    for ((i = 0; i < $1; i++)); do hex "$2"; done
}

# Every state is initial and final, and has a plain move to each by the one letter.
alike() { # STATES
    local n=$1 k
    hex 0 $((7 + n + 4 * n * n)) 1 "$n" 1 0 0 $((n * n)) 0
    times "$n" 3
    for ((k = 0; k < n * n; k++)); do hex $((k / n)) 0 0 $((k % n)); done
}
