# The scripts and files that the measurements here share: they source it. Each sale is one of 10.00 by till 1.

# A script of the sales with these serials, the first and the last; a second later each, or so many.
sales() {
    echo "clock 1735722000 ${3:-1}"
    seq "$1" "$2" | sed 's/.*/sale 1 & A F2 21:1000/'
}

# A file of so many sales, by the program of this path, in several calls: a script has 100,000 commands at most.
make_file() {
    made=0
    while [ "$made" -lt "$3" ]; do
        next=$((made + 100000))
        [ "$next" -le "$3" ] || next=$3
        sales $((made + 1)) "$next" | "$1" chain "$2" 89890001K >/dev/null
        made=$next
    done
}

microseconds() {
    echo $(($(date +%s%N) / 1000))
}

milliseconds() {
    echo $(($(date +%s%N) / 1000000))
}
