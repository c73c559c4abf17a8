# For the scripts beside it: what is missing comes from Debian. $build is the folder of their logs.
install() {
    command -v apt-get > /dev/null || return 1
    echo "installing $1"
    { apt-get install -y --no-install-recommends "$1" || { apt-get update && apt-get install -y --no-install-recommends "$1"; }; } \
        > "$build/install-$1.log" 2>&1
}

# Leaves in $python one that has GNU Radio.
with_gnuradio() {
    for python in python3 /usr/bin/python3; do
        if "$python" -c 'from gnuradio import dtv, fec, trellis' 2> /dev/null; then
            return 0
        fi
    done
    return 1
}
