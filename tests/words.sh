# To be sourced: files of tables as little-endian 64-bit words.

# words VALUE..: prints them
words() {
    local value byte text
    for value; do
        text=
        for byte in 0 8 16 24 32 40 48 56; do printf -v text '%s\\x%02x' "$text" $((value >> byte & 255)); done
        printf '%b' "$text"
    done
}

# put FILE TABLE ENTRY VALUE
put() { words "$4" | dd of="$1" bs=8 seek=$(($2 * 512 + $3)) conv=notrunc status=none; }

# entry FILE TABLE ENTRY: prints it in hexadecimal
entry() { od -An -v -t x8 -j $(($2 * 4096 + $3 * 8)) -N 8 "$1" | sed 's/^ *0*\(.\)/\1/'; }
