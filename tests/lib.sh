# What the cases' commands share.

# A number as four bytes, the highest first.
word() {
    printf "\\x$(printf %02x $(($1 >> 24 & 255)))\\x$(printf %02x $(($1 >> 16 & 255)))\\x$(printf %02x $(($1 >> 8 & 255)))\\x$(printf %02x $(($1 & 255)))"
}

# An image's header: count, map offset, block offset, length.
header() {
    word "$1"
    word "$2"
    word "$3"
    word "$4"
}

zeros() { head -c "$1" /dev/zero; }

# A file of so many bytes that begins with such a header: FILE BYTES COUNT MAP BLOCKS LENGTH
raw_image() {
    { header "$3" "$4" "$5" "$6" && zeros $(($2 - 16)); } >"$1"
}

# Marks blocks of a new image as lost: FILE BLOCK..
lose() {
    local file=$1 n
    shift
    for n in "$@"; do printf '\x01' | dd of="$file" bs=1 seek=$((16 + n)) conv=notrunc status=none; done
}

# The table's first line.
first_line='room,image,tracks,sectors,firmware,spares,spared,offset,length'

# A command: what it writes, then its lines of standard error as such, then its status.
said() {
    local status
    "$@" 2>../said.err
    status=$?
    sed 's/^/stderr: /' ../said.err
    echo "status $status"
}

# Eight bytes of a name, in hexadecimal.
name() { printf '%-8s' "$1" | od -An -tx1 | tr -d ' \n'; }

# So many times one character, in hexadecimal: BYTES CHARACTER
fill() { zeros "$1" | tr '\0' "$2" | od -An -v -tx1 | tr -d ' \n'; }

# Lines with more than 24 bytes in hexadecimal, as their first 12, the last and how many there are.
brief() {
    awk '/^reply/ && length($2) > 48 { print $1, substr($2, 1, 24) ".." substr($2, length($2) - 1), "(" length($2) / 2 " bytes)"; next } { print }'
}
