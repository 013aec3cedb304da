# Changes one byte of a file, as a fault of a disk may: damage.sh FILE OFFSET. The byte becomes the one above it.
file=$1 offset=$2
byte=$(od -An -tu1 -j "$offset" -N1 "$file")
printf "\\x$(printf %x $(((byte + 1) % 256)))" | dd of="$file" bs=1 seek="$offset" conv=notrunc status=none
