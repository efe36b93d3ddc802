#!/bin/sh
# Measures the ciphers of krb_bench beside OpenSSL's table code, and its PBKDF2 beside Python's hashlib (which
# is OpenSSL's), and prints the ratios.
# The mask turns off the processor's AES, carry-less product and byte shuffle, without which OpenSSL uses its tables.
# Both count processor time, and each figure is the best of three rounds, taken in turn.
set -eu
cd "$(dirname "$0")/../crates/krb_bench"
rt run > /dev/null 2>&1 || { echo "krb_bench is not proved, or rt is not there" >&2; exit 1; }
program=$PWD/out/krb_bench
work=$(mktemp -d)
trap 'rm -rf "$work"' EXIT

openssl_speed() { # key bits, direction
    flag=
    [ "$2" = decrypt ] && flag=-decrypt
    OPENSSL_ia32cap='~0x200020200000000' openssl speed -mr -seconds 1 -bytes 16384 -evp "aes-$1-cbc" $flag 2> /dev/null |
        awk -F: -v name="$1 $2" '/^\+F/ { print name, $NF / 1e6 }'
}

hashlib_time() { # microseconds of 4096 rounds for 32 bytes
    python3 - <<'END'
import hashlib, time
turns = 100
start = time.process_time()
for _ in range(turns):
    hashlib.pbkdf2_hmac("sha1", b"password", b"ATHENA.MIT.EDUraeburn", 4096, 32)
print(round((time.process_time() - start) / turns * 1e6, 1))
END
}

for _ in 1 2 3; do
    "$program" run > "$work/last"
    awk '/^pbkdf2/ { print $(NF - 1) }' "$work/last" >> "$work/our_pbkdf2"
    hashlib_time >> "$work/their_pbkdf2"
    awk '/^aes-[0-9]+-cts/ { split($1, part, "-"); bits = part[2] }
        $2 == 16384 { print bits, $1, $4 }' "$work/last" >> "$work/ours"
    for bits in 128 256; do
        for direction in encrypt decrypt; do
            openssl_speed $bits $direction >> "$work/theirs"
        done
    done
done

awk '{ key = $1 " " $2 }
    FILENAME == ARGV[1] && $3 > ours[key] { ours[key] = $3 }
    FILENAME == ARGV[2] && $3 > theirs[key] { theirs[key] = $3 }
    END {
        print "16384 bytes           krb_bench  OpenSSL tables  ratio"
        for (bits = 128; bits <= 256; bits += 128)
            for (turn = 1; turn <= 2; turn++) {
                direction = turn == 1 ? "encrypt" : "decrypt"
                key = bits " " direction
                printf "AES-%d CBC %s  %6.1f MB/s  %6.1f MB/s     %.2f\n", bits, direction, ours[key], theirs[key], ours[key] / theirs[key]
            }
    }' "$work/ours" "$work/theirs"
echo
echo "PBKDF2, 4096 rounds, 32 bytes: krb_bench $(sort -n "$work/our_pbkdf2" | head -1) us, hashlib $(sort -n "$work/their_pbkdf2" | head -1) us"
echo
cat "$work/last"
