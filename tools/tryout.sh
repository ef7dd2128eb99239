#!/bin/sh
# Tries the try-out program on whole inputs: the examples, and long ones, made here, that are one line many times.
# The gate has built it.
set -eu
cd "$(dirname "$0")/.."
program=crates/tryout/out/tryout
[ -x "$program" ] || (cd crates/tryout && rt run < stdin > /dev/null)
want=$(mktemp)
got=$(mktemp)
trap 'rm -f "$want" "$got"' EXIT

# The standard input is answered by a file.
answers() {
    if ! "$program" > "$got" || ! cmp -s "$got" "$1"; then
        echo "tryout: $2"
        exit 1
    fi
}

for script in examples/*.script; do
    answers "${script%.script}.answers" "$script" < "$script"
done

: > "$want"
printf '' | answers "$want" "no bytes"

printf 'p 0 0\n? 14 1\n' > "$want"
printf 'p 0\n\303\244 0' | answers "$want" "a last line without its end, of bytes that are no ASCII"

yes '? 14 1' | head -n 65536 > "$want"
yes '' | head -c 65536 | answers "$want" "65,536 ends"
yes '' | head -c 65537 | answers "$want" "one byte more, which is not read"

(echo 'p 0 0'; yes 'p 2' | head -n 16383) > "$want"
yes 'p 0' | head -c 65536 | answers "$want" "16,384 lines"

(yes '? 14 2' | head -n 16383; echo 'p 0 0') > "$want"
(yes 'p x' | head -n 16383; echo 'p 12345') | answers "$want" "a last line that is cut to p 12"

echo '? 14 0' > "$want"
yes x | tr -d '\n' | head -c 70000 | answers "$want" "one line, cut at 65,536 bytes"

echo "tryout: every input is answered as it should be"
