#!/bin/sh
# Sends a list of exhibits through a hall in which slots 3, 4 and 5 are missed, and mends it. The two programs are proved and built
# first, where that has not been done.
cd "$(dirname "$0")/.." || exit 1
for program in send mend; do
    (cd "crates/$program" && rt run < stdin > /dev/null) || exit 1
done
heard=$(crates/send/out/send examples/exhibits.txt | sed -E '/^A       [345]/s/^A(.{8}).*/M\1/')
printf '%s\n' "$heard" >&2
printf '%s\n' "$heard" | crates/mend/out/mend
