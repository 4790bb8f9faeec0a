#!/bin/sh
# Asks one file of many: ./each.sh SCRIPT FILE runs SCRIPT with FILE in the place of the word FILE. What it prints stands in FILE.out
# then, and of a run that ended early one line is told: the file, and the fault. AQL names the program where it is not on the path.
# A file's name must have no `|`, `&`, `\` or `"`.
sed "s|FILE|$2|g" "$1" | "${AQL:-aql}" > "$2.out" 2> /dev/null && exit
echo "$2: $(tail -n 1 "$2.out")" >&2
mv "$2.out" "$2.fault"
exit 1
