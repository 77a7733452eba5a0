#!/bin/sh
# Programs that must not compile: makes each edit of crates/NAME/must-fail/*.md in a copy of the repository, and
# expects exactly the compile error that the page names. They cannot stand among the *.edit files of the gate, which
# takes only what the prover refuses: these are refused by the borrow checker, before any proof.
# Run it in the repository's root.
bad=0
for page in crates/*/must-fail/*.md; do
    crate=$(echo "$page" | cut -d/ -f2)
    copy=$(mktemp -d)
    git ls-files -z crates crates.txt | tar --null -T - -cf - | tar -xf - -C "$copy"
    git init -q "$copy"
    want=$(sed -n 's/^expect: //p' "$page")
    file=$copy/crates/$crate/$(sed -n 's/^file: //p' "$page")
    OLD=$(sed -n 's/^old: //p' "$page") NEW=$(sed -n 's/^new: //p' "$page") python3 - "$file" <<'PY' || bad=1
import os, sys
path = sys.argv[1]
text = open(path, encoding="utf-8").read()
old, new = os.environ["OLD"], os.environ["NEW"]
if text.count(old) != 1:
    sys.exit(f"{path}: the text to replace stands {text.count(old)} times")
open(path, "w", encoding="utf-8").write(text.replace(old, new))
PY
    said=$(cd "$copy/crates/$crate" && rt check 2>&1)
    if [ "$(echo "$said" | grep -c ': error\[')" = 1 ] && echo "$said" | grep -q "error\[$want\]"; then
        echo "$page: turned away ($want)"
    else
        echo "$page: NOT turned away as expected"
        echo "$said" | grep ': error' | head -3
        bad=1
    fi
    rm -rf "$copy"
done
exit $bad
