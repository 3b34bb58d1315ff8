#!/bin/sh
# The man pages have to pass mandoc's and groff's checks without a word, and the plan and the error line that
# cartheron.5 prints have to be those of its site. What README.md shows of the command behind a $ has to be what the
# command prints. The examples of cartheron.3 are tried by install.sh.
set -eu
cd "$(dirname "$0")/.."
. tests/need.sh
need mandoc mandoc
need groff groff
need python3 python3
for page in man/cartheron.1 man/cartheron.3 man/cartheron.5; do
    said=$(mandoc -T lint "$page" 2>&1; groff -ww -man -T utf8 "$page" 2>&1 >/dev/null) || true
    [ -z "$said" ] || {
        printf 'FAILED: %s\n%s\n' "$page" "$said"
        exit 1
    }
done
work=$(mktemp -d)
trap 'rm -rf "$work"' EXIT
records() { # KIND: the records of this kind, an expression of grep, that cartheron.5 prints
    mandoc -T ascii man/cartheron.5 | grep -oE "^ +$1[0-9A-F]{6,}" | tr -d ' '
}
records '0[123]' >"$work/site"
records '8[12]' >"$work/plan"
records 8F >"$work/error"
bin/plan "$work/site" | cmp - "$work/plan"
bin/cartheron check "$work/site" "$work/plan" >/dev/null
sed '3s/^020000/02000F/' "$work/site" | bin/plan | cmp - "$work/error"
python3 - <<'END'
import re, subprocess
shown = re.findall(r"^    \$ (bin/cartheron .*)\n((?:    .*\n)+)", open("README.md").read(), re.M)
assert len(shown) == 2, shown
for command, printed in shown:
    ran = subprocess.run(command.split(), stdout=subprocess.PIPE, stderr=subprocess.STDOUT, text=True)
    assert "".join("    " + line for line in ran.stdout.splitlines(True)) == printed, (command, ran.stdout)
END
echo "pages: clean, and the example's plan and error line are right"
