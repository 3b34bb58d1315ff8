#!/bin/sh
# Draws the stored sites, the smallest and the largest, and one whose tags XML would read otherwise. Each
# picture has to show what picture.py wants of it and to be the same a second time, and that of the pump
# hall is docs/pump-hall.svg. They are rendered where Debian's librsvg can be had. Leaves target/pictures.
set -eu
cd "$(dirname "$0")/.."
. tests/need.sh
need python3 python3
out=target/pictures
rm -rf "$out"
mkdir -p "$out"

printf '01010100\n02FF000141\n' >"$out/smallest.site"
printf '01010301\n02FF00053C263E2227\n020005065D5D3E263B3C\n0201030326237B\n0302023B9ACA003B9ACA00\n' >"$out/marks.site"
cp sites/pump-hall.site sites/tank-farm.site bench/sites/longest.site bench/sites/slowest.site "$out"

for site in "$out"/*.site; do
    picture=${site%.site}.svg
    bin/cartheron picture "$site" >"$picture"
    bin/cartheron picture - <"$site" | cmp - "$picture"
    python3 tests/picture.py "$site" "$picture"
done
cmp docs/pump-hall.svg "$out/pump-hall.svg"

if need rsvg-convert librsvg2-bin >/dev/null 2>&1; then
    for picture in "$out"/*.svg; do
        rsvg-convert -o "${picture%.svg}.png" "$picture"
        [ -s "${picture%.svg}.png" ]
    done
    echo "picture: $(ls "$out"/*.png | wc -l) rendered"
else
    echo "picture: librsvg2-bin cannot be installed here, so nothing was rendered"
fi
echo "picture: $(ls "$out"/*.svg | wc -l) as they should be"
