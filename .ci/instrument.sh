#!/usr/bin/env bash
# Builds the instrument of docs/SCRIPT.md, without a proof, into a copy of the player, and plays the script there with it: what
# is printed has to be what stands there. The four blocks of its section are the instrument, the line that adds it to the spare
# instruments, the script, and what that prints. What differs goes to standard error; the status is 1 then.
set -u
cd "$(dirname "$0")/.." || exit 1
page=docs/SCRIPT.md
section='## An instrument of your own'
folder=$(mktemp -d) || exit 1
trap 'rm -rf "$folder"' EXIT

fail() {
    printf 'the instrument of %s: %s\n' "$page" "$1" >&2
    exit 1
}

# block N: the N-th block of the section
block() {
    awk -v section="$section" -v wanted="$1" '
        /^## / { inside = $0 == section; next }
        !inside { next }
        /^```/ { open = !open; if (open) count++; next }
        open && count == wanted
    ' "$page"
}

blocks=$(awk -v section="$section" '/^## / { inside = $0 == section } inside && /^```/' "$page" | wc -l)
[ "$blocks" -eq 8 ] || fail "its section has $blocks fences, and not those of four blocks"
for n in 1 2 3 4; do
    block "$n" > "$folder/$n"
    [ -s "$folder/$n" ] || fail "block $n has nothing in it"
done

# the player's sources, and those of all that it stands on
mkdir "$folder/copy" || exit 1
tar --exclude=out -cf - HANDLES crates.txt crates | tar -xf - -C "$folder/copy" || fail 'no copy of the crates'
player=$folder/copy/crates/vxplay
cp "$folder/1" "$player/src/polite.rt"
awk -v line="$folder/2" '
    /^use / && !declared { print "mod polite;\n"; declared = 1 }
    /add\(&mut rack, "echo"/ { while ((getline text < line) > 0) print text; added = 1 }
    { print }
    END { exit !(declared && added) }
' crates/vxplay/src/main.rt > "$player/src/main.rt" || fail 'the player has no place for it'

(cd "$player" && rt try -- run) < "$folder/3" > "$folder/printed" 2> "$folder/said"
status=$?
if [ "$status" -ne 0 ] || ! diff "$folder/4" "$folder/printed" >&2; then
    cat "$folder/said" >&2
    fail "its script ends with status $status, or prints what the page doesn't say"
fi
printf 'the instrument of %s: played\n' "$page" >&2
