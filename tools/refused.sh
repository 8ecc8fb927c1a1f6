#!/bin/sh
# Texts that the compiler must refuse. Each refused/CRATE/LABEL.edit has four lines, 'file:', 'old:', 'new:' and 'error:':
# in a copy of the repository the old text, which stands once in the crate's file, is replaced by the new one, and the compiler
# must refuse the copy by an error of that name. The crate as it stands must be accepted, or the refusals would show nothing.
# `rt try` asks the compiler alone, no proof is tried: such a text never reaches the prover, so it is no must-fail edit.
# Exit status: 0 all refused by their names; 1 one was not; 2 an edit or the script does not fit the repository.
set -u
cd "$(dirname "$0")/.." || exit 2
work=$(mktemp -d) || exit 2
trap 'rm -rf "$work"' EXIT
trap 'exit 2' HUP INT TERM

die() { echo "refused: $*" >&2; exit 2; }

# Compiles CRATE, as it stands in the copy of the repository, with its tests, and runs these. What is said goes to $work/said.
compile() { # CRATE
    (cd "$work/copy/crates/$1" && rt try --test) >"$work/said" 2>&1
}

# Writes the file FROM to TO with the old text replaced; fails unless that stands exactly once.
apply() { # FROM TO
    OLD=$old NEW=$new awk '
        { text = text $0 "\n" }
        END {
            old = ENVIRON["OLD"]
            at = index(text, old)
            if (old == "" || at == 0) exit 1
            rest = substr(text, at + length(old))
            if (index(rest, old) != 0) exit 1
            printf "%s%s%s", substr(text, 1, at - 1), ENVIRON["NEW"], rest
        }' "$1" >"$2"
}

line_of() { sed -n "s/^$2: //p" "$1"; }

mkdir "$work/copy" && tar -cf - --exclude=out crates crates.txt | tar -xf - -C "$work/copy" || exit 2

bad=0 count=0
for folder in refused/*/; do
    crate=$(basename "$folder")
    [ -f "crates/$crate/src/lib.rt" ] || die "$folder: no library crates/$crate"
    compile "$crate" || { cat "$work/said" >&2; die "$crate does not compile as it stands"; }
    echo "refused: $crate as it stands: accepted, as it must be"
    for edit in "$folder"*.edit; do
        [ -f "$edit" ] || die "$folder has no edit"
        file=$(line_of "$edit" file) old=$(line_of "$edit" old) new=$(line_of "$edit" new) error=$(line_of "$edit" error)
        [ -n "$error" ] && [ -f "crates/$crate/$file" ] || die "$edit: a line is missing, or no such file"
        apply "crates/$crate/$file" "$work/copy/crates/$crate/$file" || die "$edit: the old text does not stand once in $file"
        count=$((count + 1))
        if compile "$crate"; then
            echo "refused: $edit: NOT REFUSED"
            bad=$((bad + 1))
        elif grep -q "error\[$error\]" "$work/said"; then
            echo "refused: $edit: refused by $error"
        else
            echo "refused: $edit: refused, but NOT BY $error"
            grep 'error' "$work/said" | head -3
            bad=$((bad + 1))
        fi
        cp "crates/$crate/$file" "$work/copy/crates/$crate/$file" || exit 2
    done
done
[ "$count" -gt 0 ] || die "no edit was found under refused/"
echo "refused: $((count - bad)) of $count texts refused by their names"
[ "$bad" -eq 0 ]
