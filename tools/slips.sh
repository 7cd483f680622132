#!/usr/bin/env bash
# Shows that two slips are refused before anything is proved: adding to a laid folder, and asking the rules that an enquiry
# has taken. Each is made in a copy of the committed files; what the check says of it is printed. Needs rt and git.
set -eu
cd "$(dirname "$0")/.."
copy=$(mktemp -d)
trap 'rm -rf "$copy"' EXIT
git archive HEAD | tar -x -C "$copy"

# The crate, the file, the line to change, what it becomes, and the words that have to come.
slip() {
    python3 - "$copy/crates/$1/$2" "$3" "$4" <<'PY'
import sys
path, old, new = sys.argv[1:]
text = open(path).read()
assert text.count(old) == 1, "the line to change is not there once"
open(path, "w").write(text.replace(old, new))
PY
    said=$(cd "$copy/crates/$1" && rt check --jobs 2 2>&1 | grep 'error\[' || true)
    printf '%s\n' "$said"
    case $said in *"$5"*) ;; *) echo "not refused as it has to be" >&2; exit 1 ;; esac
}

slip facade src/sheet.rt \
    '    let mut folder = Folder::lay(draft, rules);' \
    '    let mut folder = Folder::lay(draft, rules); folder.add(hidden);' \
    'error[unknown-method]: no method named `add` found for type `Folder'
slip file_enquiry src/opening.rt \
    '        Ok(enquiry) => enquiry,' \
    '        Ok(enquiry) => { let _ = rules.count(); enquiry }' \
    'error[borrow-e0382]: borrow of moved value: `rules`'
