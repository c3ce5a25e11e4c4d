#!/usr/bin/env bash
# Counts the places that docs/DESIGN-PASS.md speaks of, in src/ of a commit (or of the files as they stand):
#
#   tools/places.sh [COMMIT] [-l]
#
# -l lists them. A pattern finds candidates: the page says which of them are places, and what became of each.
set -euo pipefail
cd "$(dirname "$0")/.."
commit= list=
for word in "$@"; do
    if [ "$word" = -l ]; then list=1; else commit=$word; fi
done

find_lines() { # PATTERN
    git grep -nE -e "$1" $commit -- 'crates/*/src/*.rt' | grep -vE ':[0-9]+:\s*(//|ghost use|use )' || true
}

count() { # POINT WORDS PATTERN
    local lines
    lines=$(find_lines "$3")
    printf '%-3s %4d  %s\n' "$1" "$(grep -c . <<<"$lines" || true)" "$2"
    if [ -n "$list" ] && [ -n "$lines" ]; then sed 's/^/         /' <<<"$lines"; fi
}

count 1a 'arms that only pass an error on' '(Err\((why|_)\) => (return )?Err\((why|anyhow|FileRefusal::Seal\(why\)|\(why, h\))|Err\(pair\) => Err|if let Err\(why\) = |let Ok\(.*\) = .* else)'
count 1b 'a flag beside a value' '(-> \(.*bool\)|armed: bool|good: bool|let mut good)'
count 1c 'a number for a refusal or a kind' '(fn (number|from_number|[a-z]+_number)\(|const (UNKNOWN_LETTER|MALFORMED|NOT_GIVEN|NO_CIPHER)|\(\[u8; 8\], u8\)|^ +(10|6|32|255) =>|"[WOP]" =>)'
count 1d 'an own enum of the shape of Option or Result' '^    (Refused\(Refusal\)|Ended|Unknown|Malformed),'
count 2a 'types in pairs' '^pub(\(crate\))? (struct|enum) (Aes|FastAes|SealCall|OpenCall|SealAnswer|OpenAnswer|Running|Reading)'
count 2b 'functions in pairs' 'fn (sub|inv_sub|table|at|first|second|third|fourth|(inv_)?(column|mixed|substituted|sub_bytes|shift_rows)|expand|sixteen|eight|key|(key|nonce|settings|heading|block|message|marked|sealed|stream)_line|put_one|finish_one|one|room_of|aes10|aes6|seal_with|open_with|office|terminal|old_terminal|put_(sealed|opened)_in|whole|hold|copy_at|zero|number_at|eight_at)(<[^>]*>)?\('
count 3  'loops that count' '^\s*(while |for [a-z_]+ in \(?[0-9a-z_.()/]+\.\.)'
count 4  'conversions, comparisons and printing by hand' '(fn (same|number|from_number|words|copied|digit|money|to_bytes|from_bytes|as_bytes|new\(\) ->)|if [a-z_.]+ \{ 1 \} else \{ 0 \}|\? 1 : 0)'
count 5a 'the clause that a cipher keeps its meaning' 'ensures same \{'
count 5b 'settings, nonce and heading as three parameters' '^ +nonce: &\[u8; 8\],'
count 5c 'rt and account as two parameters' 'account: &mut Account'
count 6  'an array with a length beside it' '(pending|held|digits): (&mut )?\[u8; [0-9]+\]|text: &mut \[u8\]'
count 7  'a flag or a number that picks the step' '(forth|opens|last): bool|macro_rules|under!\('
