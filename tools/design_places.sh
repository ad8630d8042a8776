#!/bin/sh
# Lists the places of each point of docs/DESIGN-PASS.md in the sources, by patterns: sh tools/design_places.sh [ROOT]
# A pattern finds more than it is after, so each list is read; the page says what was found.
root="${1:-.}"

list() {
    point="$1"
    shift
    echo "## $point"
    grep -rnE --include='*.rt' "$@" "$root"/crates/*/src | sed "s|^$root/crates/||" | sort -t: -k1,1 -k2,2n
    printf '%s: %s lines\n\n' "$point" "$(grep -rnE --include='*.rt' "$@" "$root"/crates/*/src | wc -l)"
}

# Enums; an Option that carries a refusal or the index of what is wrong; an answer with a count or a flag beside it;
# a value with a signed stamp as its flag; numbers for kinds, refusals and states.
list 1 \
    -e '^ *(pub(\(crate\))? )?enum ' \
    -e 'fn .*-> Option<(Fault|Refusal|Counts)>' -e '^\) -> Option<(Fault|Refusal|Counts)>' \
    -e 'fn (first_wrong|bad_from|plan_fault|mode_fault|bad_opening).*-> Option<usize>' \
    -e '(wrong|refused): Option<' \
    -e '-> \(.*, (usize|bool)\)' -e '-> \(usize, Option' \
    -e 'stamp: i64' \
    -e 'fn number\(' -e '_KIND: u32' -e '[( ](kind|mark|wanted|number): u32' -e 'fn (kind|mark|size_by_mark)\(' -e 'fn answer<' -e 'fn tick_at' \
    -e 'pub fn broadcast' -e 'Refused\(Refusal\)'

# Functions that come in pairs or more: the same words but for a type or a test.
list 2 \
    -e 'fn (of_plans|of_modes|of_log|read_value|plan_text|mode_text|plan_fault|mode_fault|value_fault|plans_on|modes_on|places_on)\b' \
    -e 'fn (put_head|put_at|put|keep_others|keep_inquiring|filtered|without_mail_with|without_reply_to)\b' \
    -e 'fn (receive_write|receive_reply|listened|inquired|activate_or|broadcast|answer|send)\b' \
    -e 'fn (swapped|value_read|written|brought|ticked|seen|carry_out)\b' \
    -e 'pub fn swap<' -e 'fn (first_wrong|words_of|fill_words|parts|is_wrong_count|is_wrong_delay)\b' \
    -e 'fn (same_head|same_place|same_heads|same_mail|same_site)\b' \
    -e 'fn (number_at|head_name|entry_at|name_at)\b' -e 'fn (is_active|inquires)\b' -e 'fn theorem'

# Loops over a range, counts by hand, and tests of an index before it is read.
list 3 \
    -e 'for [a-z_]+ in [^ ]*\.\.' -e '\+= 1;' -e 'saturating_add\(1\)' \
    -e 'if [a-z_]+ < [a-z_.]+\.len\(\)' -e '\.enumerate\(\)'

# Comparison, copying, conversion and printing by hand.
list 4 \
    -e 'fn (is_same|is_same_kind|same_[a-z]+|begun|has_name)\b' -e 'fn (number|stamp_number|judged)\b' \
    -e ' as (u8|u16|u32|u64|i64|usize)\b' \
    -e 'fn [a-z_]*(_text|_line|_words|_word|parts|entry_with)\b.*String' -e 'fn bring_word' -e "-> &'static str" \
    -e '=> (true|false),$'

# Parameters that travel together, and facts said in several contracts.
list 5 \
    -e 'delay: u32, time: u32' -e '^ +delay: u32,$' -e 'sender: u32, receiver: u32' -e '^ +sender: u32,$' \
    -e 'stamp: i64, value: V' -e 'rest: &\[u32\], at: usize' -e 'words: &.*\[u32\], (i|from|at|short|wanted)[:,]' \
    -e 'requires .*length heads\.now ≤ 64' -e 'requires .*Counted heads' -e 'requires .*≤ places' -e 'requires .*18446744073709551616' \
    -e 'Written [A-Za-z_.]+' -e 'rt: &HostRuntime, day' -e 'log: &mut'

# Arrays with a length beside them, and parallel arrays.
list 6 \
    -e '\[(u32|usize|u8|i64); [0-9]+\]' -e '\[\.\.[a-z_]+\]' -e '\[0\.\.' -e 'filled: usize' -e '_count: usize'

# Steps chosen by a number, and functions passed as values.
list 7 -e 'match (kind|number|case)' -e '^ +[0-9]+ => ' -e '\|[a-z_&, ]*\| ' -e 'impl Fn|: Fn|dyn '
