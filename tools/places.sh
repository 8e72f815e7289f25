#!/usr/bin/env bash
# Counts the places of docs/DESIGN-PASS.md in the crates of a checkout: `bash tools/places.sh [-l] [DIR]`; with -l it lists them too.
set -euo pipefail
list=no
if [ "${1:-}" = -l ]; then
    list=yes
    shift
fi
cd "${1:-$(dirname "${BASH_SOURCE[0]}")/..}/crates"

# Lines of code that match: comments and ghost lines aside.
place() {
    local name=$1 pattern=$2 found
    found=$(grep -rnP "$pattern" --include=*.rt -- */src | grep -vP '^[^:]*:[0-9]+:\s*(//|ghost )' || true)
    printf '%-64s %4d\n' "$name" "$(printf '%s' "$found" | grep -c '^' || true)"
    if [ "$list" = yes ] && [ -n "$found" ]; then
        printf '%s\n' "$found" | sed 's/^/    /'
    fi
}

place "1a own enums" '^\s*(pub )?enum '
place "1b a number or a flag in a struct beside what it tells of" '^\s*(pub )?(number|stop|flex): (u32|bool),'
place "1c flags among parameters beside what they tell of" '\b(packed|with|has|asked|f|d): bool\b'
place "1d refusals by number" '(return|=>|:|\{) (1[0-9]|2[0-6]|[1-9])( \}|;|,$)|\bnumber: |number != 0'
place "1e functions that answer a number for none or untold" '^\s*(NONE|FULL|UNFIT|UNTOLD|crowded|untold)\b|\b(==|!=|<|>=) (steps::)?(NONE|FULL|UNFIT|UNTOLD|refs::UNTOLD)\b|== UNTOLD'
place "1f tests of a kind by its number" '(==|!=|<|<=) (layout::KIND_[A-Z]+|PARAM|FN|CLOSURE|DEFAULT|TUPLE|REF)\b|layout::KIND_[A-Z]+ (==|!=|<|<=)|^\s*[0-9]+ => crate::put'
place "3a loops: while" '^\s*while '
place "3b loops: loop" '^\s*loop \{'
place "4a conversions by hand: calls" '\b(words::)?wide\('
place "4b conversions, equality, order, choice by hand: functions" 'fn (wide|bit|bit_of|narrow|least|at_most|larger|same|same_words|holds|xor|either|pick|code_of|number_of|count_of|is_failure|from_bool|verdict|module_word)\('
place "4c text put byte by byte" '\bput(_text|_number|_mark|_spaces|_line|_name|_kind|_head)?\(out,'
place "6a buffers with a length beside, parallel arrays" '^\s*(pub )?(n: usize|types: \[u32; 8\]|trs: \[|counts: \[|args: \[u32; 16\]|nodes: \[u32; 6\]),'
