#!/usr/bin/env bash
# Lists the lines of src/ at which an older form of the language may stand, point by point, as docs/DESIGN-PASS.md
# counts them. A line is a place to look at, and no verdict. The sources are those of the folder given, or of this checkout.
#
#     tools/design_places.sh            the counts
#     tools/design_places.sh --lines    the lines as well
set -uo pipefail
lines=0
[ "${1:-}" = --lines ] && { lines=1; shift; }
cd "${1:-$(dirname "$0")/..}" || exit 1
files=$(git ls-files 'crates/*/src/*.rt' 'crates/*/src/**/*.rt' | sort -u)

# look NAME PATTERN: the lines that the pattern finds.
look() {
    local found
    # shellcheck disable=SC2086
    found=$(grep -nE -- "$2" $files /dev/null)
    printf '%s: %s\n' "$1" "$(printf '%s' "$found" | grep -c .)"
    [ "$lines" -eq 1 ] && [ -n "$found" ] && printf '%s\n' "$found" | sed 's/^/    /'
    return 0
}

look '1 enums' '^(pub |pub\(crate\) )?enum '
look '1 flags in structs' '^    (pub |pub\(crate\) )?\w+: bool,'
look '1 let-else on an Option or a Result' 'let (Some|Ok)\(.*\) = .* else \{'
look '1 arms that pass on a None or an Err, or cannot be' 'None => (None|Err|return)|Err\(\w+\) => (return )?(Err|None)|Some\(\w+\) => (Ok|Err)\(|=> unreachable\(\)'
look '1 an if that answers Some or None' 'if .* \{ Some\(.*\) \} else \{ None \}|^\s*None$'
look '1 theorem functions that answer a number' '^pub fn .*-> u8$'
look '1 a number for the radix' 'radix == |radix: usize'
look '2 functions named for a size' 'fn \w*(2|4|_two|_four)\b'
look '2 functions of one name in several crates' 'fn (at|put|plus|minus|load|line|sample|transform|print_answer|print_card|print_cards|print_line|print_masks|print_sizes|fine_line|new_block|empty_block|is_well_formed|well_formed_at)\b'
look '3 loops over a range' 'for \w+ in .*\.\.'
look '3 while loops' '^\s*(while|loop) '
look '3 loops that push or add' '\.push\(|\+= |wrapping_add\('
look '4 conversions in functions of their own' 'fn (plus|minus|make|read_method|number|word|narrowed|from_\w+|to_\w+)\b'
look '4 casts by as' ' as (u8|u32|u64|u128|usize|i64|i128)\b'
look '4 zeros written field by field' '^\s*\w+: 0(\.0)?,$|\{ \w+: 0(\.0)?, '
look '5 clauses of a requires' '^\s*requires '
look '5 frame clauses' 'ensures frame '
look '5 lender clauses' 'ensures lender '
look '6 a length or a place beside a slice' '(count|size|k|n|i|place): usize,$'
look '6 elements by index' '\w\[[a-z]\w*\]'
look '7 matches on the method' 'Method::\w+( \| Method::\w+)* =>'
