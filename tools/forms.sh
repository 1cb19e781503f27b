#!/usr/bin/env bash
# Counts the places of the older language's forms in the sources of a checkout, by the points of docs/DESIGN-PASS.md: a line for each search, with how many lines
# it finds. With a second argument it prints the lines of that search.
#
#     bash tools/forms.sh .            every count
#     bash tools/forms.sh . 3          the lines behind the counts of point 3
cd "${1:-.}" || exit 1
wanted=$2

# The point, what is searched for, and a regular expression over the lines of crates/*/src.
find_lines() {
    local point=$1 what=$2 lines
    lines=$(grep -rnE --include='*.rt' -- "$3" crates/*/src)
    if [ -z "$wanted" ]; then
        printf '%s  %4d  %s\n' "$point" "$(printf '%s' "$lines" | grep -c '')" "$what"
    elif [ "$wanted" = "$point" ]; then
        printf '%s:\n%s\n' "$what" "$lines"
    fi
}

find_lines 1 'enums' '^\s*(pub(\([a-z]+\))? )?enum '
find_lines 1 'refusals as numbers' 'fn \w*refusal\w*\([^)]*\) -> u8|^\s*(pub )?refusal: u8|Refused\(u8\)'
find_lines 1 'sentinels, as their comments tell' '^ *//.*(, or|or) (the (number|limit|weight)|`?end`?|`NO_COVER`|[0-9]+)[ ,].*(where|if|which)'
find_lines 1 'kinds as constants' '^const (NO_IMPLICANT|IDLE|SERVING|FEE|SLACK|NO_COVER|REFUSED)\b'
find_lines 1 'flags beside a value' '^\s*pub \w+: bool,'
find_lines 1 'bytes as marks' 'marks: &(mut )?\[u8\]|as u8;$'
find_lines 3 'while and loop' '^\s*(while|loop)\b'
find_lines 4 'functions of std::num and of the integer types called by their path' 'std::num::|u64::count_ones|u64::trailing_zeros'
find_lines 4 'functions that compare, copy, convert or print by hand' 'fn (smaller|larger|lower|left_of|wide|room|at_least_zero|float_of|exchange|copy_rows|totals_in|is_better|row_at|fill|(count|plan|better|check|read)_number|refusal|word|byte|digit|decimal|number|text|refused|terms?)\b'
find_lines 5 'words and weights' 'words: &(.a )?\[u64\]'
find_lines 5 'live rows' 'live: &?rows::Set'
find_lines 5 'undecided columns' 'undecided: columns::Set'
find_lines 5 'the rows by column' 'by_column: &(transposed::)?ByColumn'
find_lines 5 'the slacks, the scores' '(slack|score): &mut (Slacks|Scores)'
find_lines 5 'width and table' 'n: usize, table: &\[u8\]'
find_lines 5 'a value and a care' 'value: u8, care: u8'
find_lines 5 'the fact Sizes' '(requires|ensures).*Sizes words.now weights.now'
find_lines 5 'the fact that rows are few' '(requires|ensures).*row_count words.now ≤ row_limit'
find_lines 5 'the fact that an end is one of rows' '(requires|ensures).*end ≤ row_limit'
find_lines 5 'the fact that a place is in the tableau' '(requires|ensures).*InTableau'
find_lines 5 'the fact that a width is at most the widest' '(requires|ensures).*n ≤ widest'
find_lines 5 'the fact that a table has a cell for each code' '(requires|ensures).*length table.now ≡ 2 \^ n'
find_lines 5 'the fact that there is room for 3^n' '(requires|ensures).*3 \^ n ≤ length'
find_lines 5 'the fact that a reader has room' '(requires|ensures).*Room '
find_lines 5 'the fact that the longest output has room' '(requires|ensures).*(most_output|most_line) ≤ length'
find_lines 6 'values and cares' 'values: &(mut )?\[u8\]'
find_lines 6 'a place beside a buffer' '^ *at: usize|, at: usize'
find_lines 6 'a count beside a buffer' '(^ *|, )count: usize'
find_lines 6 'parallel arrays in a struct' '^\s*(pub )?\w+: \[u(8|16|32|64); MOST_(CUBES|CODE_PAIRS)\],'
find_lines 7 'the better of two, by hand' 'fn (prefer\w*|cheaper|covers_more|is_better|denser)\b'
find_lines 7 'closures and bounds on functions' '\bF: Fn|impl Fn|\bdyn |\|[a-z_, &()]+\| '
