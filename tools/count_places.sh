#!/bin/bash
# Counts, in crates/*/src, the places that docs/DESIGN-PASS.md goes through. With -l it lists them. Run at the top.
list=$1
count() {
    local name=$1
    shift
    local found
    found=$("$@" 2>/dev/null)
    printf '%4d  %s\n' "$(printf '%s' "$found" | grep -c .)" "$name"
    if [ "$list" = -l ]; then printf '%s\n' "$found" | sed 's/^/          /'; fi
}
src() { grep -rnE "$1" crates/*/src --include='*.rt'; }
without_comparison() { grep -rnA1 -E '^#\[derive\((Clone, Copy)?\)\]$|^#\[derive\(Clone, Copy\)\]$' crates/*/src | grep -E '(enum|struct) '; }
conversions() {
    src '^ *(pub )?fn [a-z_]+\([a-z_]+: (Option<|Result<|[A-Z])[A-Za-z0-9, <>()]*\) -> (Option<|Result<)?[A-Z]' |
        grep -vE 'fn (from|try_from|new|main)\b|Global|tests.rt'
}
echo "1. own enums of the shape of Option or Result, flags beside values, numbers for kinds or refusals"
count "enums" src '^ *(pub(\(crate\))? )?enum '
count "enums and structs that are copied and not compared" without_comparison
count "arms that give a refusal its number" src '^ +[A-Za-z]+::[A-Za-z]+ => [0-9]+,'
count "variants that mean nothing is there" src '^ +(Unknown|Nothing|Blank),'
count "numbers for kinds, and flags, in structs" src '^ +pub (kind: u8|[a-z_]+: bool),'
count "an allocation's error by hand" src 'Err\(AllocError\)'
echo "2. twins"
count "tests that a frame can name a port and a device" src 'fn (is_address|address_fits|addressable|is_addressable)\('
count "searches of a bank" src 'fn find[a-z_]*\('
count "functions and types per kind of result or fault" src 'fn (told_as|data_as|done_as|told_frame|told_read|told_taken|told_done|data_line|told_line|told|event_told)\(|struct [A-Za-z]*FaultAt'
count "changes with a struct of their own" src 'impl Change<'
count "lists of line, count, finish and reset" src '^ +Finish \{'
echo "3. loops"
count "loops" src '^ *(for|while|loop)\b|= loop'
count "loops over an index, or that search by hand" src '^ *for .*(enumerate\(\)|0\.\.)|for other in earlier|for entry in entries \{|u64::MAX'
echo "4. conversion and printing by hand"
count "functions from one type to another" conversions
count "functions that print" src 'fn (reason|hex_digit|nibble|digit_char|data_line|told_line|number_line)\b'
echo "5. facts in contracts, and parameters that travel together"
count "a port beside a device" src 'port: u8'
count "requires clauses" src '^ +requires'
count "lines and counters beside one another" src 'lines: u32, slots: &'
echo "6. buffers with a length beside them"
count "fixed buffers" src 'vec!\[in |\[0u8;'
echo "7. which step to run"
count "traits with one function, and steps as data" src 'trait Change|enum Step'
