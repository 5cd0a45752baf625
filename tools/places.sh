#!/bin/sh
# Prints, for each point of docs/DESIGN-PASS.md, the lines of crates/*/src that may be a place of it: FILE:LINE:TEXT.
# With a number as argument only that point. Tests lie in crates/checks/src and are read too.
set -u
cd "$(dirname "$0")/.."
src() { find crates/*/src -name '*.rt' | sort; }
lines() { src | xargs grep -nE "$1"; }
point() {
    case $1 in
    # Flags in structs, numbers as errors, results in results, sentinels, enums of the crates, number codes in tuples and tables.
    1) lines '^ *(pub(\(crate\))? )?[a-z_]+: bool,$|, (u8|u16|u32|u64|usize)> *$|Result<Result|Result<Option|Option<Result|unwrap_or\(0\)|^ *(pub(\(crate\))? )?enum |-> \(u8|\(&\[u8\], (u8|\()' ;;
    # Functions whose name stands twice or more, and calls or arms that repeat one another but for a constant.
    2) src | xargs grep -noE '(^|[^a-z_])fn [a-z_0-9]+' | sed -E 's/(.*:)[^f]*fn /\1fn /' | awk -F'fn ' '{n[$2]++; l[$2]=l[$2] $0 "\n"} END {for (k in n) if (n[k] > 1) printf "%s", l[k]}' | sort ;
       lines '^ *(pub(\(crate\))? )?fn (past_|read_(watch|plain|first|second)|taken|told|looked|report_words|closed_words|decimal|hexadecimal|show_.*fault|(flow|hammer)_port|.*_at\()' ;;
    # Loops over numbers, and loops on a condition.
    3) lines 'for [a-z_]+ in [0-9a-z_]+\.\.|\.enumerate\(\)|while ' ;;
    # Conversions, comparisons, printing by hand.
    4) lines 'self as u8|as isize|fn (at|of|of_[a-z]+|from|number|sign|text|same|same_[a-z]+|eq|cmp|clone|mark|reason|letter)\(|fn [a-z_]*_words\(|format!\(|fn (show|tell|put)_[a-z_]+|impl (From|TryFrom|.*Display)' ;;
    # Facts of contracts that stand thrice or more, with their lines.
    5) src | xargs grep -hoE '(requires|ensures)[a-z_ ]*\{.*\}' | sed -E 's/(requires|ensures)[a-z_ ]*//' | sort | uniq -c | awk '$1 >= 3' ;;
    # Fixed buffers, vectors side by side, indices into them.
    6) lines ': \[[A-Za-z0-9]+; [0-9A-Z]+\]|\[0u8; |^ *(pub(\(crate\))? )?[a-z_]+: Vec<|(operand|left|right|root): u8' ;;
    # Choices of a step, functions as values.
    7) lines 'dyn |: fn\(|impl Fn|Fn(Once|Mut)?\(|match (turn|act|kind|limit|step|read_seat|entry\.names)|report_lines::|Reports::of::' ;;
    # Answers and lemmas of the proofs.
    8) for c in crates/*/; do a=$(find "$c"proofs -name Answers.antt 2>/dev/null | xargs -r grep -hE '^pub ' | wc -l); l=$(find "$c"proofs "$c"specs -name '*.antt' 2>/dev/null | grep proofs | grep -v -E '/(Answers|Invariants)\.antt$' | xargs -r cat | wc -l); echo "$c answers $a lemma lines $l"; done ;;
    esac
}
if [ $# -gt 0 ]; then point "$1"; else for p in 1 2 3 4 5 6 7 8; do echo "== $p"; point $p; done; fi
