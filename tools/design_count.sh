#!/bin/bash
# Counts the places of docs/DESIGN-PASS.md in the code of a commit: one line for each pattern, and with -l the places themselves.
# Usage: tools/design_count.sh [-l] COMMIT
list=no
if [ "$1" = "-l" ]; then list=yes; shift; fi
commit=${1:?"a commit"}

src() { # POINT WHAT PATTERN: lines of the code that match
    local found
    found=$(git grep -nE "$3" "$commit" -- 'crates/*/src/*.rt' | sed "s/^$commit://")
    printf '%-3s %4d  %s\n' "$1" "$(printf '%s' "$found" | grep -c .)" "$2"
    if [ $list = yes ] && [ -n "$found" ]; then printf '%s\n' "$found" | sed 's/^/        /'; fi
}
files() { # POINT WHAT PATTERN: files that match
    printf '%-3s %4d  %s\n' "$1" "$(git ls-tree -r --name-only "$commit" crates | grep -cE "$3")" "$2"
}
lines() { # POINT WHAT PATTERN: lines of the files that match
    printf '%-3s %4d  %s\n' "$1" "$(git ls-tree -r --name-only "$commit" crates | grep -E "$3" | sed "s/^/$commit:/" | xargs git show | wc -l)" "$2"
}

src 1a 'enums of our own' '^(pub )?enum '
src 1b 'structs that hold a result beside a value' '^ *(pub )?(late: Found|reply: Reply|outcome: Outcome|end: End),$'
src 1c 'a number tested as a flag' 'numbers\.number (==|!=) 0'
src 1d 'numbers for kinds' 'rank_of\([0-9]|BODY\[[0-9]\]|put_byte\([0-9]|^ *put\(&\[[0-9]'
src 1e 'numbers for side and part' '(side|part) == 0|match (entry\.side|part) |, [01], (at, out|middle, out|to)\)'
src 2 'functions that differ in a type, a size or a constant' '^ *(pub )?fn ((task|channel|relation|side|phase)s?_(formed|zero|place|fits|front)|(entry|head)_fits|rate_front|put_(byte|u16|u32|task|channel|rate|relation|tasks|channels|relations|rates|links)|two|four|task_of|head_of|entry_of|relation_of|find|find_among|smaller|larger|underflow|overflow)\b'
src 3 'while loops' '^ *while '
src 4a 'equality, order, copying, conversion by hand' '^ *(pub )?fn (task_zero|side_zero|channel_zero|relation_zero|zeros|same_list|numbers_of|three|stop_reply|outcome_of|two|four|signed_of|wrapped|put_u16|put_u32|wide|copy|fill|smaller|larger|left|around|kind_of|rank_of)\b'
src 4b 'true and false handed back by hand' 'return (true|false);|^ *(true|false)$|\{ true \} else|\{ false \} else'
src 5a 'clauses: the tasks are few or in range' '(requires|ensures).*(All TaskRange|n ≤ max_tasks|Sound tasks)'
src 5b 'clauses: the graph is well formed' '(requires|ensures).*(WellFormed|HoldsOne|LaidOut)'
src 5c 'clauses: sides of a channel in range, with their sums' '(requires|ensures).*(Kept |Searchable|Repeats \(|Cased|Row \(|Listed|Tabled)'
src 5d 'clauses: what stands behind a record' '(requires|ensures).*(Fills|Stood|Counts s|s\.floor ≡)'
src 5e 'parameters: floor and counts, lists and sums of two sides' '(^|[^b]) (ntasks|nchannels|nrelations): usize|(tprefix|gprefix|pprefix): |tprefix, tcycle'
src 6a 'fields: a count beside an array' '^ *(pub )?(plen|clen|ntasks|nchannels|nrelations|count): usize,$'
src 6b 'arrays by value: parameters, and fields of structs that are not public' '^ *[a-z]+: \[(u8|u16|u32|u64|[A-Z][a-z]+); [A-Za-z0-9:]+\],$|\(([a-z]+): \[[A-Za-z0-9]+; [A-Za-z0-9:]+\], '
src 7 'switches on a step, tables of functions' 'dyn |Box<|: fn\(|impl Fn'
files 8a 'answer files' 'proofs/.*Answers\.antt$'
files 8b 'invariant files' 'proofs/.*Invariants\.antt$'
files 8c 'lemma files' 'crates/[a-z_]+/proofs/[A-Z][A-Za-z]*\.antt$'
lines 8d 'lines of proofs' 'crates/[a-z_]+/proofs/.*\.antt$'
lines 8e 'lines of code' 'crates/[a-z_]+/src/.*\.rt$'
