#!/usr/bin/env bash
# Places in src/ that read like an older Rattle, point by point (docs/DESIGN-PASS.md says what each point is), and the size of the proofs.
# `bash tools/places.sh` counts them; `bash tools/places.sh -v` prints the lines too. An argument behind that is another checkout to count in.
set -u
verbose=${1:-}
cd "${2:-$(dirname "$0")/..}/crates"
count() { # what, pattern
    local lines
    lines=$(grep -rnE "$2" --include='*.rt' */src | grep -vE '^[^:]*:[0-9]*: *//')
    printf '%-74s %4d\n' "$1" "$(printf '%s' "$lines" | grep -c '')"
    if [ "$verbose" = -v ] && [ -n "$lines" ]; then printf '%s\n' "$lines" | sed 's/^/        /'; fi
}
plain='u8|u32|u64|usize|char|bool'
case='State|Blade|Blades|Event|Letter|Cause|ChartFault|LoadFault|Step|\[State; 3\]'
count '1a arms of a match on an Option or a Result' '(^|[ (])(None|Some\(.*\)|Ok\(.*\)|Err\(.*\)) =>'
count '1b is_err and the like on a value that could be handed on' '\.is_(err|ok|some|none)\(\)'
count '1c a refusal as an Option' '^ *(pub(\(crate\))? )?fn .*-> Option<(Cause|ChartFault|LockFault)>'
count '1d a number written by hand for a case' '=> \(?[0-9]+[,)]|heap, [0-9]+,'
printf '%-74s %4d\n' '2  names of functions that stand more than once' "$(grep -rhoE 'fn [a-z_0-9]+' --include='*.rt' */src | sort | uniq -d | grep -c '')"
if [ "$verbose" = -v ]; then grep -rhoE 'fn [a-z_0-9]+' --include='*.rt' */src | sort | uniq -cd; fi
count '3a loops over a range, while loops, counters' 'for \w+ in \w+\.\.|while |\+= 1'
count '3b all loops' '^ *(for|while|loop) '
count '4a casts' " as ($plain)"
count '4b functions from one number or case to another' "fn \w+\((self|&self|&?\w+: ($plain|$case|&\[u8\]))(, \w+: ($plain|Self))*\) -> (Self|$plain|$case|Ordering|Option<(u32|Letter)>|&'static str)( |$)"
count '4c functions that make a text' '^ *(pub(\(crate\))? )?(fn .*|\)) -> Result<String, AllocError>$'
count '5a requires' '^ *requires'
count '5b the four members of a measure' 'M\.nothing M\.step_value M\.joined'
count '5c an allocator as a parameter' 'heap: Global'
count '6  arrays' '\[\w+; \w+\]|\[\w+ \{.*\}; \w+\]|count: usize'
count '7  function pointers, dyn, switches on a step' 'fn\(|\bdyn\b|Box<'
printf '%-74s %4d\n' '8a answers and invariants in proof files' "$(find */proofs -name 'Answers.antt' -exec cat {} + -o -name 'Invariants.antt' -exec cat {} + | grep -cE '^(abbrev )?pub [a-z]')"
printf '%-74s %4d\n' '8b lemmas and helper definitions in proofs/ and specs/' "$(cat */proofs/*.antt */specs/*.antt | grep -cE "^ *(abbrev |record |data )?(pub )?[A-Za-z][A-Za-z_0-9']* :")"
printf '%-74s %4d\n' '8c lines of proofs/' "$(find */proofs -name '*.antt' -exec cat {} + | grep -c '')"
