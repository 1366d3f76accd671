#!/bin/bash
# Lists the lines of the source in which the places of a point of docs/DESIGN-PASS.md can stand:
#   tools/places.sh 3
cd "$(dirname "$0")/.." || exit 1
all=$(find crates/*/src -name '*.rt' | sort)
own=$(find crates/*/src -name '*.rt' -not -path '*/worked/*' | sort)
case $1 in
# enums, numbers in the place of refusals or kinds, results that are only wrapped anew
1) grep -nE '^ *(pub )?enum |\.number\(\)|u8\); [0-9]+\] =|== 0x|let Some|(Ok|Err)\([a-z]+\) => ' $all ;;
# every function and type, to be read side by side
2) grep -nE '^ *(pub(\(crate\))? )?(fn|struct|type|trait) ' $own ;;
3) grep -nE '^ *(for|while|loop) ' $all ;;
# comparisons and conversions by hand, and functions that give a text to print
4) grep -nE '^ *impl (PartialEq|Eq|PartialOrd|Ord|Clone|Copy|From|TryFrom)|-> &.static str|\(self\) -> u8|\(code: u8\)|: (Kind|Functionality|Mode)\) -> u8|^struct |-> char' $own ;;
# facts that several contracts repeat, and parameters that travel together
5) grep -nE 'written at|memory: &mut \[u8\], at: usize|WritesOnOk|≤ 128|IsTrue result|ensures \{ result ≡ number_from' $own ;;
# arrays of a fixed size and the counts beside them
6) grep -nE '^ *(pub(\(crate\))? )?[a-z]+: (\[[^]]*; [A-Z0-9]+\]|usize),$' $own ;;
7) grep -nE 'fn\(|dyn |step' $own ;;
# answers to goals, and lemmas
8) grep -nE '^pub ' $(find crates/*/proofs -mindepth 2 -name Answers.antt | sort)
   grep -nE '^ *(pub )?[^ ]+ : ' $(find crates/*/proofs -maxdepth 1 -name '*.antt' | sort) ;;
*) echo "tools/places.sh POINT, from 1 to 8" >&2; exit 2 ;;
esac
