#!/usr/bin/env bash
# Lists the lines of src/ in which a place of each point of docs/DESIGN-PASS.md may stand, or counts them.
# usage: tools/places.sh [POINT]   (1 to 8; without one, the number of lines of each point)
set -euo pipefail
cd "$(dirname "$0")/.."
pattern() {
    case $1 in
    1) echo '^(pub )?enum |Result<Result|-> (u8|u16|u32|usize) ?(\{|$)|kind: u|u64::MAX|fid: 0|NoPort,$|Refused\(u8\)' ;;
    2) echo '^ *(pub |pub\(crate\) )?(extern "C" )?fn |^(pub )?struct |^#\[test\]' ;;
    3) echo 'for [a-z_]+ in [^{]*\.\.|while |loop \{|[a-z_]+ \+= 1|^ *(for|while) [^{]*enumerate' ;;
    4) echo 'fn (same|reads_as|words|empty|nothing|free|first_address)[a-z_]*\(|impl .*(Display|From|PartialEq|Ord|Clone|Debug|Default)|^#\[derive' ;;
    5) echo 'sound|Sound|Sits|Laid|is_fid [a-z.]* ≡ true|n ≤ 4096|fid: u8, address: \[u8; 6\]|n: u32, rounds: u32|memory: [^,]*, at: usize|bounds: [^,]*,' ;;
    6) echo "&'a mut \\[|used: usize|: \\[[A-Za-z0-9<>]+; [A-Z0-9]+\\],|\\[[^]]*start\\.\\.end\\]" ;;
    7) echo 'enum (Keep|Change|Task|Call|Step)|match (self|task|kind|call|change) \{|impl Fn|: Fn[A-Z(]|dyn ' ;;
    *) echo 'no such point' >&2; return 1 ;;
    esac
}
lines() {
    if [ "$1" = 8 ]; then
        find crates -path '*/proofs/*' -name '*.antt' -not -path '*/out/*' | sort
    else
        grep -nE -e "$(pattern "$1")" $(find crates -path '*/src/*' -name '*.rt' -not -path '*/out/*' | sort) | grep -vE '^[^:]*:[0-9]+: *//' || true
    fi
}
if [ $# -gt 0 ]; then
    lines "$1"
else
    for point in 1 2 3 4 5 6 7 8; do
        echo "$point: $(lines $point | wc -l)"
    done
fi
