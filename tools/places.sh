#!/usr/bin/env bash
# Lists the places in src/ that the design pass counts (docs/DESIGN-PASS.md), point by point, with a count behind each list: at a commit, or in the
# tree as it is.
#   tools/places.sh [COMMIT]
set -u
cd "$(dirname "$0")/.." || exit 1
at=${1:-}
shown() {
    local title=$1; shift
    local lines
    lines=$(git grep "$@" $at -- 'crates/*/src/*.rt' | sed "s|^$at:||" | grep -vE '^[^:]*:[0-9]+:\s*//')
    echo "== $title: $(printf '%s' "$lines" | grep -c .)"
    printf '%s\n' "$lines" | grep . | sed 's/^/   /'
}
shown '1a own enums' -nE '^\s*(pub )?enum '
shown '1b fields that are flags' -nE '^\s*(pub )?[a-z_]+: bool,$'
shown '1c numbers for kinds, operations and refusals' -nE '\b(kind|op|fault|bar|got): (u32|u64|isize)\b|\blet (op|fault|bar)\b'
shown '2a functions that the list of orders splits in two' -nE 'fn (line_of|line_at|fault_of|lines_fault|crowded|lines_crowded|mark_keys|open|open_parallel|read_till|read_till_parallel|begin)\b'
shown '2b functions and types of one model each' -nE '(fn vulzegan_[a-z_]+|fn (order_found|turn|close|list_front))\b|Device::(Gateway|Kiosk),'
shown '2c the answer of a call beside what it leaves' -nE '^pub struct (Replied|Turned|Moved|Given|Migrated|Stepped|Carried|Ordered|Worked|Told|Done|Answered|Dealt)\b'
shown '2d lists of calls run' -nE 'fn run_[a-z_]+'
shown '2e the same test for one, two or three, below the count or past it' -nE 'fn ((one|two|three)_cells?|(worker|carrier)_ok)\b'
shown '3 loops whose condition is written out' -nE '^\s*(while .*|loop) \{$'
shown '4a matches that give a truth value' -nE '=> (true|false),$'
shown '4b numbers of variants' -nE '::[A-Z][A-Za-z]+ => [0-9]+,$'
shown '4c tests written as a ladder' -nE '^\s*return (true|false);$'
shown '4d bytes compared or copied by hand' -nE 'same_bytes\(|\bout\[[a-z]+\] = bytes'
shown '5a lists lent in parts' -nE '^\s*(order_keys|order_prices|order_workers|ops|lines|keys|prices): &(mut )?\[u(32|64)\],$'
shown '5b a hash function with its length' -nE 'hash: Hash, (length|size): u32'
shown '6a a buffer and a place in it' -nE 'out: &mut \[u8\], at: usize|^\s*at: usize,$'
shown '6b items in one slice of three parts' -nE 'items: &(mut )?\[u32\]'
shown '7 switches on a kind or an operation' -nE '\b(kind|op) (==|!=) [0-9]'
