#!/usr/bin/env bash
# The lines of crates/*/src at a commit in which a place of the design pass may stand, for each of its points.
# What is a place among them is found by reading; docs/DESIGN-PASS.md has the list.
# Usage: tools/places.sh COMMIT [POINT]
set -euo pipefail
cd "$(dirname "$0")/.."
commit=$1

declare -A lines=(
    [1]='^(pub )?enum |^(pub )?const [A-Z_]+: (u8|u16|usize|i64|Windows?|&str) = |Option<PlanFault>|\(u8, u8\)|[a-z]: bool[,)]|unwrap_or\('
    [2]='^ *(pub )?fn |^(pub )?struct '
    [3]='enumerate\(|get_mut\(|\.get\(|for [a-z_]+ in [0-9a-z_]+\.\.|^ *while |\[[a-z][a-z_]*\]'
    [4]='impl (PartialEq|Eq|Ord|From<.*>|TryFrom<.*>|fmt::Display) for |println!| == [a-z_.]+ && | as u(8|16|32)|=> Err\('
    [5]='gap: Gap, way: Way|earliest: u32|u32, u32|type [A-Z][A-Za-z]* = \(|requires|ghost [a-z_]+:'
    [6]='\[[A-Za-z0-9_]+; [A-Z0-9_]+\]|\}; [0-9]+\]|\[0; |Vec<'
    [7]='match (act|choice|number|rule|room) \{|: bool\) ->|fn table\(|enum (Act|Choice)'
)

for point in ${2:-1 2 3 4 5 6 7}; do
    git grep -nE "${lines[$point]}" "$commit" -- 'crates/*/src/*.rt' | sed "s/^/$point /" || true
done
