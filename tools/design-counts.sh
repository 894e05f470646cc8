#!/usr/bin/env bash
# Lists the places of each point of docs/DESIGN-PASS.md in the sources at a commit, or, with no commit, in the working tree, and counts them.
# A line is a place to look at; which of them are none stands on the page.
set -eu
cd "$(git rev-parse --show-toplevel)"
commit=${1-}

find_lines() { # POINT WHAT PATTERN [LEFT-OUT]
    local lines
    lines=$(git grep -nE "$3" $commit -- 'crates/*/src/*.rt' 'crates/*/src/**/*.rt' | sed "s/^$commit://" | { [ -n "${4-}" ] && grep -vE "$4" || cat; } || true)
    printf '%s %s: %s\n' "$1" "$2" "$(printf '%s' "$lines" | grep -c . || true)"
    [ -z "${VERBOSE-}" ] || printf '%s\n' "$lines" | sed 's/^/    /'
}

find_lines 1 'errors in an Option, answers of one type with their refusal, enums that say whether' \
    'Refused\(Refusal\)|-> Option<Refusal>|Some\(Refusal::|^    (Alone|Joins),'
find_lines 1 'kinds told by their numbers' \
    '(match|if) [a-z_.]*\btag\b|\btag (==|<|>|<=|>=|!=)|match row\.tag\(\)|match (operation|op) \{'
find_lines 1 'kinds passed as numbers' '\b(joint|tag): u32' 'pub tag'
find_lines 1 'kinds and refusals written as numbers' \
    '(joint_row|term_row|place|combine|joined|passive|row|item)\([0-9]|\btag: [0-9]|=> \([0-9]|::[A-Za-z]+(\(Joint::[A-Za-z]+\))? => [0-9]+,|^(pub )?const [A-Z]+: u(16|32) = [0-9];' \
    'crates/edges/|RUNS|UNITS'
find_lines 2 'rows, shapes and constants that are written in more than one place' \
    'macro_rules!|^(pub )?fn (row|item|passive|joined|chains|sum_of)\(|const (UNUSED|BLANK_ROW|BLANK_TERM|MOST_NAMES|MOST_VARIABLES|MOST_WAITING|SKIP|RAISE|SEQUENCE|CHOICE|CATCH|ASSERT|ASSUME|ASSIGN|PLUS|MINUS|LESS|EQUAL)\b'
find_lines 2 'functions, impls and facts that differ in a type or a number' \
    'fn (place|place_of|guard_row_count|guard_node_count|tables_suffice|sequence_nodes|catch_nodes|choice_nodes|write_tail|write_guard)[<(]|impl TermItem for|ghost (two|placed):|^pub struct (Passive)?TermRow' \
    'crates/routine/src/checks.rt'
find_lines 3 'loops over an index, and counters kept by hand' \
    'for [a-z]+ in [0-9a-z]+\.\.|\bnext \+= 1|= at\.wrapping_add' 'for (_|turn|number) in'
find_lines 4 'equality by hand' '\.0 (==|!=) (other|b|node)'
find_lines 4 'printing and conversion by hand' \
    'let (number|name|node) = [a-z.]+(\(\)|\.0);|fn [a-z_]+_text\(|-> &.static str|fn (number|tag|sign)\(|\.into\(\)|u32::from\(\*?[a-z]+\.0'
find_lines 6 'arrays and tables of fixed length, and how much of them is used' \
    ': \[[A-Za-z]+; [A-Za-z0-9_ ]+\]|^    (used|height|count|len): (u32|usize),|: Vec<'
find_lines 7 'switches on which step to run' 'match (call|number) \{|\bdyn\b|impl Fn|: Fn(Mut|Once)?\(|fn\('
