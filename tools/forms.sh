#!/usr/bin/env bash
# Lists the lines of src/ in which an older form may stand, by the points of docs/DESIGN-PASS.md: tools/forms.sh [COMMIT].
# Each line is a candidate to be read, not a verdict.
set -euo pipefail
cd "$(dirname "$0")/.."
commit=${1:-HEAD}

list() {
    local point=$1 pattern=$2 found
    found=$(git grep -nE "$pattern" "$commit" -- 'crates/*/src/*.rt' | sed "s/^$commit://" || true)
    echo "$point: $(printf '%s' "$found" | grep -c . || true)"
    if [ -n "$found" ]; then printf '%s\n' "$found" | sed 's/^/    /'; fi
}

# 1: enums that may be an Option or a Result by another name; numbers for kinds; numbers and flags as answers.
list 1a '^(pub(\(crate\))? )?enum '
list 1b '\b(kind|form|constant): u(8|16)\b|match (self\.number\(\)|frame\.kind|kind) \{|\b(kind|form) (==|!=) [0-9]|operation as u8'
list 1c 'Result<[^<>]*, (u8|u16|u32|usize)>|Result<bool|-> Option<Result|Result<Option<(Next|Result)'
list 1d '(Some|Ok)\([a-z_]+\) => (return )?(Ok|Some)\(|None => (return )?Err\(|let (Some|Ok)\([a-z_]+\) = .* else \{'
# 2: types and functions that may be twins.
list 2a 'fn (size|write|size_of|write_sheet|push|push_[a-z]+|len|quick_[a-z]+|hold[a-z_]*|let_go[a-z_]*)\b'
list 2b 'fn (one|two|handle|kind)_[a-z_]+|fn (named|set_walk|set_output|print_[a-z]+|build_[a-z]+)\b'
# 3: loops.
list 3 '^ *(for|while|loop)\b'
# 4: equality, order, copying, conversion and printing.
list 4 'fn (same_as|words|named|stored|layer_word|two|four|put_two|put_bytes|higher|is_used|is_same|text)\b|fn new\([a-z]+: u32\)|fn number\(self\)|print_hex\(|if x < y|% 256'
# 5: structs, and what travels together.
list 5a '^ *requires [a-z]* ?\{'
list 5b '^ *(rt: &HostRuntime|places: &(mut )?Places|store: &(mut )?S|layout: &Layout|lane: &(mut )?Lane|reader: &mut Reader.*),$'
# 6: arrays of a fixed length, and lengths beside them.
list 6 '^ *(pub(\(crate\))? )?[a-z_]+: (\[[A-Za-z0-9_<>]+; [0-9]+\]|&.* \[[A-Za-z0-9_]+\]|usize),$'
# 7: a match on a step, functions as values.
list 7 '(Fn|FnMut|FnOnce)\(|\bdyn\b|match (call|operation|command|line\.command|verb) \{|fn (build|keep|on_lists|set_up)\b'
