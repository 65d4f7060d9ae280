#!/bin/sh
# Counts what docs/DESIGN-PASS.md counts, a line a command, in the repository's root. Each command is a net: the page says which of its
# hits are places.
here=$(dirname "$0")
n() { printf '%-34s %s\n' "$1" "$2"; }
n 'own enums' "$(grep -nE '^ *(pub(\(crate\))? )?enum ' crates/*/src/*.rt | wc -l)"
n 'flags and replies beside values' "$(grep -nE '[(, ][a-z_]+: bool[,)]|^ *(pub(\(crate\))? )?[a-z_]+: (bool|[A-Z][A-Za-z]*Reply),$' crates/*/src/*.rt | wc -l)"
n 'kinds as numbers' "$(grep -nE '\b(kind|region|field_type|number|call): (u8|u32|u64|usize)\b' crates/*/src/*.rt | wc -l)"
n 'tests of such numbers' "$(grep -nE 'region == 0|kind == 0|block\.id == 0|field_type (==|!=)|[^&]kinds\[|row\[1\] [!=]=' crates/*/src/*.rt | wc -l)"
n 'numbers for none' "$(grep -nE '0xFFFF_FFFF_FFFF_FFFF|usize::MAX|return at;|(=>|return) (0|16|34)[,;]|^ +34$|else \{ 0 \}|== count\b|LINE \+ 1|b"overrun"' crates/*/src/*.rt | wc -l)"
n 'equal bodies, groups' "$(sh "$here/twins.sh" tokens | wc -l)"
n 'equal control flow, groups' "$(sh "$here/twins.sh" flow | wc -l)"
n 'twins by name' "$(grep -nE 'fn (has|put)_(u32|words|entry|entries|file_wrapper)\(|fn (wide|widen|chunk_end|read_full|copy_bytes|copy_words|part|text_part|first_[a-z0-9]+|same|same_words|[a-z0-9]*_?buffer|checked_product|dimension_product|sequence_at|code_point|object_record|edit_store|append(_at|_length)?|replace(_at|_length)?)\(' crates/*/src/*.rt | wc -l)"
n 'while and loop' "$(grep -nE '^ *(while|loop)\b' crates/*/src/*.rt | wc -l)"
n 'of these, by a constant step' "$(sh "$here/loops.sh" | grep -c ' CONST ')"
n 'errors handed on by an arm' "$(grep -nE '(Error|Failed|Refused|Err)\(e\) => ([A-Za-z]+::)?(Error|Failed|Refused|Err)\(e\)' crates/*/src/*.rt | wc -l)"
n 'errors handed on by a test' "$(grep -nE 'if let (Checked::Failed|ParseReply::Error|Err)\(e\)' crates/*/src/*.rt | wc -l)"
n 'unreadable handed on' "$(grep -nE 'let (Number|CountsReply)::[A-Za-z]+\(|let (ArrayLengths|StoreLengths)::Of \{$' crates/replay/src/*.rt | wc -l)"
n 'casts' "$(grep -nE '\bas (u8|u16|u32|u64|usize)\b' crates/*/src/*.rt | wc -l)"
n 'min, max, saturating by hand' "$(grep -nE 'if [^{]*<=? [^{]*\{ [^}]* \} else \{ [^}]* \}' crates/*/src/*.rt | wc -l)"
n 'matches of a whole function' "$(grep -nE '^    match |^    let [a-z]+ = match ' crates/*/src/*.rt | wc -l)"
for fact in 'Opens' 'IsDirectory' 'Ready' 'PassedTriples' 'TriplesIn' 'ToNames' 'store_of|store_with' '4096'; do
  n "contracts with $fact" "$(python3 "$here/facts.py" contract "$fact")"
done
for names in 'blob w' 'directory kinds words' 'dims text spans' 'objects blob_bytes used' 'text spans' 'first end' 'o out'; do
  n "functions with $names" "$(python3 "$here/facts.py" params $names)"
done
n 'flat pairs' "$(grep -nE '\[2 \* |(ops|replies|spans|directory)\[at' crates/*/src/*.rt | wc -l)"
n 'buffers cut to a length beside' "$(grep -nE '(part|first_units|first_words32|first_words)\(&?[a-z_]+, (0, )?[a-z_]+\)|(&mut |&)[a-z_]+\[0?\.\.[a-z_]+\]' crates/*/src/*.rt | wc -l)"
n 'indices and counts as fields' "$(grep -nE '^ *(pub(\(crate\))? )?(start|end|first_id|ids|at|next|base|strings|byte|string|o[0-7]|block|best|zeros|stride|normalobj|count): (usize|u64)[,]$' crates/*/src/*.rt | wc -l)"
n 'switches' "$(grep -nE 'match (call|owner|edit|way|kind|part|source|verdict)\b|if (by_metadata|kind == 0|region == 0|block\.region == 0|row\[1\])' crates/*/src/*.rt | wc -l)"
n 'lines of proof' "$(find crates/*/proofs -name '*.antt' | xargs cat | wc -l)"
n 'functions with answers' "$(find crates/*/proofs -name 'Answers.antt' | wc -l)"
