#!/bin/sh
# Counts, in the sources of a commit (default: HEAD), the places of older forms that docs/DESIGN-PASS.md speaks of.
# usage: tools/places.sh [-l] [COMMIT]      -l lists the places too
list=; [ "$1" = -l ] && { list=1; shift; }
rev=${1:-HEAD}
src() { git grep -nE -e "$1" "$rev" -- crates | grep -E '^[^:]*:crates/[a-z]+/src/' | sed 's/^[^:]*://'; }
count() {
    found=$(src "$2" | grep -vE "${3:-^$}")
    n=$(printf '%s' "$found" | grep -c '')
    printf '%-58s %4d\n' "$1" "$n"
    [ -n "$list" ] && [ -n "$found" ] && printf '%s\n' "$found" | sed 's/^/    /'
    return 0
}
count '1 a fault or none as an Option'             '-> Option<[A-Za-z]*Fault>'
count '1 the number of no cell'                    '\bNONE\b|u32::MAX|let none' '/vectors/|/splice/|/survey/|use |pub use'
count '1 a number for a kind of work'              'work: u32|match work'
count '1 a number for a refusal, 0 for none'       '0 where|=> 0,$|=> \(0, 0\)|number: u16|cause: u16|, u16\) \{|-> u16 \{'
count '1 a bool for what happened, or for a side'  '\) -> bool|flip: bool|pool: &mut Pool,$' 'pool: &mut Pool|reaches_band|outweighs|rotates_once'
count '2 limits written as numbers'                '1073741824|\b4095\b|[^_0-9]2048\b|: usize = 512|32767 - row' 'requires|ensures|ghost|/vectors/'
count '2 places that make a pile of layers' 'Gain::new\(Joined::new|Joined::new\(pcm, mulaw\)'
count '2 loops over the words of a command line' 'while i < words.len|fn (value|number|print_wave|read)\('
count '2 columns of an extent' 'edge_of\(extent|fn stretch'
count '2 mirror images' 'fn (tail_summary|head_summary|make_facing|link_facing|climb|regrow)<'
count '2 the start of a copy' 'if start >= len'
count '3 while'                                    '^ *while ' 'while let'
count '3 for over numbers'                         '^ *for [a-z_]+ in [^ ]*\.\.' 'for _ in'
count '3 counts kept by hand'                      '(\+|-)= 1;|\[i( as usize)?\]|\[n\]|\[l\]|\[r\]'
count '4 impls by hand'                            '^impl.* (Display|From<.*>|TryFrom<.*>|PartialEq|Ord|Clone|Default) for'
count '4 arms that pass a value on'                'None => None|Ok\(([a-z]+)\) => Ok\(\1\)|Err\(([a-z]+)\) => Err\(|None => Err\('
count '4 plain types without equality'             '^#\[derive\(Clone, Copy(, Drop)?\)\]'
count '5 functions with cells and a kind'          '^ *cells: &(mut )?\[Cell|cells: &(mut )?\[Cell<K'
count '5 functions with a pool'                    'pool: &(mut )?Pool'
count '5 clauses that a root stands'               'requires (live|sound) '
count '6 tables of cell numbers'                   '\[u32; 64\]|\[0(u32)?; 64\]'
count '6 how far a table is filled'                'top: usize|depth: usize|lefts: usize|rights: usize'
count '6 words with an index'                      'words\[i\]|i: usize\)|words, i\)'
count '7 a switch on what to do'                   'match work|if flip|match .*format'
