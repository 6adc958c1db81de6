#!/bin/sh
# Where older forms of code may stand: for each search its pattern, and the number of lines of src/ that it finds.
# A line found is a place to look at, and no verdict. Usage: tools/places.sh [-l] [FOLDER]; with -l the lines too.
list=
if [ "$1" = -l ]; then list=1; shift; fi
cd "${1:-.}" || exit 1
look() {
    printf '%s\t%s\t%s\n' "$1" "$(grep -rhE -e "$2" crates/*/src --include='*.rt' | wc -l)" "$2"
    if [ -n "$list" ]; then grep -rnE -e "$2" crates/*/src --include='*.rt'; fi
}
look 1 '=> [0-9]+,$'
look 1 'match [a-z.]*(kind|code) \{'
look 1 '-> Option<u16>|or 0$'
look 1 'enum (Reply|Shape|Compared|Entry|SheetFault|Call)'
look 2 'fn (label|name|variable|add_|takes_|push_|expect)[a-z_]*[(<]'
look 2 'fn (has|holds|within|apart|add|same|node|read_input|entry_of|node_of|step_of)[(<]'
look 2 'SheetFault::Refused \{$'
look 3 'for [a-z_]+ in \(?[0-9a-zN(]+\.\.'
look 3 'while [a-z_.]+(\(\))? [<>=!]'
look 3 '[a-z_)]\[[a-z_.0]+( - 1| as usize)?\]'
look 4 'fn (number|number_of|place|written|verb|same|copy|direction_of|[a-z]+_of)\('
look 4 '\.0 (==|!=|<|<=|>|>=) [a-z_]+\.0'
look 4 ' as char|256 \*|Err\(AllocError\)'
look 5 '(requires|ensures).*(Tracks|Sound|length known|∥ Good)'
look 5 'out: &mut String|heap: Global,$|at: usize'
look 6 'len: usize|at: usize|\[u8; 16\]|\[Step; 16\]|\[false; MOST_NODES\]|\[0u8; [A-Z]+\]'
look 6 'Vec<(u16|bool|VarSet|NodeNo)>'
look 7 'match (one|call|e|step) \{'
