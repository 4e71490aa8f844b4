# What the checks in sh share. `. "$(dirname "$0")/tally.sh"` goes to the top of the repository, and makes the folder
# $work, which is gone at the end; `tally` is a check's last command.
top=$(cd "$(dirname "$0")/.." && pwd) && cd "$top" && work=$(mktemp -d) || exit 1
trap 'rm -rf "$work"' EXIT
passed=0
failed=0

pass() {
    passed=$((passed + 1))
}

fail() {
    printf 'failed: %s\n' "$1"
    failed=$((failed + 1))
}

# equal NAME GOT WANTED
equal() {
    if [ "$2" = "$3" ]; then pass; else fail "$1: '$2', not '$3'"; fi
}

# same NAME GOT WANTED: the two are the same lines, and not none.
same() {
    if [ -n "$2" ] && [ "$2" = "$3" ]; then pass; else fail "$1: '$2', not '$3'"; fi
}

# alike NAME FILE FILE: the two files have the same bytes, and not none.
alike() {
    if [ -s "$2" ] && cmp -s "$2" "$3"; then pass; else fail "$1: $(cmp "$2" "$3" 2>&1)"; fi
}

# try NAME COMMAND..: the command succeeds, in a shell of its own. What it writes is told where it doesn't.
try() {
    tried=$1
    shift
    if ("$@") >"$work/log" 2>&1; then pass; else fail "$tried: $(tail -n 20 "$work/log")"; fi
}

# passed_over WHAT PACKAGE: what isn't tried here, and what to install for it. checks/all repeats that at its end.
passed_over() {
    echo "passed over: $1: install $2"
}

# passed_over_whole WHAT PACKAGE: nothing of this check is tried here, and it ends.
passed_over_whole() {
    passed_over "$1" "$2"
    echo '0 passed, 0 failed'
    exit 0
}

# kitless: the folders of the path that have no rt.
kitless() {
    echo "$PATH" | tr : '\n' | while read -r folder; do [ -e "$folder/rt" ] || echo "$folder"; done | paste -sd:
}

# sources_in FOLDER: puts what make needs there, and none of what it makes.
sources_in() {
    for crate in crates/*; do
        mkdir -p "$1/$crate" || return 1
        for part in src specs proofs; do [ ! -d "$crate/$part" ] || cp -r "$crate/$part" "$1/$crate"; done
    done
    cp -r pmp Makefile VERSION LICENSE-* NOTICE ./*.md crates.txt release include docs bindings completions examples conformance \
        integrations bench portable prebuilt web "$1" && rm -rf "$1/web/out"
}

# links_by COMPILER WORD..: the compiler is there, with the libraries that it links a program with by these words.
links_by() {
    echo '#include <stdio.h>
int main(void) { return puts("") < 0; }' | "$@" -x c - -o "$work/linked" >/dev/null 2>&1
}

# needs_cc WHAT: where no C compiler makes programs, what this check tries is told as passed over, and it ends.
needs_cc() {
    links_by ${CC:-cc} || passed_over_whole "$1" 'gcc and libc6-dev'
}

# samples PAGE: each command of pmp that the page shows with its first line, as two lines: in a row of a table, or after
# a dollar sign, where the line below is the first one.
samples() {
    awk -F '`' '/^\| `\.\/pmp / { print substr($2, 7); print $4 }
        is_next { is_next = 0; print clean($0) }
        /^\$ \.\/pmp / { is_next = 1; print substr(clean($0), 9) }
        function clean(line) { sub(/ +#.*/, "", line); return line }' "$1"
}

# snippet PAGE LANGUAGE: the page's first block of code in the language.
snippet() {
    awk -v first="\`\`\`$2" '$0 == first && !count { count++; is_in = 1; next } /^```/ { is_in = 0 } is_in' "$1"
}

# links_lead FILE: the file lists pages, a path a line. They have links, and each leads to a file that is there.
links_lead() {
    while read -r page; do
        grep -o '\]([^)#: ]\{1,\}' "$page" | cut -c 3- | while read -r link; do
            if [ -e "$(dirname "$page")/$link" ]; then echo; else echo "$page: $link isn't there"; fi
        done
    done <"$1" >"$work/links"
    ! grep . "$work/links" && [ -s "$work/links" ]
}

# commands_of PROGRAM: the commands that its help lists. options_of PROGRAM COMMAND: the options that its help lists.
commands_of() {
    "$1" --help | sed -n '/^Commands:/,/^$/s/^  \([a-z]*\) .*/\1/p'
}

options_of() {
    "$1" help "$2" | sed -n '/^Options:/,/^$/s/^ *\(-., \)\{0,1\}\(--[a-z-]*\).*/\2/p'
}

# shared_object NAME: compiles checks/NAME.c to $work/NAME.so, which LD_PRELOAD takes.
shared_object() {
    ${CC:-cc} -O2 -std=c11 -Wall -Wextra -shared -fPIC "checks/$1.c" -o "$work/$1.so" || exit 1
}

# on_path PROGRAM: puts a copy of the program on the path as pmp, which any user may run.
on_path() {
    chmod 755 "$work" && mkdir "$work/bin" && cp "${1:-crates/pmp_tool/out/pmp_tool}" "$work/bin/pmp" \
        && chmod 755 "$work/bin" "$work/bin/pmp" || exit 1
    PATH=$work/bin:$PATH
}

# The last line. The status is 0 where something passed and nothing failed.
tally() {
    echo "$passed passed, $failed failed"
    [ "$failed" = 0 ] && [ "$passed" != 0 ]
}
