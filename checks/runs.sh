# What checks/program, checks/audits and checks/examples share: runs of pmp, which `on_path` puts on the path.
input='pmp: refused 41 Input'
output='pmp: refused 42 Output'
long='pmp: refused 17 TooLong'
# A page that user mode may load from, by entry 0 after the first publication, and by entry 1 after the second.
two_steps='pmp 1
write pmpaddr0 0x200001ff
write pmpcfg0 0x19
publish
write pmpcfg0 0x1900
write pmpaddr1 0x200001ff
publish'

# refuses COMMAND LINE [STATUS]: the command ends with this status, or 3, and this line of standard error.
refuses() {
    timeout 600 sh -c "$1" >"$work/out" 2>"$work/err"
    equal "$1" "$?, $(cat "$work/err")" "${3:-3}, $2"
}

# told_whole COMMAND LINE: it is refused with status 2 and this line, which goes out in one write. It needs tight.so.
told_whole() {
    refuses "ROOM=10000 LD_PRELOAD=$work/tight.so $1 3>$work/writes" "$2" 2
    equal "the writes of $1" "$(cat "$work/writes")" w
}

# answers COMMAND LINE: the command ends with status 0 or 1, and this is its first line.
answers() {
    timeout 600 sh -c "$1" >"$work/out" 2>"$work/err"
    case $? in
        0 | 1) equal "$1" "$(head -n 1 "$work/out")" "$2" ;;
        *) fail "$1: $(cat "$work/err")" ;;
    esac
}

# bytes COUNT BYTE: so many bytes.
bytes() {
    head -c "$1" /dev/zero | tr '\0' "$2"
}

# script_of SIZE: a script of so many bytes, whose last lines let user mode read a page.
script_of() {
    end='write pmpaddr0 0x200001ff\nwrite pmpcfg0 0x19\npublish\n'
    printf 'pmp 1\n#'
    bytes $(($1 - 8 - $(printf "$end" | wc -c))) x
    printf "\n$end"
}
