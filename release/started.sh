# For a script to read: $work is a folder for its temporary files, and $child the process that it waits for. When it
# ends, also by a signal, both are gone.
child=
work=$(mktemp -d) || exit 3
clean() {
    [ -z "$child" ] || { kill "$child"; wait "$child"; } 2>/dev/null
    rm -rf "$work"
}
trap clean EXIT
for it in 129:HUP 130:INT 131:QUIT 141:PIPE 143:TERM; do trap "exit ${it%:*}" "${it#*:}"; done
