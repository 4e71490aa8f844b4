# Completion of pmp for bash.
_pmp() {
    local word=${COMP_WORDS[COMP_CWORD]} before=${COMP_WORDS[COMP_CWORD - 1]} files= words=
    local commands='check why audit policy dump map picture entries writes lint diff harts import plan'
    if [ "$COMP_CWORD" = 1 ]; then
        COMPREPLY=($(compgen -W "$commands help --help --version" -- "$word"))
        return
    fi
    case ${COMP_WORDS[1]} in
        check) words='--explain --after --expect --names M S U fetch load store stdin'; files=yes ;;
        why) words='--explain --after --names --format M S U fetch load store stdin'; files=yes ;;
        audit) words='--explain --checkers --long --jobs --first-row --names stdin'; files=yes ;;
        policy) words='--explain --each-write --all --strict --from --names --format stdin'; files=yes ;;
        dump) words='--explain --after --script stdin'; files=yes ;;
        picture) words='--explain --after --names stdin'; files=yes ;;
        map | entries) words='--explain --after --names --format stdin'; files=yes ;;
        writes) words='--explain --accept --format stdin'; files=yes ;;
        lint) words='--explain --accept --names --format stdin'; files=yes ;;
        diff) words='--explain --old-after --new-after --only --locks --names --format stdin'; files=yes ;;
        harts) words='--explain --locks --names --format'; files=yes ;;
        import)
            words='--explain --hart --xlen --entries --grain --address-bits --smepmp --bursts --folder stdin'
            case $COMP_CWORD,$word in
                2,-*) ;;
                2,*) words='qemu gdb openocd spike dump' ;;
                *) files=yes ;;
            esac
            ;;
        plan)
            words='--explain --xlen --entries --grain --address-bits --smepmp --mml --mmwp --rlb --from --keep --while-m'
            words+=' --c --of stdin'
            files=yes
            ;;
        help) words="$commands script trace names rows" ;;
    esac
    case $before in
        --expect) words='allow fault' files= ;;
        --only) words='more less' files= ;;
        --accept)
            words='rlb-left-on mmwp-off open-before-locked never-decides write-and-execute open-between late-write'
            [ "${COMP_WORDS[1]}" = lint ] ||
                words='absent bits frozen tor reserved lockdown sticky bypass grain differs'
            files=
            ;;
        --format) words='csv json markdown junit sarif' files= ;;
        --checkers) words='1 2 3 4 5 6 7 8' files= ;;
        --xlen) words='32 64' files= ;;
        --smepmp) words='yes no' files= ;;
        --after | --old-after | --new-after) words='last mml mmwp rlb-clear' files= ;;
        --jobs | --first-row) words= files= ;;
        --names | --folder) words= files=yes ;;
        --hart | --entries | --grain | --address-bits) words= files= ;;
    esac
    COMPREPLY=($(compgen -W "$words" -- "$word"))
    [ -z "$files" ] || COMPREPLY+=($(compgen -f -- "$word"))
}
complete -o filenames -F _pmp pmp
