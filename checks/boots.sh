# What the checks share that boot firmware on QEMU: `. checks/boots.sh` behind tally.sh. The payload tries the accesses of
# checks/probes.csv and writes what becomes of each, and they are compared with what $program answers to the trace.

# assemble SOURCE ADDRESS NAME XLEN: $work/NAME, for a hart of so many bits.
assemble() {
    abi=$([ "$4" = 32 ] && echo ilp32 || echo lp64)
    riscv64-unknown-elf-gcc -march="rv$4im_zicsr" -mabi="$abi" -mcmodel=medany -nostdlib -I"$work" \
        -Iexamples/plans -Wl,-Ttext="$2",--build-id=none "$1" -o "$work/$3" || exit 1
}

# payload XLEN: $work/payload, where OpenSBI jumps to on such a hart.
payload() {
    awk -F , 'NR > 1 { print "row " $2 ", " $3 ", " $4 ", " $5 }' checks/probes.csv >"$work/rows.h"
    count=$(grep -c '^row' "$work/rows.h")
    assemble checks/probes.S "$([ "$1" = 32 ] && echo 0x80400000 || echo 0x80200000)" payload "$1"
}

# boots NAME FIRMWARE QEMU..: boots the payload over this firmware, with the trace in $work/trace and what the payload
# writes in $work/console.
boots() {
    boot=$1 bios=$2
    shift 2
    timeout 60 "$@" -M virt -m 256M -display none -monitor none -serial stdio -bios "$bios" \
        -kernel "$work/payload" -D "$work/trace" -trace pmpcfg_csr_write -trace pmpaddr_csr_write \
        -trace mseccfg_csr_write -trace pmpcfg_csr_read -trace pmpaddr_csr_read -trace mseccfg_csr_read \
        </dev/null >"$work/console" 2>"$work/err"
    status=$?
    equal "$boot: the status of QEMU: $(cat "$work/err")" $status 0
}

# agrees NAME SCRIPT: what the payload writes of an access is its number, and the cause. It is 3, a breakpoint's, behind
# an allowed load or store, and 2, an illegal instruction's, where an allowed fetch finds none.
agrees() {
    sed "s/^[0-9]*,/$(grep -c '^publish' "$2"),/" checks/probes.csv >"$work/accesses"
    "$program" audit "$2" "$work/accesses" >"$work/report"
    sed 1d "$work/accesses" | paste -d , - "$work/report" \
        | awk -F , '{ printf "%02d %02d\n", $6, $7 == "fault" ? $8 : $3 == "fetch" ? 2 : 3 }' >"$work/wanted"
    tr -d '\r' <"$work/console" | grep -x '[0-9][0-9] [0-9][0-9]' >"$work/got"
    same "$1: how many accesses" "$(wc -l <"$work/report"), $(wc -l <"$work/got")" "$count, $count"
    sed 1d "$work/accesses" | cut -d , -f 2- | paste -d ' ' - "$work/got" "$work/wanted" >"$work/all"
    while read -r access number got row wanted; do
        equal "$1: $access" "$number $got" "$row $wanted"
    done <"$work/all"
}
