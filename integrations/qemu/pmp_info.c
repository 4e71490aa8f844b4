/* SPDX-License-Identifier: MIT OR Apache-2.0 */
/* `info pmp` of QEMU's monitor, using the library: the runs of a hart's unit, as `pmp map` writes them, or how its unit
 * decides each access to some bytes, and why. The patch puts it into QEMU's target/riscv. */
#include "qemu/osdep.h"
#include "cpu.h"
#include "monitor/hmp-target.h"
#include "monitor/monitor.h"
#include "qobject/qdict.h"
#include "system/kvm.h"

static const struct {
    tilvenka_pmp_mode mode;
    char letter;
} modes[] = {{TILVENKA_PMP_MACHINE, 'M'}, {TILVENKA_PMP_SUPERVISOR, 'S'}, {TILVENKA_PMP_USER, 'U'}};

static const char *const kinds[] = {"fetch", "load", "store"};

static void print_rights(Monitor *mon, uint32_t rights)
{
    monitor_printf(mon, ",%c%c%c", rights & TILVENKA_PMP_READ ? 'r' : '-', rights & TILVENKA_PMP_WRITE ? 'w' : '-',
                   rights & TILVENKA_PMP_EXECUTE ? 'x' : '-');
}

/* FIRST,LAST,OWNER,MRIGHTS,SURIGHTS */
static void print_runs(Monitor *mon, const tilvenka_pmp_unit *unit)
{
    uint64_t first, last = 0;
    for (uint64_t at = 0; at < UINT64_C(1) << 56; at = last + 1) {
        uint32_t machine = tilvenka_pmp_run(unit, TILVENKA_PMP_MACHINE, at, &first, &last);
        uint32_t others = tilvenka_pmp_run(unit, TILVENKA_PMP_USER, at, &first, &last);
        monitor_printf(mon, "%014" PRIx64 ",%014" PRIx64 ",", first, last);
        if (tilvenka_pmp_is_unmatched(machine)) {
            monitor_printf(mon, "-");
        } else {
            monitor_printf(mon, "%" PRIu32, tilvenka_pmp_entry(machine));
        }
        print_rights(mon, tilvenka_pmp_run_rights(machine));
        print_rights(mon, tilvenka_pmp_run_rights(others));
        monitor_printf(mon, "\n");
    }
}

/* MODE,KIND,ANSWER,FAULT,CAUSE,ENTRY, the last four as `pmp check` writes them */
static void print_answer(Monitor *mon, uint32_t answer)
{
    if (tilvenka_pmp_is_no_access(answer)) {
        monitor_printf(mon, "no access\n");
        return;
    }
    if (tilvenka_pmp_is_allowed(answer)) {
        monitor_printf(mon, "allow,,");
    } else {
        monitor_printf(mon, "fault,%" PRIu32 ",", tilvenka_pmp_fault(answer));
    }
    if (tilvenka_pmp_is_unmatched(answer)) {
        monitor_printf(mon, "none,\n");
    } else {
        monitor_printf(mon, "%s,%" PRIu32 "\n", tilvenka_pmp_is_partial(answer) ? "split" : "rule",
                       tilvenka_pmp_entry(answer));
    }
}

static void print_answers(Monitor *mon, const tilvenka_pmp_unit *unit, uint64_t start, uint64_t length)
{
    for (size_t i = 0; i < ARRAY_SIZE(modes); i++) {
        for (size_t kind = 0; kind < ARRAY_SIZE(kinds); kind++) {
            monitor_printf(mon, "%c,%s,", modes[i].letter, kinds[kind]);
            print_answer(mon, tilvenka_pmp_decide(unit, modes[i].mode, kind, start, length));
        }
    }
}

/* Runs in the hart's own thread, so nothing changes the registers meanwhile. */
static void save_registers(CPUState *cs, run_on_cpu_data data)
{
    tilvenka_pmp_save(&cpu_env(cs)->pmp_state.unit, data.host_ptr);
}

void hmp_info_pmp(Monitor *mon, const QDict *qdict)
{
    CPUState *cs = mon_get_cpu(mon);
    tilvenka_pmp_registers registers;
    tilvenka_pmp_unit unit;
    if (!cs || kvm_enabled() || !riscv_cpu_cfg(cpu_env(cs))->pmp) {
        monitor_printf(mon, "There is no hart with a PMP unit of QEMU's\n");
        return;
    }
    run_on_cpu(cs, save_registers, RUN_ON_CPU_HOST_PTR(&registers));
    tilvenka_pmp_restore(&unit, &registers);
    if (qdict_haskey(qdict, "addr")) {
        print_answers(mon, &unit, qdict_get_int(qdict, "addr"), qdict_get_try_int(qdict, "length", 1));
    } else {
        print_runs(mon, &unit);
    }
}
