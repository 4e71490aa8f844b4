# Completion of pmp for fish.
set -l commands check why audit policy dump map picture entries writes lint diff harts import plan
complete -c pmp -n __fish_use_subcommand -f -l help -d 'tell of the commands'
complete -c pmp -n __fish_use_subcommand -f -l version -d 'write the version'
complete -c pmp -n __fish_use_subcommand -f -a check -d 'decide one access'
complete -c pmp -n __fish_use_subcommand -f -a why -d 'say why one access is decided so'
complete -c pmp -n __fish_use_subcommand -f -a audit -d 'decide each access of a trace'
complete -c pmp -n __fish_use_subcommand -f -a policy -d 'say whether each row of a policy holds'
complete -c pmp -n __fish_use_subcommand -f -a dump -d 'write the registers'
complete -c pmp -n __fish_use_subcommand -f -a map -d 'write which bytes each entry owns'
complete -c pmp -n __fish_use_subcommand -f -a picture -d 'draw which bytes each entry owns'
complete -c pmp -n __fish_use_subcommand -f -a entries -d 'write what each entry is and how it is locked'
complete -c pmp -n __fish_use_subcommand -f -a writes -d 'write what each write changes'
complete -c pmp -n __fish_use_subcommand -f -a lint -d 'write what a reader should look at'
complete -c pmp -n __fish_use_subcommand -f -a diff -d 'write where two scripts differ'
complete -c pmp -n __fish_use_subcommand -f -a harts -d 'write where the harts of a folder differ'
complete -c pmp -n __fish_use_subcommand -f -a import -d 'write a script of a log'
complete -c pmp -n __fish_use_subcommand -f -a plan -d 'write the CSR writes for a plan'
complete -c pmp -n __fish_use_subcommand -f -a help -d 'tell of a command'
complete -c pmp -n '__fish_seen_subcommand_from help' -f -a "$commands script trace names rows"
complete -c pmp -n "__fish_seen_subcommand_from $commands" -l explain -d 'explain a refusal'
complete -c pmp -n '__fish_seen_subcommand_from check why dump map picture entries' -l after -x \
    -a 'last mml mmwp rlb-clear' -d 'take the first N publications'
complete -c pmp -n '__fish_seen_subcommand_from check why audit policy map picture entries lint diff harts' -l names -r \
    -d 'take names of addresses'
complete -c pmp -n '__fish_seen_subcommand_from lint' -l accept -x \
    -a 'rlb-left-on mmwp-off open-before-locked never-decides write-and-execute open-between late-write' \
    -d 'leave out findings with this name'
complete -c pmp -n '__fish_seen_subcommand_from writes' -l accept -x \
    -a 'absent bits frozen tor reserved lockdown sticky bypass grain differs' -d 'take no notice of this reason'
complete -c pmp -n '__fish_seen_subcommand_from why policy map entries writes lint diff harts' -l format -x \
    -a 'csv json markdown junit sarif' -d 'write the rows in this form'
complete -c pmp -n '__fish_seen_subcommand_from dump' -l script -d 'write a script of these registers'
complete -c pmp -n '__fish_seen_subcommand_from check' -l expect -x -a 'allow fault' \
    -d 'end with status 0 where this is the answer'
complete -c pmp -n '__fish_seen_subcommand_from check why' -a 'M S U fetch load store'
complete -c pmp -n '__fish_seen_subcommand_from audit' -l checkers -x -a '1 2 3 4 5 6 7 8' -d 'decide by K threads'
complete -c pmp -n '__fish_seen_subcommand_from audit' -l long -d 'take a trace of any length'
complete -c pmp -n '__fish_seen_subcommand_from audit' -l jobs -x -d 'decide a long trace by N jobs at a time'
complete -c pmp -n '__fish_seen_subcommand_from audit' -l first-row -x \
    -d "give a long trace's first row the number N"
complete -c pmp -n '__fish_seen_subcommand_from policy' -l each-write -d 'ask after each write too'
complete -c pmp -n '__fish_seen_subcommand_from policy' -l all -d 'write each breach of a row'
complete -c pmp -n '__fish_seen_subcommand_from policy' -l strict -d 'refuse a policy without rows'
complete -c pmp -n '__fish_seen_subcommand_from policy' -l from -d 'write a policy of what is closed'
complete -c pmp -n '__fish_seen_subcommand_from diff' -l old-after -x \
    -a 'last mml mmwp rlb-clear' -d 'take the first N publications of the old script'
complete -c pmp -n '__fish_seen_subcommand_from diff' -l new-after -x \
    -a 'last mml mmwp rlb-clear' -d 'take the first M publications of the new script'
complete -c pmp -n '__fish_seen_subcommand_from diff' -l only -x -a 'more less' -d 'write the rows that change so'
complete -c pmp -n '__fish_seen_subcommand_from diff harts' -l locks -d 'write the rows of locks too'
complete -c pmp -n '__fish_seen_subcommand_from import' -a 'qemu gdb openocd spike dump'
complete -c pmp -n '__fish_seen_subcommand_from import' -l hart -x -d 'take the registers of hart N'
complete -c pmp -n '__fish_seen_subcommand_from import plan' -l xlen -x -a '32 64' -d 'say XLEN'
complete -c pmp -n '__fish_seen_subcommand_from import plan' -l entries -x -d 'say how many entries the hart has'
complete -c pmp -n '__fish_seen_subcommand_from import plan' -l grain -x -d 'say its grain in bytes'
complete -c pmp -n '__fish_seen_subcommand_from import plan' -l address-bits -x -d 'say how many bits an address has'
complete -c pmp -n '__fish_seen_subcommand_from import plan' -l smepmp -x -a 'yes no' -d 'say whether it has Smepmp'
complete -c pmp -n '__fish_seen_subcommand_from import' -l folder -r -d 'make a folder with a script of each hart'
complete -c pmp -n '__fish_seen_subcommand_from import' -l bursts \
    -d 'make one publication of writes on lines side by side'
complete -c pmp -n '__fish_seen_subcommand_from plan' -l mml -d 'set MML'
complete -c pmp -n '__fish_seen_subcommand_from plan' -l mmwp -d 'set MMWP'
complete -c pmp -n '__fish_seen_subcommand_from plan' -l rlb -d 'set RLB'
complete -c pmp -n '__fish_seen_subcommand_from plan' -l from -r -d 'begin with the registers that a script leaves'
complete -c pmp -n '__fish_seen_subcommand_from plan' -l keep -d 'keep open what stays open'
complete -c pmp -n '__fish_seen_subcommand_from plan' -l while-m -d 'ask only of M-mode until the last write'
complete -c pmp -n '__fish_seen_subcommand_from plan' -l c -d 'write an array in C'
complete -c pmp -n '__fish_seen_subcommand_from plan' -l of -d 'write the plan of a script'
