#!/usr/bin/env bash
# README, as an administrator types it: its installation, its configuration, its settings of the server, the first backup and both
# recoveries, block by block as they stand there. Only the paths, the ballast's size and whose folders are made are others, and an option
# names the configuration, since nothing is written to /etc.
. "$(dirname "$0")/typed"

# (the program comes into a folder of its own, since the one in bin names the configuration)
mkdir installed
block README.md 'Install' 1 | sed "s#$room/bin/#$room/installed/#; s#/etc/pgbackrest#$room/etc/pgbackrest#; s/200M/2M/" >typed-in
(cd "$top" && bash -e "$room/typed-in") >output 2>errors || complain "the installation: $(cat output errors)"
cmp -s "$top/bin/pgbackrest" installed/pgbackrest || complain 'another program is installed'
installed/pgbackrest --version >/dev/null || complain 'the installed program does not run'
for name in srv/pgbackrest/lock/all.stop srv/pgbackrest/ballast etc/pgbackrest; do [ -e "$name" ] || complain "the installation made no $name"; done
chown --reference=data/main srv/pgbackrest srv/pgbackrest/lock

block README.md 'Configure' 1 >conf
grep -q "^pg1-path=$room/data/main\$" conf || complain "the configuration is: $(cat conf)"
block README.md 'Configure' 2 >>etc/main/postgresql.conf
as_user systemctl start postgresql@16-main
ask 'create table first as select 1 as n' >/dev/null
type_in 0 README.md 'A first backup' 1
grep -q 'full backup: ' output || complain "info reports no backup: $(cat output)"
type_in 0 README.md 'A first backup' 2
[ ! -s output ] || complain "verify finds: $(cat output)"
type_in 0 README.md 'Retention' 1

ask 'insert into first select generate_series(2, 1000)' >/dev/null
switch
type_in 0 README.md 'A recovery' 1
[ -d data/lost ] || complain 'the old folder is gone'
await_writes
[ "$(ask 'select count(*) from first')" = 1000 ] || complain 'the first recovery brought back other rows'
as_user systemctl stop postgresql@16-main
rm -rf data/main/base/1 data/saved
type_in 0 README.md 'A recovery' 2
as_user systemctl start postgresql@16-main
await_writes
[ "$(ask 'select count(*) from first')" = 1000 ] || complain 'the second recovery brought back other rows'
# (what this line does is tried by runbook.sh)
[ "$(block README.md 'A recovery' 3)" = "$(block docs/RUNBOOK.md 'The server is lost' 3)" ] || complain "README and RUNBOOK have other lines for older programs"
exit "$wrong"
