#!/usr/bin/env bash
# Eight clients at once at MariaDB's socket: rows.sh SOCKET. Each inserts rows of its own, changes and deletes some, and counts up rows that all of them share; what the
# tables have at the end is printed, which is the same whatever came first.
set -u
client() { mariadb --no-defaults -S "$1" -u root -N "${@:2}"; }
client "$1" <<'SQL' || exit 1
create database if not exists test;
use test;
create table rows_of (client int, k int, text varchar(100), primary key (client, k), index by_text (text)) engine=InnoDB;
create table counts (k int primary key, n int) engine=InnoDB;
insert into counts select seq, 0 from seq_0_to_7;
SQL
statements() {
    local k
    for ((k = 0; k < 300; k++)); do
        echo "insert into rows_of values ($1, $k, md5('$1 $k'));"
        echo "update counts set n = n + 1 where k = $((($1 + k) % 8));"
        [ $((k % 5)) -ne 4 ] || echo "update rows_of set text = concat('again ', text) where client = $1 and k = $((k - 2));"
        [ $((k % 7)) -ne 6 ] || echo "delete from rows_of where client = $1 and k = $((k - 1));"
        [ $((k % 20)) -ne 19 ] || echo "select count(*), min(text), max(text) from rows_of where client = $1;"
    done
}
room="$(mktemp -d)"
trap 'rm -rf "$room"' EXIT
clients=()
for c in 0 1 2 3 4 5 6 7; do
    statements "$c" | client "$1" test >"$room/$c" 2>&1 &
    clients+=($!)
done
status=0
for it in "${clients[@]}"; do wait "$it" || status=1; done
cat "$room"/?
client "$1" test -e "checksum table rows_of, counts; select * from counts; select client, count(*), sum(crc32(text)) from rows_of group by client;" || status=1
exit "$status"
