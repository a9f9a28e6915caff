#!/bin/sh
# check_pool.sh: the engine of pool_postgres.c over two databases of a server of PG_BIN, which this starts: it is killed
# four times, and then it goes to its end.
set -e
folder=$(mktemp -d)
said="$folder/said"
test "$(id -u)" != 0 || { chown postgres "$folder" && user="setpriv --reuid=postgres --regid=postgres --clear-groups"; }
trap '$user "$PG_BIN"/pg_ctl -D "$folder/data" -m immediate stop >>"$said" 2>&1; rm -rf "$folder"' EXIT
cd "$(dirname "$0")/.."

$user "$PG_BIN"/initdb -D "$folder/data" -A trust -U postgres --no-sync >"$said" 2>&1
$user "$PG_BIN"/pg_ctl -D "$folder/data" -w -l "$folder/log" -o "-k $folder -c listen_addresses=" start >>"$said" 2>&1
for name in here there; do "$PG_BIN"/createdb -h "$folder" -U postgres $name; done

set -- "$folder/bank.log" "host=$folder user=postgres dbname=here" "host=$folder user=postgres dbname=there"
for part in 2 4 6 8; do
    build/pool_postgres "$@" >>"$said" 2>&1 &
    sleep 0.$part
    kill -9 $!
    wait $! || true
done 2>>"$said"
build/pool_postgres "$@"
