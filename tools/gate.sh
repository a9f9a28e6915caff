#!/bin/sh
# The gate: `rt ci` in this checkout (every proof from nothing, the must-fail edits, the tests and the stored runs), whose
# status decides. Beside it, by processors that nothing else wants, the edits by function are tried, and the library for C with
# its examples. Where it passes come, by the programs that it built, each example and a short run of what is tried from outside
# (docs/TESTING.md). The last line is `N passed, M failed`. What each process took stands in out-gate/costs (tools/costs.py).
#
#     tools/gate.sh               all of it
#     tools/gate.sh --unproved    a quick look without a proof: compiles programs, tests and the library for C without their
#                                 proofs, those whose sources changed, and tries all that runs
set -e
cd "$(dirname "$0")/.."
case "$*" in
"") unproved= ;;
--unproved) unproved=--unproved ;;
*) sed -n '2,/^set/s/^# \{0,1\}//p' "$0" >&2 && exit 2 ;;
esac
ended=$(mktemp -d)
trap 'rm -rf "$ended"' EXIT
began=$(date +%s)

# How long all of it has taken so far.
took() {
    echo "gate: $1, $(($(date +%s) - began)) s after the beginning"
}

# How many crates are proved side by side: one a processor, as long as each has 4 GB. Left to itself `rt` goes by an estimate of
# their memory, which is twice what they were seen to take, and leaves processors idle.
side_by_side() {
    processors=$(nproc) memory=$(awk '/^MemAvailable:/ { print int($2 / 4000000) }' /proc/meminfo)
    [ "$memory" -lt "$processors" ] && processors=$memory
    [ "$processors" -ge 1 ] && echo "$processors" || echo 1
}

missing=
for tool in make cc ar; do
    command -v "$tool" > /dev/null || missing="$missing $tool"
done
[ -z "$missing" ] || echo "gate: the library for C and packages are left out, since there is no$missing"

# What is tried beside `rt ci`, each once its crates are proved. The library for C waits for one of the last ones as well: some of
# its tests look at the clock, and only then processors are idle.
beside() {
    if [ -z "$missing" ]; then
        echo "once mazzulpe,partitioned_run tools/archive.py && make -s -C c_interface check"
    fi
    tools/edits_by_function.py --list | while read -r edit; do
        echo "once ${edit%%/*} tools/edits_by_function.py $edit"
    done
}

# Proves and builds all, with what is tried beside it.
prove() {
    : > "$ended/said"
    beside | nice -n 19 tools/side_by_side.py --most 2 --following "$ended/said" > "$ended/beside" 2>&1 &
    following=$!
    { RT_JOBS=${RT_JOBS:-$(side_by_side)} rt ci 2>&1 && echo 0 > "$ended/status" || echo $? > "$ended/status"; } | tee "$ended/said"
    status=$(cat "$ended/status")
    [ "$status" -eq 0 ] || exit "$status"
    last=$(tail -n 1 "$ended/said")
    took "rt ci: $last" | tee -a "$ended/said"
    passed=${last%% passed*}
    wait "$following" || true
    cat "$ended/beside"
    took "what is tried beside it"
}

# What is compiled without proofs, a command a line, the longest first; the tests are run as well.
unproved_builds() {
    for tests in pool world component upper lower code; do
        echo "tools/unproved.py --test ${tests}_tests"
    done
    echo "tools/unproved.py procd"
    echo "tools/unproved.py bench"
    if [ -z "$missing" ]; then
        echo "tools/archive.py --unproved"
    fi
}

# Compiles all without a proof. The library for C is tried in a copy that lies as a package does.
compile() {
    export MZ_UNPROVED=1
    passed=0
    unproved_builds | tools/side_by_side.py | tee "$ended/beside" || true
    if [ -z "$missing" ]; then
        mkdir -p out-unproved/lib
        cp -p out-unproved/libmazzulpe.a out-unproved/lib
        tar c --exclude=c_interface/build c_interface | tar x -C out-unproved
        ln -sfn ../docs ../crates out-unproved
    fi
    took "what is compiled"
}

# What is tried of the programs, a command a line; the longest stand first. An engine that isn't
# installed is left out; so are etcd and take-overs, which take minutes: on a busy machine slowness makes take-overs as well.
tries() {
    if [ -z "$missing" ]; then
        if [ -n "$unproved" ]; then
            echo "make -s -C out-unproved/c_interface check RATTLE_ARCHIVE=../lib/libmazzulpe.a"
        else
            echo "make -s -C c_interface engines_sqlite engines_postgres"
        fi
        echo "tools/try_dist.py $unproved"
    fi
    echo "tools/readme.py $unproved"
    for how in "" --forget --control; do
        echo "tools/cut_crashes.py --kills 20 $how"
        echo "tools/crashes.py --kills 5 --moves 1000 $how"
    done
    cat << 'END'
tools/hostile.py --every 25 code texts objects worlds memory
tools/storms.py --runs 5 --calls 1000 --cuts
tools/partition_crashes.py --kills 20
tools/tampered.py --every 25
tools/explore.py --audit --seconds 20
tools/believed.py
tools/printed.py
tools/line_tables.py
tools/same_verdicts.py
tools/without_kit.py
tools/terminal.py
tools/hostile.py files
tools/foreign_files.py --files 500
tools/cut_logs.py --files 500
tools/moved_files.py
tools/torn_ends.py
tools/followed_logs.py
tools/watched_runs.py
tools/full_component.py
END
    echo "said=\$($(tools/built.py bench) damaged 50) && echo \"a log's file with one fault: \$said\" && [ \"\${said##* }\" = 0 ]"
    for example in examples/*/; do
        echo "tools/example.sh $example"
    done
    echo "examples/once/client.py --procd \$(tools/built.py procd) --payments 5000 --kills 10"
}

mkdir -p out-gate
tools/costs.py --of $$ --to out-gate/costs &
if [ -z "$unproved" ]; then prove; else compile; fi
tries | tools/side_by_side.py | tee "$ended/tried" || true
failed=0
for part in beside tried; do
    last=$(tail -n 1 "$ended/$part")
    passed=$((passed + ${last%% passed*}))
    last=${last#* passed, }
    failed=$((failed + ${last%% failed*}))
done
took "all"
tools/costs.py || true
if [ -n "$unproved" ]; then
    echo "NOT PROVED: what passed here was compiled without its proofs; tools/gate.sh proves it"
elif [ -z "$missing" ] && [ "$failed" -eq 0 ]; then
    tools/dist.py --passed "$passed passed, $failed failed" || echo "gate: packages can't say that they passed it"
fi
echo "$passed passed, $failed failed"
[ "$failed" -eq 0 ]
