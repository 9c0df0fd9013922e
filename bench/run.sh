#!/bin/sh
# Prints, for each measured script, the time that this runtime takes, that of CRuby where one is installed, and their ratio.
# Seconds of wall clock, the best of five runs; peak memory in MiB.
# CRuby is the first of ruby3.1 and ruby that is found.
set -e
here=$(CDPATH= cd -- "$(dirname -- "$0")" && pwd)
ractor=$here/../ractor
scripts=$(mktemp -d)
trap 'rm -rf "$scripts"' EXIT
sh "$here/scripts.sh" "$scripts"
ruby=$(command -v ruby3.1 || command -v ruby || true)

# best COMMAND..: the least of five times, in seconds
best() {
    python3 - "$@" <<'PY'
import resource, subprocess, sys, time
times = []
for _ in range(5):
    begun = time.perf_counter()
    subprocess.run(sys.argv[1:], stdout=subprocess.DEVNULL, stderr=subprocess.DEVNULL)
    times.append(time.perf_counter() - begun)
peak = resource.getrusage(resource.RUSAGE_CHILDREN).ru_maxrss // 1024
print(f"{min(times):.4f} {peak}")
PY
}

"$ractor" run "$here/../examples/hello.rb" >/dev/null
program=$here/../crates/ractor/out/ractor
printf '%-12s %10s %8s %10s %8s %7s\n' script ours MiB cruby MiB ratio
for script in "$scripts"/*.rb; do
    ours=$(best "$program" run "$script")
    if [ -n "$ruby" ]; then theirs=$(best "$ruby" -W0 --disable-gems "$script"); else theirs="- -"; fi
    echo "$(basename "$script" .rb) $ours $theirs" | awk '{ ratio = ($4 == "-") ? "-" : sprintf("%.2f", $2 / $4); printf "%-12s %10s %8s %10s %8s %7s\n", $1, $2, $3, $4, $5, ratio }'
done
