# What the benches share: read by them, and not run by itself.

root=$(dirname -- "$here")
room=$(mktemp -d) || exit
trap 'rm -rf "$room"' EXIT
trap 'exit 1' HUP INT TERM

fail() {
    echo "bench: $1" >&2
    exit 1
}

# Runs a command, and writes its seconds and its peak memory in KiB to the file named first.
measure() {
    to=$1
    shift
    if [ -x /usr/bin/time ]; then
        /usr/bin/time -q -o "$to" -f '%e %M' "$@"
    else
        python3 - "$to" "$@" <<'PYTHON'
import resource, subprocess, sys, time
start = time.monotonic()
status = subprocess.run(sys.argv[2:], stdin=subprocess.DEVNULL).returncode
seconds = time.monotonic() - start
with open(sys.argv[1], "w") as to:
    print(f"{seconds:.2f}", resource.getrusage(resource.RUSAGE_CHILDREN).ru_maxrss, file=to)
sys.exit(status)
PYTHON
    fi
}

# The heap is set as the launcher sets it.
export GLIBC_TUNABLES="${GLIBC_TUNABLES-glibc.malloc.hugetlb=1:glibc.malloc.mxfast=0}"

# The built program, OCL_CHECK or the launcher's, which the launcher builds if need be; what is measured is the program alone.
program=$OCL_CHECK
if [ -z "$program" ]; then
    "$root/ocl_check" --help >/dev/null || fail "the program isn't built"
    program=$root/out/built/ocl_check
fi
[ -x "$program" ] || fail "the built program isn't there: $program"
