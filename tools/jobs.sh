# Says how many jobs a proof, or how many proofs at once, this machine has room for.

# Prints the least of a number, of the processors, and of the times that some GB fit in the free memory.
jobs_that_fit() {
    memory=$(awk -v "each=$2" '/^MemAvailable:/ { print int($2 / each / 1000000) + 1 }' /proc/meminfo 2>/dev/null)
    printf '%s\n' "$1" "$(nproc 2>/dev/null || echo 1)" "$memory" | sort -n | grep -m 1 .
}
