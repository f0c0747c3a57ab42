# The minutes that a build may still take: left.awk COSTS PROVED CRATES, with -v seconds=SO_FAR -v processors=NUMBER and
# -v working='CRATE ..', those that are being proved, which are taken for half done.
#
# COSTS has lines `CRATE check SECONDS` (bench/costs.txt), PROVED a crate that is proved on each line, CRATES is crates.txt, and
# the crates that are wanted come on the standard input. What is left takes as long as its seconds over the speed so far, and
# no less than its longest chain of crates. The speed is what was proved over the time that it took, and in the first minutes
# mostly a guess: half a second of a crate's a second, on each processor.
FILENAME == ARGV[1] { if ($2 == "check") { cost[$1] = $3; known++; sum += $3 } next }
FILENAME == ARGV[2] { proved[$1] = 1; next }
FILENAME == ARGV[3] { if (!/^#/) { split($0, sides, ":"); split(sides[1], words, " "); uses[words[1]] = sides[2] } next }
{ wanted[$1] = 1 }

function of(crate) { return crate in cost ? cost[crate] : sum / known }

function chain(crate, names, number, i, most, below) {
    if (!(crate in wanted) || crate in proved) return 0
    if (crate in chains) return chains[crate]
    number = split(uses[crate], names, " ")
    for (i = 1; i <= number; i++) { below = chain(names[i]); if (below > most) most = below }
    return chains[crate] = most + of(crate)
}

END {
    if (!known) exit
    for (i = split(working, names, " "); i > 0; i--) half[names[i]] = 1
    for (crate in wanted) {
        if (crate in proved) { done += of(crate); continue }
        part = crate in half ? of(crate) / 2 : 0
        done += part
        left += of(crate) - part
        if (chain(crate) > longest) longest = chain(crate)
    }
    speed = (done + processors / 2 * 240) / (seconds + 240)
    minutes = (left / speed > longest ? left / speed : longest) / 60
    printf "%d\n", minutes + 0.5
}
