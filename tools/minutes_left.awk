# Prints how many minutes the check of the crates that are left may take.
#
#     awk -v table=tools/minutes.txt -v list=crates.txt -v jobs=4 -v checked='fort_theory fort_io' -v kept=fort_io -v seconds=30 \
#         -f tools/minutes_left.awk
#
# The table has the processor minutes of each crate as they were measured; a crate that it lacks is taken for one of a minute. What is
# left by the table is the work shared by the jobs, or the longest chain of crates that stand on one another, whichever is longer.
# From how long it took so far to check what wasn't kept from before, it is reckoned how long the rest will take here.

function read_table(   line, word) {
    while ((getline line < table) > 0) {
        sub(/#.*/, "", line)
        if (split(line, word, " ") == 2)
            measured[word[1]] = word[2]
    }
}

function read_list(   line, word) {
    while ((getline line < list) > 0) {
        sub(/#.*/, "", line)
        if (split(line, word, ":") == 2) {
            stands_on[word[1]] = word[2]
            minutes[word[1]] = word[1] in measured ? measured[word[1]] : 1
        }
    }
}

# For each crate its minutes, and those of the longest chain above it.
function reckon_chains(   crate, count, dep, i, is_new) {
    for (crate in minutes)
        chain[crate] = minutes[crate]
    do {
        is_new = 0
        for (crate in minutes) {
            count = split(stands_on[crate], dep, " ")
            for (i = 1; i <= count; i++)
                if (dep[i] in minutes && chain[dep[i]] < minutes[dep[i]] + chain[crate]) {
                    chain[dep[i]] = minutes[dep[i]] + chain[crate]
                    is_new = 1
                }
        }
    } while (is_new)
}

# What is left by the table after these crates.
function left_after(crates,   count, word, i, gone, crate, work, longest) {
    count = split(crates, word, " ")
    for (i = 1; i <= count; i++)
        gone[word[i]] = 1
    for (crate in minutes)
        if (!(crate in gone)) {
            work += minutes[crate]
            if (chain[crate] > longest)
                longest = chain[crate]
        }
    return work / jobs > longest ? work / jobs : longest
}

BEGIN {
    read_table()
    read_list()
    reckon_chains()
    left = left_after(checked)
    done = left_after(kept) - left
    # At first the table is believed, by and by the clock.
    printf "%d\n", left * (seconds / 60 + 5) / (done + 5) + 0.5
}
