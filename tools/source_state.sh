# source_state TOP: prints a line for crates.txt and for each file of the crates outside of out and must-fail: its path,
# its inode's number, its size, and its times of change. If the lines are those of an earlier call, no file has changed.
# This takes milliseconds; a checksum of all files takes 0.1 s.
source_state() (
    cd "$1" || exit
    exec find crates.txt crates \( -name out -o -name must-fail \) -prune -o -type f -printf '%p %i %s %T@ %C@\n'
)
# races_state TOP: the same, also for the sources of tools/races that aren't in a crate
races_state() (
    source_state "$1" && cd "$1" && exec find bindings/c tools/build_races.py -type f -printf '%p %i %s %T@ %C@\n'
)
