# What the program is made of, for the scripts that build, publish and test it. They set `root`, the top of the repository.

# The program that stands in the repository, with the sum of its bytes and that of the sources that it was made from.
published=$root/dist/racp-x86_64-linux
program_sum_file=$published.sha256
sources_sum_file=$root/dist/sources.sha256

# What a proved build has left: `rt` makes it, of nothing but what was proved.
built=$root/crates/racp/out/racp

# The crates of the program by crates.txt, one a line, each after those that it stands on.
program_crates() {
    awk '
        function walk(name, count, at, parts) {
            if (seen[name]++) return
            count = split(below[name], parts, " ")
            for (at = 1; at <= count; at++) if (parts[at] in below) walk(parts[at])
            print name
        }
        { sub(/#.*/, "") }
        /:/ { split($0, half, ":"); split(half[1], head, " "); below[head[1]] = half[2] }
        END { walk("racp") }
    ' "$root/crates.txt"
}

# The folders that the program is made from, by their paths from the top.
program_folders() {
    local crate part
    for crate in $(program_crates); do
        for part in src specs proofs; do
            [ ! -d "$root/crates/$crate/$part" ] || echo "crates/$crate/$part"
        done
    done
}

# The lines of crates.txt that speak of the crates of the program.
program_lines() {
    local crate
    for crate in $(program_crates); do
        grep "^$crate[ :]" "$root/crates.txt"
    done
}

# One SHA-256 sum of these lines and of all files in these folders, by their paths and their bytes.
sources_sum() (
    cd "$root" || exit
    {
        program_lines
        program_folders | xargs sh -c 'find "$@" -type f' find | LC_ALL=C sort | xargs sha256sum
    } | sha256sum | cut -d ' ' -f 1
)

# The SHA-256 sum of a file.
sum_of() {
    sha256sum <"$1" | cut -d ' ' -f 1
}

# Whether this program is there, and nothing that it is made from is newer.
is_current() (
    [ -x "$1" ] && cd "$root" &&
        [ -z "$(program_folders | xargs sh -c 'find crates.txt "$@" -newer "$0" -print -quit' "$1" 2>&1)" ]
)

# Whether the published program is made from these sources, and is as it was published.
is_published() {
    [ -f "$published" ] && [ "$(cat "$program_sum_file")" = "$(sum_of "$published")" ] &&
        [ "$(cat "$sources_sum_file")" = "$(sources_sum)" ]
}
