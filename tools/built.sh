# Which program is of which sources: for ./compare and ./compare_small, which build it where it is of others, and for the gate, which has
# just built it. It is sourced, with `root` and `self` set: the repository's top and the program's name.
program=$root/target/bin/$self
stamp=$root/target/$self.stamp
made=$root/crates/$self/out/$self # where the kit leaves what it built

# One hash over the names and contents of crates.txt and all files of crates/, but for what the kit keeps in each out/.
hash_sources() {
    (cd -- "$root" && find -L crates.txt crates -name out -prune -o -type f -print0 | LC_ALL=C sort -z | xargs -0 sha256sum | sha256sum | cut -d ' ' -f 1)
}

# What the stamp of the program says: the sources, the program file and the kit that it is of.
hash_program() { sha256sum <"$program" | cut -d ' ' -f 1; }
kit=''
if command -v rt >/dev/null; then kit=$(rt version </dev/null 2>/dev/null) || kit=''; fi

# Takes over what the kit built of the sources with this hash: the program, and then its stamp, by a rename.
take_built() {
    mkdir -p -- "${program%/*}" &&
        cp -f -- "$made" "$program.$$" && mv -f -- "$program.$$" "$program" &&
        printf '%s\n' "$1" "$(hash_program)" "$kit" >"$stamp.$$" && mv -f -- "$stamp.$$" "$stamp"
}
