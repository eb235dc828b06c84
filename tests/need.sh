# For the scripts that use what others make: each ends, and says what to run, where that is missing or old. Read in from the repository's root.

# an archive of this crate, no older than the code
need_archive() {
    if [ ! -e "target/staticlib/lib$1.a" ] || [ -n "$(find crates crates.txt -name out -prune -o \( -name '*.rt' -o -name crates.txt \) -newer "target/staticlib/lib$1.a" -print)" ]; then
        echo "$0: target/staticlib/lib$1.a is missing or older than the code: run tests/archives first"
        exit 1
    fi
}

# a program
need_program() {
    if [ ! -x "target/bin/$1" ]; then
        echo "$0: target/bin/$1 is missing: run tests/programs $1 first"
        exit 1
    fi
}

# what an archive exports, one name to a line
exported() { nm -g --defined-only "$1" | awk 'NF == 3 { print $3 }' | sort; }

# what an archive needs from its host, one name to a line
needed() { nm -u "$1" | awk '$1 == "U" { print $2 }' | sort -u; }
