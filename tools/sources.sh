# shellcheck shell=sh disable=SC2154
# What tools/edits and tools/wrong share: the prover on one crate, over the sources of the libraries below it, which need not be proved.
# Run it where crates.txt is, with kit the toolchain's folder.

# the libraries that a crate reaches, as words for the prover: those of the repository by their sources in TOP, the kit's as they are built
libraries() { # CRATE TOP
    awk -v todo="$1" -v top="$2" -v kit="$kit" '
        { sub(/#.*/, ""); i = index($0, ":"); if (i) deps[substr($0, 1, i - 1)] = substr($0, i + 1) }
        function visit(n,    a, k, m, own) {
            if (n in seen) return
            seen[n] = 1; m = split(deps[n], a, " "); own = "core,std"
            for (k = 1; k <= m; k++) { visit(a[k]); own = own "," a[k]; if (!(a[k] in deps)) outside[a[k]] = 1 }
            if (n in deps && n != todo) words = words " --lib " n ":" own "=" top "/crates/" n "/src/lib.rt"
        }
        END {
            outside["core"] = outside["std"] = 1; visit(todo)
            for (n in outside) words = words " --extern " n "=" kit "/rlibs/" n ".rlib"
            print words " -L dependency=" kit "/rlibs"
        }' crates.txt
}

# the prover's check of a crate whose root file is FILE; WORDS are libraries, and what else it is to be told
check_over_sources() { # CRATE FILE WORDS..
    named=$1 root=$2
    shift 2
    "$kit/bin/rattle" check --crate-name "$named" "$root" "$@" --antt-project "$kit/rattle/logic/antt-project.json" --logic-built "$kit/logic_built"
}
