# What `./worm` and `./try` have in common. They set `top`, the repository's folder.

# The first source that is newer than this program.
newer_source() {
  find "$top/crates.txt" "$top/HANDLES" "$top"/crates/*/{src,specs,proofs} -type f -newer "$1" -print -quit 2>/dev/null
}

is_built() {
  [ -x "$1" ] && [ -z "$(newer_source "$1")" ]
}

# The crates that the program is made of, itself too, by crates.txt.
crates_of_program() {
  awk '
    function take(name,  words, count, i) {
      if (!(name in uses) || name in taken) return
      taken[name] = 1
      print name
      count = split(uses[name], words, " ")
      for (i = 1; i <= count; i++) take(words[i])
    }
    { sub(/#.*/, "") }
    split($0, line, ":") == 2 { gsub(/ /, "", line[1]); uses[line[1]] = line[2] }
    END { take("worm") }' "$top/crates.txt"
}

# Pages of 2 MiB, where the system has them at hand, make its start and each look-up shorter.
run_program() {
  export GLIBC_TUNABLES="${GLIBC_TUNABLES-glibc.malloc.hugetlb=1}"
  exec "$@"
}
