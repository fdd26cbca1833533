# shellcheck shell=bash disable=SC2034,SC2154
# What the program is made of, for the scripts that run, build and release it. They set `root` to the top of the repository before they read this file.

crate=$root/crates/filehost
# The executable of this checkout.
program=$crate/out/filehost
# Is there while a build runs, and after one that failed. Its time is the build's start.
unfinished=$crate/out/build.unfinished
# The SHA-256 of the executable that was proved last, by a build or by ./test.
proved=$crate/out/proved.sha256
# The program to run at once, its SHA-256, and the sums of the sources that it was built from: scripts/release writes them.
released=$root/dist/filehost
its_sum=$root/dist/filehost.sha256
its_sources=$root/dist/sources.sha256
# The oldest GNU C library with all functions that the program in dist/ calls; scripts/release compares it with the program.
least_libc=2.34

say() {
  printf 'filehost: %s\n' "$*" >&2
}

fail() {
  say "$1"
  exit 1
}

declare -A uses=() is_visited=()
# The crates of the program, each after those that it uses, and the folders of their sources.
order=()
sources=()

# Reads crates.txt: lines such as `NAME: NAME NAME ..`, where `#` begins a comment.
read_crates() {
  local line head name
  while IFS= read -r line || [[ -n $line ]]; do
    line=${line%%#*}
    head=${line%%:*}
    read -r name _ <<<"$head" || true
    [[ -n $name ]] || continue
    uses[$name]=${line:${#head}}
  done <"$root/crates.txt"
}

# Adds to `order` the crates of this repository that the crate $1 uses, and then itself; and their folders to `sources`.
add_in_order() {
  local used
  [[ -n ${uses[$1]+listed} && -z ${is_visited[$1]-} ]] || return 0
  is_visited[$1]=yes
  for used in ${uses[$1]//[:,]/ }; do
    add_in_order "$used"
  done
  order+=("$1")
  # A crate may lack one of these, which the pattern then leaves out.
  sources+=("$root/crates/$1"/{src,spec[s],proof[s]})
}

# Whether the file $1 is there, and none of the others is newer by the test $2 of `find`. Folders are compared too, since the time of a
# folder tells that a file was removed from it.
is_newest() {
  local file=$1 test=$2 newer
  shift 2
  [[ -e $file ]] || return 1
  newer=$(find "$@" "$test" "$file" -print -quit 2>/dev/null) || return 1
  [[ -z $newer ]]
}

# Whether the executable of this checkout is there, whole, and no older than its sources.
is_built() {
  [[ -x $program && ! -e $unfinished && ${#order[@]} -gt 0 ]] || return 1
  is_newest "$program" -newer "$root/crates.txt" "${sources[@]}"
}

# Prints the SHA-256 of each source, as sha256sum does, and before them, as comments, what crates.txt says of the program's crates.
list_sources() {
  local name used
  for name in "${order[@]}"; do
    read -ra used <<<"${uses[$name]//[:,]/ }"
    printf '# %s: %s\n' "$name" "${used[*]}"
  done
  (cd -- "$root" && find "${sources[@]#"$root/"}" -type f -print0 | LC_ALL=C sort -z | xargs -0 sha256sum --)
}

read_crates
add_in_order filehost
