# How a program of a checkout stands to the sources that it is built from. tools/launcher.bash and ./install read this.
#
# Each question asks for it, and there are some 3,300 sources. So the launcher looks at the sizes and times of files
# first, and reads only the files that have changed by these. It keeps what it found in the table, the file
# `launcher.looked` beside the program. The first line of the table has the crates, the sum of their sources, and how
# the program stands to them. That line holds as long as `list` prints the same: `listed` is the sum of what it printed
# then. Each other line is a row: the sum of one file, and what `list` printed of the file. What guards against a
# touched clock stands in docs/inside/decisions/426-sources-are-looked-at-by-their-times.md.

# How a table begins. Whoever changes what a table says changes the number.
TABLE="rebug-looked 1"
# The seconds of the longest tick of a file system's clock, that of FAT. A file can change twice within one tick. So a
# file gets no row where it changed less than one tick before the launcher summed it.
TICK=2

# Takes the program of this name: where it is built, from which crates, and how it stands to their sources. `state` is
# `missing`, `older`, `same`, or `unknown`: no note is of this program, as where ./test had the kit build it, and no
# source has changed since. `proved` is `yes` where the note is of the program that is there.
look_at() {
  name=$1
  crate=$top/crates/$name
  program=$crate/out/$name
  # What tools/prove notes of the program that it built: the sums of its sources and of itself, and the kit.
  note=$crate/out/launcher.built
  table=$crate/out/launcher.looked
  is_there=""
  if ! believe_table; then look_again; fi
  case $state in same | unknown) is_there=yes ;; esac
}

# Takes what the first line of the table says. Returns 1 where a file has changed since, and where this is no such line.
# `is_table` is `yes` where it is one.
believe_table() {
  local line="" listed word='([a-z]+)' sum='([0-9a-f]{64}|none)'
  is_table=""
  { IFS= read -r line <"$table"; } 2>/dev/null || return 1
  [[ $line =~ ^"$TABLE crates"([\ a-z0-9_-]+)" sources "$sum" state "$word" proved "$word" listed "$sum$ ]] || return 1
  is_table=yes listed=${BASH_REMATCH[5]}
  crates=${BASH_REMATCH[1]} sources=${BASH_REMATCH[2]} state=${BASH_REMATCH[3]} proved=${BASH_REMATCH[4]}
  [ "$listed" != none ] && [ "$(list | sha256sum)" = "$listed  -" ]
}

# Becomes what prints a line for each file that the state depends on: the sources, the program, its note, and this file,
# which says what the sources are. It has the inode, the size, the times of the last change of the text (at 37) and of
# the file (at 60), and the name (at 83).
list() {
  find_files "${program#"$top/"}" "${note#"$top/"}" tools/sources.bash -printf '%20i %15s %22T@ %22C@ %p\n'
}

# Becomes find, over the sources and the files that are named first. The other words say what find does with each file.
# Tests are no sources. A link counts as what it leads to.
find_files() {
  local one places=(crates.txt)
  while [ "${1#-}" = "$1" ]; do
    places+=("$1")
    shift
  done
  for one in $crates; do places+=("crates/$one/src" "crates/$one/specs" "crates/$one/proofs"); done
  cd "$top" && LC_ALL=C exec find -L "${places[@]}" -name 'tests*' -prune -o -type f "$@" 2>/dev/null
}

# Finds the crates of this repository that the program stands on, itself first.
find_crates() {
  local line one place todo=("$name")
  local -A uses=()
  while read -r line; do
    one=${line%%:*}
    case $line in [a-z]*:*) uses[${one%% *}]=${line#*:} ;; esac
  done <"$top/crates.txt"
  crates=""
  for ((place = 0; place < ${#todo[@]}; place++)); do
    one=${todo[place]}
    if [ -n "${uses[$one]+is}" ]; then
      crates="$crates $one"
      todo+=(${uses[$one]})
      unset "uses[$one]"
    fi
  done
}

# Finds how the program stands, and writes the table anew.
look_again() {
  local listing beside="" of_program="" kept=() is_settled=yes
  find_crates
  listing=$(list)
  # (made behind the listing and before the sums: a file that changes once it is summed is not older than this one)
  if (set -C && : >"$table.$$") 2>/dev/null; then beside=$table.$$; fi
  if ! sum_by_rows; then sum_all; fi
  find_state
  if [ -n "$beside" ]; then
    { [ ${#kept[@]} != 0 ] && write_table && mv -f -- "$beside" "$table"; } 2>/dev/null || rm -f -- "$beside"
  fi
}

# Sums the sources and the program, and reads only those files that have no row in the table. Leaves in `kept` the rows
# of the next table. Returns 1 where find knows no -printf, where a name has an end of a line, and where a file cannot
# be read.
sum_by_rows() {
  local IFS=$'\n' row place before=0 rows=() new=() names=() found=() lines=()
  local -A sums=()
  if [ -n "$is_table" ]; then
    mapfile -t -s 1 rows <"$table"
    for row in ${rows[@]+"${rows[@]}"}; do
      if ((${#row} > 65)); then sums[${row:65}]=${row:0:64}; fi
    done
  fi 2>/dev/null
  set -f
  rows=($listing)
  for row in ${rows[@]+"${rows[@]}"}; do
    if [ -z "${sums[$row]-}" ]; then new+=("$row") names+=("${row:83}"); fi
  done
  if [ ${#new[@]} != 0 ]; then
    found=($(cd "$top" && printf '%s\0' "${names[@]}" | xargs -0 sha256sum 2>/dev/null | cut -c 1-64))
  fi
  set +f
  if [ ${#rows[@]} = 0 ] || [ ${#found[@]} != ${#new[@]} ]; then return 1; fi
  for place in "${!new[@]}"; do sums[${new[place]}]=${found[place]}; done
  if [ -n "$beside" ]; then before=$(($(stat -c %Y -- "$beside") - TICK)); fi
  for row in "${rows[@]}"; do
    case ${row:83} in
      "${program#"$top/"}") of_program=${sums[$row]} ;;
      "${note#"$top/"}" | tools/sources.bash) ;;
      *) lines+=("${sums[$row]}  ${row:83}") ;;
    esac
    if ((${row:37:11} < before && ${row:60:11} < before)); then kept+=("${sums[$row]} $row"); else is_settled=""; fi
  done
  sources=$(printf '%s\n' "${lines[@]}" | LC_ALL=C sort -k 1.67 | sha256sum)
  sources=${sources%% *}
}

# Sums the sources and the program, and reads all of them. The sum is that of `sum_by_rows`.
sum_all() {
  sources=$(find_files -print0 | LC_ALL=C sort -z | (cd "$top" && xargs -0 sha256sum) | sha256sum)
  sources=${sources%% *}
  if [ -x "$program" ]; then of_program=$(sha256sum <"$program"); fi
  of_program=${of_program%% *}
}

noted() { sed -n "s/^$1 //p" "$note" 2>/dev/null; }

# Finds the state from the sums, the note, and where no note is of this program from the times.
find_state() {
  proved=no state=missing
  if ! [ -x "$program" ]; then return; fi
  state=older
  if [ -n "$of_program" ] && [ "$(noted program)" = "$of_program" ]; then proved=yes; fi
  if [ "$proved" = yes ]; then
    if [ "$(noted sources)" = "$sources" ]; then state=same; fi
  elif [ -z "$(find_files -newer "$program" -print -quit)" ]; then
    state=unknown
  fi
}

# Writes the table beside its place. Where a file has no row, the first line is to hold for no other start.
write_table() {
  local listed=none
  if [ -n "$is_settled" ]; then listed=$(printf '%s\n' "$listing" | sha256sum); fi
  {
    echo "$TABLE crates$crates sources $sources state $state proved $proved listed ${listed%% *}"
    printf '%s\n' "${kept[@]}"
  } >"$beside"
}
