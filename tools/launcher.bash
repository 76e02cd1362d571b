# What ./rebug does in a checkout in place of what it does where rebug is installed. It finds whether the programs are
# of the sources that are here (tools/sources.bash), has tools/prove prove and build the one that is asked, and hands
# over to it. The programs are crates/NAME/out/NAME. The answers of unproved builds, and what is said of the programs
# themselves, stand in tools/unproved.bash, which is read for these alone.

. "$top/tools/sources.bash"

# Said where the kit is not there; tools/prove says the same.
no_kit="the kit's command rt is not on the PATH; README.md, under Install, says what the kit is and which one to get"

# Proves and builds the program that was looked at, and then runs it with the words, if there are any. A first word
# `exec` has this script become what proves.
prove() {
  local become=()
  if [ "${1-}" = exec ]; then
    become=(exec)
    shift
  fi
  if ! command -v python3 >/dev/null 2>&1; then
    say "proving needs Python 3, and there is no python3 on the PATH"
    exit 3
  fi
  ${become[@]+"${become[@]}"} python3 "$top/tools/prove" --program "$name" --sources "$sources" --crates "$crates" "$@"
}

# The launcher of an installed rebug that is on the PATH.
installed_launcher() {
  local found folder
  while IFS= read -r found; do
    found=$(readlink -f -- "$found") && folder=$(dirname -- "$found") || continue
    if [ -f "$folder/../libexec/rebug/release" ] && ! [ -f "$folder/tools/launcher.bash" ]; then
      printf '%s\n' "$found"
      return
    fi
  done < <(type -aP rebug)
}

# On a fresh clone: has an installed rebug answer, where one is on the PATH. Else it says what can be done to who asks
# of a recording, since the proofs take long.
answer_without_program() {
  local installed
  installed=$(installed_launcher)
  if [ -n "$installed" ]; then
    say "no program is built here, so the installed $installed answers (./rebug alone proves and builds what is here)"
    exec "$installed" "$@"
  fi
  if [ "$name" != rebug_ask ]; then return; fi
  say "no program is built here yet, and no installed rebug is on the PATH (docs/INSTALL.md tells how to get one)"
  if command -v rt >/dev/null 2>&1; then
    say "an answer in a few minutes, from an unproved build: ./rebug --try ${1-} .."
    say "./rebug alone proves and builds the programs, which takes about an hour"
  else
    say "to build one: $no_kit"
  fi
  exit 3
}

# Answers in a checkout.
answer_in_checkout() {
  local wish=""
  if [ $# = 1 ] && [ -z "$is_try" ]; then
    case $1 in --version | -V | --help | -h) wish=$1 ;; esac
  fi
  look_at "$name"
  if [ -n "$is_there" ] && [ $# != 0 ] && [ -z "$wish" ]; then run_program "$@"; fi
  . "$top/tools/unproved.bash"
  if [ -n "$wish" ]; then answer_wish "$wish"; fi
  if [ $# = 0 ]; then run_example; fi
  if [ -n "$is_try" ]; then
    if [ -n "$is_picture" ]; then draw try_words "$@"; else show try_words "$@"; fi
    exit
  fi
  if [ "$state" = missing ]; then answer_without_program "$@"; fi
  say "to see an answer in a few minutes, from an unproved build, give --try before the words"
  prove exec -- "$@"
}
