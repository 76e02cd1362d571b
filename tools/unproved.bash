# What ./rebug answers in a checkout beside the answers of the proved programs: the answers of an unproved build, for
# --try and the example, and what it says of the programs themselves. tools/launcher.bash reads this file where one of
# these is asked.
#
# Without words ./rebug runs the example in examples/first. Where its program is yet to be proved, an unproved build
# answers first. In the end both programs are proved and built.

# What this script takes, said where the program is not there to give its own text.
explain() {
  explain_words ./rebug
  cat <<EOF
./rebug                 the first example; on a fresh clone an unproved build answers first, and then it is proved
./rebug WORD..          the program with these words, once it is proved and built (about an hour the first time)
./rebug --try [WORD..]  the same from an unproved build, in a few minutes; nothing is proved or kept
EOF
}

# Says what --version says beyond the program's own text.
say_state() {
  case $state in
    missing) say "not proved: there is no program yet; ./rebug proves and builds it" ;;
    older)
      local how="not noted as proved, and"
      if [ "$proved" = yes ]; then how="proved, but"; fi
      say "$how older than the sources that are here; ./rebug proves these"
      ;;
    same) say "proved, and of the sources that are here ($(noted kit))" ;;
    unknown) say "not noted as proved: another run than this script's built it; no source that is here is newer" ;;
  esac
}

# Answers a wish for help or for the version, for which nothing is proved or built, as the program does, whose own text
# comes first where it is there.
answer_wish() {
  local status=0
  if [ "$state" != missing ]; then
    "$program" "$1"
    status=$?
  fi
  case $1 in
    --version | -V) say_state ;;
    *) if [ "$state" = missing ]; then explain; else say "before the words: --try answers from an unproved build"; fi ;;
  esac
  exit "$status"
}

# Gives the files that a word names, one a line: also that of --manifest=FILE and the like, and those of a recording,
# without the times, which pictures, timelines and schedules alone need.
files_of_word() {
  local file=$1 left_out=(! -name times)
  if [ -n "$needs_times" ]; then left_out=(); fi
  case $file in --*=*) file=${file#*=} ;; esac
  if [ "$name" = rebug_ask ] && [ -f "$file" ] && [ -f "$(dirname "$file")/trace" ]; then file=$(dirname "$file"); fi
  if [ "$name" = rebug_ask ] && [ -d "$file" ] && [ -f "$file/trace" ]; then
    find "$file" -type f ${left_out[@]+"${left_out[@]}"} ! -name replay ! -name report ! -name story
  elif [ -f "$file" ]; then
    printf '%s\n' "$file"
  fi
}

# Why `rt try`, which runs the program in a folder of its own, cannot be given a file under this name.
why_not() {
  case $1 in
    ../* | */../*) echo "a name with .. in it: go to a folder above, or give the whole path" ;;
    *=*) echo "a name with = in it" ;;
    program* | stdin* | stdout* | stderr*) echo "a name that begins with program, stdin, stdout or stderr" ;;
  esac
}

# Answers from an unproved build, which is kept nowhere. The kit's own lines are taken out of the standard error.
# Returns the program's status, or 3 where there is no answer.
try_words() {
  local word file why data=() said ended input=/dev/null
  if [ "${1-}" = ask ]; then input=/dev/stdin; fi
  command -v rt >/dev/null 2>&1 || { say "$no_kit"; return 3; }
  for word in "$@"; do
    while IFS= read -r file; do
      case $file in /*) continue ;; ./*) file=${file#./} ;; esac
      why=$(why_not "$file")
      [ -z "$why" ] || { say "an unproved build cannot be given $file: $why"; return 3; }
      data+=(--data "$file=$PWD/$file")
    done < <(files_of_word "$word")
  done
  said=$(mktemp) || return 3
  (cd "$crate" && rt try --seconds 600 ${data[@]+"${data[@]}"} -- "$@" <"$input" 2>"$said")
  ended=$(tail -n 1 "$said" | sed -n 's/^run=ended status=\([0-9]*\) .*proved=no$/\1/p')
  if [ -n "$ended" ]; then
    grep -v -E '^(interpreter|checked|races): |^run=ended ' "$said" >&2
    say "this answer comes from an unproved build of the sources that are here: no proof stands behind it"
  else
    cat "$said" >&2
    say "the unproved build gave no answer (as said above; its output may have 1 MiB, and ten minutes)"
    ended=3
  fi
  rm -f "$said"
  return "$ended"
}

# Runs the example of a checkout, and leaves both programs proved and built.
run_example() {
  local words=(--manifest build.ninja --trace trace --script script) ended
  cd "$top/examples/first" || exit 3
  say "no words were given, so this is the first example. In $PWD:"
  say "$top/rebug ${words[*]}"
  if [ -n "$is_there" ]; then
    "$program" "${words[@]}"
    ended=$?
  elif [ -n "$is_try" ]; then
    try_words "${words[@]}"
    ended=$?
  else
    say "the program is not yet proved; its answer from an unproved build comes first (a few minutes)"
    try_words "${words[@]}"
    prove -- "${words[@]}"
    ended=$?
    look_at rebug
  fi
  if [ -n "$is_try" ]; then
    say "next, the races of a recorded build. In $top: ./rebug --try races examples/flaky/passed"
  elif [ -n "$is_there" ]; then
    look_at rebug_ask
    if [ -z "$is_there" ]; then
      say "the second program, which answers words about a recording, is proved next"
      prove || exit
    fi
    say "next, ask a recorded build. In $top: ./rebug ask examples/flaky/passed"
  fi
  exit "$ended"
}
