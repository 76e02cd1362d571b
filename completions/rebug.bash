# Completion of rebug's words in bash: `source` this file. tools/front made it.
_rebug() {
  local word=${COMP_WORDS[COMP_CWORD]} first=${COMP_WORDS[1]} place=1
  if [ "$first" = --try ]; then first=${COMP_WORDS[2]} place=2; fi
  COMPREPLY=()
  if [ "$COMP_CWORD" -le "$place" ]; then
    COMPREPLY=($(compgen -W "record provoke mend shuffle rerun actions reuse causes summary flakes explore help races certify replay ask picture timeline compare schedule --try --manifest --trace --script --workers --migrate --help --version" -- "$word"))
    return
  fi
  if [ "$first" = help ]; then
    COMPREPLY=($(compgen -W "record provoke shuffle mend explore rerun actions reuse causes summary flakes races certify replay ask picture timeline compare schedule" -- "$word"))
    return
  fi
  case $word in -*) ;; *) return ;; esac
  case $first in
    races) COMPREPLY=($(compgen -W "--all --json --mend --witness --provoke --filters --format --baseline --write-baseline --color" -- "$word")) ;;
    certify) COMPREPLY=($(compgen -W "--all --json --strict --trust --filters --format --baseline --write-baseline --color" -- "$word")) ;;
    replay) COMPREPLY=($(compgen -W "--color" -- "$word")) ;;
    ask) COMPREPLY=($(compgen -W "--json --color" -- "$word")) ;;
    picture) COMPREPLY=($(compgen -W "--html --event" -- "$word")) ;;
    compare) COMPREPLY=($(compgen -W "--all --json" -- "$word")) ;;
    schedule) COMPREPLY=($(compgen -W "-j --faster --pool --without --json" -- "$word")) ;;
    record) COMPREPLY=($(compgen -W "--check --rebug --help -j --from-logs --jobs-as-run --lanes --anyway --force --verbose --output --observe --observe=if-possible --observer --keep-log --contents" -- "$word")) ;;
    provoke) COMPREPLY=($(compgen -W "--help --all --stale --in-place --rebug" -- "$word")) ;;
    shuffle) COMPREPLY=($(compgen -W "--help --list --runs --repeat --seed --overlap --blocks --mend-all --observe --in-copy --budget --limit --most-memory -j --json" -- "$word")) ;;
    mend) COMPREPLY=($(compgen -W "--help --apply --json --rebug" -- "$word")) ;;
    explore) COMPREPLY=($(compgen -W "--help --compare --rebug" -- "$word")) ;;
    rerun) COMPREPLY=($(compgen -W "--help --stamps --date --folder --user -f -j --limit --json" -- "$word")) ;;
    actions) COMPREPLY=($(compgen -W "--help --json" -- "$word")) ;;
    reuse) COMPREPLY=($(compgen -W "--help --without --any-environment --json" -- "$word")) ;;
    causes) COMPREPLY=($(compgen -W "--help --why --files --without --any-environment --all --json" -- "$word")) ;;
    summary) COMPREPLY=($(compgen -W "--help --label --without-findings" -- "$word")) ;;
    flakes) COMPREPLY=($(compgen -W "--help --anchor --partial --json" -- "$word")) ;;
    -*) COMPREPLY=($(compgen -W "--try --manifest --trace --script --workers --migrate --help --version" -- "$word")) ;;
  esac
}
complete -o default -F _rebug rebug ./rebug
