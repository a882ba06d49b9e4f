# Completions of ix_export for bash.
_ix_export() {
  local word=${COMP_WORDS[COMP_CWORD]} before=${COMP_WORDS[COMP_CWORD - 1]} command= it
  COMPREPLY=()
  # Bash splits an argument at `=`: of --blocks=FILE it completes FILE.
  if [ "$word" = = ]; then
    word=
  elif [ "$before" = = ]; then
    before=${COMP_WORDS[COMP_CWORD - 2]}
  fi
  for it in "${COMP_WORDS[@]:1:COMP_CWORD-1}"; do
    case $it in
      get | jobs | job | check-jobs | selector | root | block | show | inspect | verify | receive)
        command=$it
        break
        ;;
    esac
  done
  case $before in
    --blocks | --jobs | --with | --without | --without-list)
      mapfile -t COMPREPLY < <(compgen -f -- "$word")
      compopt -o filenames 2>/dev/null
      return
      ;;
    --out | -o)
      it=-d
      [ "$command" = jobs ] || it=-f
      mapfile -t COMPREPLY < <(compgen "$it" -- "$word")
      compopt -o filenames 2>/dev/null
      return
      ;;
    --walkers | --verifiers)
      mapfile -t COMPREPLY < <(compgen -W '1 2 4 8 16 32 64' -- "$word")
      return
      ;;
    --allow-missing)
      mapfile -t COMPREPLY < <(compgen -W 'raw dag-cbor all' -- "$word")
      return
      ;;
    --prefetch)
      mapfile -t COMPREPLY < <(compgen -W 'auto on off' -- "$word")
      return
      ;;
    --scope)
      mapfile -t COMPREPLY < <(compgen -W 'all block entity' -- "$word")
      return
      ;;
    --root | --segment | --path | --selector | --selector-hex | --limit | --max-limit | --cid | --hex | --part | --max-input | --max-block) return ;;
  esac
  case $command in
    get) it='--blocks --root --segment --scope --selector --selector-hex --limit --once --every-arrival --without --without-list --allow-missing --out -o --walkers --verifiers --prefetch --max-input --carv2 --prefer-sound --whole --complete --partial --sync --no-sync --paths --json --progress --quiet -q --verbose -v --help -h' ;;
    jobs) it='--blocks --jobs --out -o --part --resume --without --without-list --allow-missing --max-limit --walkers --verifiers --prefetch --max-input --carv2 --prefer-sound --once --every-arrival --whole --complete --partial --sync --no-sync --paths --json --progress --quiet -q --verbose -v --help -h' ;;
    job) it='--blocks --scope --max-limit --max-input --carv2 --prefer-sound --quiet -q --help -h' ;;
    check-jobs) it='--part --max-limit --max-input --json --quiet -q --help -h' ;;
    selector) it='--hex --quiet -q --help -h' ;;
    root) it='--cid --max-input --quiet -q --verbose -v --help -h' ;;
    block) it='--blocks --out -o --max-input --carv2 --prefer-sound --sync --no-sync --json --progress --quiet -q --help -h' ;;
    show) it='--blocks --pretty --max-input --carv2 --prefer-sound --json --progress --quiet -q --help -h' ;;
    inspect) it='--list --cids --max-input --carv2 --json --quiet -q --help -h' ;;
    verify) it='--with --prefer-sound --allow-missing --selector --selector-hex --path --scope --jobs --part --exact --blocks-only --all --paths --verifiers --max-input --carv2 --json --progress --quiet -q --help -h' ;;
    receive) it='--root --scope --selector --selector-hex --limit --with --prefer-sound --allow-missing --any-header --out -o --max-block --whole --sync --no-sync --paths --json --progress --quiet -q --verbose -v --help -h' ;;
    *) it='get jobs job check-jobs selector root block show inspect verify receive --help -h --version -V' ;;
  esac
  case $command in
    check-jobs | inspect | verify | receive)
      if [[ $word != -* ]]; then
        mapfile -t COMPREPLY < <(compgen -f -- "$word")
        compopt -o filenames 2>/dev/null
        return
      fi
      ;;
  esac
  mapfile -t COMPREPLY < <(compgen -W "$it" -- "$word")
}
complete -F _ix_export ix_export
