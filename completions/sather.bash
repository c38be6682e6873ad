# Completion of the words of sather in bash.
_sather() {
  local word=${COMP_WORDS[COMP_CWORD]} before=${COMP_WORDS[COMP_CWORD - 1]} options='' endings='*.sa'
  local commands='run build check exec gen selftest listing assemble dump help version explain lib'
  COMPREPLY=()
  if [ "$COMP_CWORD" -eq 1 ]; then
    mapfile -t COMPREPLY < <(compgen -W "$commands" -- "$word")
    return
  fi
  case ${COMP_WORDS[1]} in
    run) options='--fuel --room --stats --contracts --trace --explain' ;;
    build) options='--room --contracts --explain --sites -o' ;;
    check) options='--contracts --all --explain' ;;
    exec) options='--fuel --pages --stats --explain' endings='*.wasm' ;;
    listing) endings='*.wasm' ;;
    assemble) options='-o' endings='*' ;;
    dump) options='--ast --typed --cfg --regions --contracts --all --explain' ;;
    help)
      mapfile -t COMPREPLY < <(compgen -W "$commands" -- "$word")
      return
      ;;
    lib)
      mapfile -t COMPREPLY < <(compgen -W "$("${COMP_WORDS[0]}" lib 2>/dev/null | grep -o '^[a-z][a-z0-9_]*')" -- "$word")
      return
      ;;
    *) return ;;
  esac
  case $before in
    --fuel | --pages | --room) return ;;
    -o) endings='*.wasm' ;;
    --sites) endings='*.json' ;;
  esac
  case $word in
    -*) mapfile -t COMPREPLY < <(compgen -W "$options" -- "$word") ;;
    *) mapfile -t COMPREPLY < <(compgen -f -X "!$endings" -- "$word"; compgen -d -- "$word") ;;
  esac
}
complete -o filenames -F _sather sather
