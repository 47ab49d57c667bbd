# Help and version, which the script answers itself.

# the words help [COMMAND], --help or --version
tell_about() {
  local topic=${2:-glock}
  case $1 in
    --version) tell_version; return ;;
    --help) topic=${2:-glock} ;;
  esac
  if [[ $topic =~ ^[a-z]+$ ]] && [ -f "$script/help/$topic.txt" ]; then
    sed "s#\./glock#$me#g" "$script/help/$topic.txt"
  else
    say "there is no help on \"$topic\"$(perhaps "$topic" "$commands $own_commands"); there is on ${commands// /, }, ${own_commands// /, }"
    return 2
  fi
}
