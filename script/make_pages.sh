#!/usr/bin/env bash
# Makes of the pages of help a manual page or the completions of a shell: script/make_pages.sh man|bash|zsh
set -u
script=$(cd "$(dirname "$0")" && pwd)
version=$(head -n 1 "$script/../VERSION")

# each command of help's first page with what it does, as `command<tab>text`
commands() { sed -n '/^Commands$/,/^$/s/^  \([a-z]*\)  *\(.*\)/\1\t\2/p' "$script/help/glock.txt"; }

# each option of a command's page with the first line of what it does, as `option<tab>text`
options() { sed -n '/^Options/,/^$/s/^  \(--\{0,1\}[a-z-]*\)\( [A-Z][A-Z:]*\)\{0,1\}  *\(.*\)/\1\t\3/p' "$script/help/$1.txt"; }

# the text of help as it stands, for troff
as_it_stands() { sed 's/\\/\\e/g; s/-/\\-/g; s/^\([.'\'']\)/\\\&\1/; s/\.\/glock/glock/g' "$1"; }

man() {
  printf '.TH GLOCK 1 "" "glock %s" "User commands"\n.SH NAME\nglock \\- plans a ship lock\n.SH DESCRIPTION\n.nf\n' "$version"
  as_it_stands "$script/help/glock.txt"
  echo .fi
  commands | while IFS=$'\t' read -r command _; do
    printf '.SH %s\n.nf\n' "${command^^}"
    as_it_stands "$script/help/$command.txt"
    echo .fi
  done
}

bash_completion() {
  echo "# Completion of glock for bash, made by script/make_pages.sh."
  echo '_glock() {'
  echo '  local word=${COMP_WORDS[COMP_CWORD]} options='
  echo '  case ${COMP_WORDS[1]-} in'
  commands | while IFS=$'\t' read -r command _; do
    printf '    %s) options="%s" ;;\n' "$command" "$(options "$command" | cut -f 1 | tr '\n' ' ')--help"
  done
  echo '  esac'
  printf '  if [ "$COMP_CWORD" = 1 ] || { [ "$COMP_CWORD" = 2 ] && [ "${COMP_WORDS[1]}" = help ]; }; then\n    options="%s --help --version"\n' \
    "$(commands | cut -f 1 | tr '\n' ' ' | sed 's/ $//')"
  echo '  elif [[ $word != -* ]]; then'
  echo '    COMPREPLY=($(compgen -f -- "$word"))'
  echo '    compopt -o filenames 2>/dev/null'
  echo '    return'
  echo '  fi'
  echo '  COMPREPLY=($(compgen -W "$options" -- "$word"))'
  echo '}'
  echo 'complete -F _glock glock ./glock'
}

# a word and what it does, in quotes for zsh
described() { sed "s/'/'\\\\''/g; s/:/\\\\:/g; s/\t/:/; s/.*/'&'/" | tr '\n' ' '; }

# (`commands` and `options` are names of zsh's own.)
zsh_completion() {
  echo '#compdef glock'
  echo '# Completion of glock for zsh, made by script/make_pages.sh.'
  echo 'local -a glock_commands glock_options'
  echo "glock_commands=($(commands | described))"
  echo 'if (( CURRENT == 2 )) || [[ $CURRENT == 3 && ${words[2]} == help ]]; then'
  echo '  _describe command glock_commands'
  echo '  return'
  echo 'fi'
  echo 'case ${words[2]} in'
  commands | while IFS=$'\t' read -r command _; do echo "  $command) glock_options=($(options "$command" | described)) ;;"; done
  echo 'esac'
  echo '_describe -o option glock_options'
  echo '_files'
}

case ${1-} in
  man) man ;;
  bash) bash_completion ;;
  zsh) zsh_completion ;;
  *) echo "script/make_pages.sh man|bash|zsh" >&2; exit 2 ;;
esac
