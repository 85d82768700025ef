# Completion of bibtex-why for bash.

_bibtex_why() {
  local word=${COMP_WORDS[COMP_CWORD]} before=${COMP_WORDS[COMP_CWORD - 1]} name
  COMPREPLY=()
  # Bash parts an option from its value at the equals sign.
  if [ "$before" = = ]; then
    before=${COMP_WORDS[COMP_CWORD - 2]}
  elif [ "$word" = = ]; then
    word=
  else
    before=
  fi
  case $before in -format | --format)
    mapfile -t COMPREPLY < <(compgen -W 'text json' -- "$word")
    return ;;
  esac
  case $word in
    -*)
      mapfile -t COMPREPLY < <(compgen -W '--exact --messages --format= --min-crossrefs= --version --help' -- "$word")
      [[ ${COMPREPLY[*]} != *= ]] || compopt -o nospace 2> /dev/null ;;
    *)
      while IFS= read -r name; do
        COMPREPLY+=("${name%.aux}")
      done < <(compgen -f -X '!*.aux' -- "$word"; compgen -d -- "$word")
      compopt -o filenames 2> /dev/null ;;
  esac
} && complete -F _bibtex_why bibtex-why
