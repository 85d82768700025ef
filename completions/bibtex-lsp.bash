# Completion of bibtex-lsp for bash.

_bibtex_lsp() {
  local word=${COMP_WORDS[COMP_CWORD]} before=${COMP_WORDS[COMP_CWORD - 1]} name
  COMPREPLY=()
  # Bash parts an option from its value at the equals sign.
  if [ "$before" = = ]; then
    before=${COMP_WORDS[COMP_CWORD - 2]}
  elif [ "$word" = = ]; then
    word=
  else
    before=
  fi
  case $before in
    --job)
      while IFS= read -r name; do
        COMPREPLY+=("${name%.aux}")
      done < <(compgen -f -X '!*.aux' -- "$word") ;;
    --search)
      mapfile -t COMPREPLY < <(compgen -d -- "$word")
      compopt -o filenames 2> /dev/null ;;
    *)
      mapfile -t COMPREPLY < <(compgen -W '--job= --search= --version --help' -- "$word")
      [[ ${COMPREPLY[*]} != *= ]] || compopt -o nospace 2> /dev/null ;;
  esac
} && complete -F _bibtex_lsp bibtex-lsp
