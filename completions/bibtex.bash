# Completion of bibtex for bash.

# _bibtex_jobs: adds the jobs that the word begins, .aux files without the ending, and the folders.
_bibtex_jobs() {
  local word=$1 name
  word=${word#[\"\']}
  word=${word//\\/}
  while IFS= read -r name; do
    COMPREPLY+=("${name%.aux}")
  done < <(compgen -f -X '!*.aux' -- "$word")
  while IFS= read -r name; do
    COMPREPLY+=("$name")
  done < <(compgen -d -- "$word")
  compopt -o filenames 2> /dev/null
}

_bibtex() {
  local word=${COMP_WORDS[COMP_CWORD]} before=${COMP_WORDS[COMP_CWORD - 1]} dash rest
  COMPREPLY=()
  # A number comes after --min-crossrefs, which bash parts from its equals sign.
  [ "$before" != = ] || before=${COMP_WORDS[COMP_CWORD - 2]}
  case $before in -min-crossrefs | --min-crossrefs) return ;; esac
  case $word in
    -*)
      # Options may have one dash, as those of TeX Live's programs.
      dash=--
      [[ $word != -[!-]* ]] || dash=-
      rest=${word#-}
      mapfile -t COMPREPLY < <(compgen -P "$dash" -W 'terse min-crossrefs= quiet no-fallback version help resident' -- "${rest#-}")
      [[ ${COMPREPLY[*]} != *= ]] || compopt -o nospace 2> /dev/null ;;
    *) _bibtex_jobs "$word" ;;
  esac
} && complete -F _bibtex bibtex
