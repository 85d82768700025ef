# Completion of bibtex-lsp for fish.

complete -c bibtex-lsp -f
complete -c bibtex-lsp -l job -x -a '(string replace -r "\\.aux\$" "" -- *.aux)' -d 'The job, the name of its .aux file'
complete -c bibtex-lsp -l search -x -a '(__fish_complete_directories)' -d 'Also look for files in this folder'
complete -c bibtex-lsp -l version -d 'Print the version'
complete -c bibtex-lsp -l help -d 'Print a summary of the options'
