# Completion of bibtex-check for fish.

# Prints the styles that the present word begins, and the folders.
function __fish_bibtex_check_styles
    set -l word (string unescape -- (commandline -ct))
    set -l folder (string replace -r '[^/]*$' '' -- $word)
    for file in (string replace -r '^~/' $HOME/ -- $folder)*.bst
        echo $folder(basename $file)
    end
    __fish_complete_directories $word ''
end

complete -c bibtex-check -f -a '(__fish_bibtex_check_styles)'
complete -c bibtex-check -o lint -l lint -d 'Also name what the style does not use and lacks'
complete -c bibtex-check -o types -l types -d 'Also list the entry types'
complete -c bibtex-check -o format -l format -x -a 'text json' -d 'Print text or JSON'
complete -c bibtex-check -o version -l version -d 'Print the version'
complete -c bibtex-check -o help -l help -d 'Print a summary of the options'
