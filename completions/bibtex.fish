# Completion of bibtex for fish.

# Prints the jobs that the present word begins, .aux files without the ending, and the folders.
function __fish_bibtex_jobs
    set -l word (string unescape -- (commandline -ct))
    set -l folder (string replace -r '[^/]*$' '' -- $word)
    for file in (string replace -r '^~/' $HOME/ -- $folder)*.aux
        echo $folder(basename $file .aux)
    end
    __fish_complete_directories $word ''
end

complete -c bibtex -f -a '(__fish_bibtex_jobs)'
complete -c bibtex -o terse -l terse -d 'Print only messages'
complete -c bibtex -o min-crossrefs -l min-crossrefs -x -d 'Include an uncited entry once N entries cross-reference it'
complete -c bibtex -o quiet -l quiet -d 'Print no hints'
complete -c bibtex -o no-fallback -l no-fallback -d 'Never let another bibtex do the job'
complete -c bibtex -o version -l version -d 'Print the version'
complete -c bibtex -o help -l help -d 'Print a summary of the options'
complete -c bibtex -l resident -d 'Stay beside an editor and answer its commands'
